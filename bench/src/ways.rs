//! The ways to check a block that are measured against one another.

use std::fmt;
use std::hint::black_box;

use crate::pairs;
use crate::plain;
use crate::telgouin;

#[derive(Clone, Copy)]
pub enum Way {
    Telgouin,
    Pairs,
    Words,
}

pub const WAYS: [Way; 3] = [Way::Telgouin, Way::Pairs, Way::Words];

impl Way {
    /// Makes the listing of these bytes; `text` is Telgouin's to write to.
    pub fn check(self, bytes: &[u8], text: &mut [u8]) {
        let bytes = black_box(bytes);
        match self {
            Way::Telgouin => {
                black_box(telgouin::listing(bytes, black_box(text)));
            }
            Way::Pairs => {
                black_box(plain::listing(bytes, plain::by_pairs));
            }
            Way::Words => {
                black_box(plain::listing(bytes, plain::by_words));
            }
        }
    }

    /// Searches over all pairs of these bytes.
    pub fn search(self, bytes: &[u8]) {
        let bytes = black_box(bytes);
        let limit = black_box(usize::MAX);
        black_box(match self {
            Way::Telgouin => telgouin::pairs(bytes, limit),
            Way::Pairs => pairs::Block::new(bytes, plain::by_pairs).search(limit),
            Way::Words => pairs::Block::new(bytes, plain::by_words).search(limit),
        });
    }
}

impl fmt::Display for Way {
    fn fmt(&self, f: &mut fmt::Formatter) -> fmt::Result {
        f.write_str(match self {
            Way::Telgouin => "Telgouin",
            Way::Pairs => "pairs",
            Way::Words => "words",
        })
    }
}
