//! Every block is checked by Telgouin and by the plain implementation with both its products, and
//! the answers are held to one another: the listings, and the searches over pairs under several
//! limits. The first difference ends the program.

use crate::blocks::{self, Random, MOST_NODES, MOST_VARIABLES};
use crate::document;
use crate::pairs::{self, Found};
use crate::plain;
use crate::telgouin::{self, MOST_TEXT};

/// How many blocks were compared, and what became of them.
pub struct Tally {
    blocks: usize,
    /// Those read, by their glitch half.
    clear: usize,
    suspect: usize,
    /// Of the suspect ones, those whose node has a suspect set of a lower number than the one that
    /// it reports; and the searches that find such a pair.
    lower: usize,
    lower_pairs: usize,
    /// Those refused, by number.
    refused: [usize; 10],
    /// Searches over pairs, by what they find.
    searches: [(&'static str, usize); 5],
}

/// What a lent slice holds before a call.
const BEFORE: u8 = 0xa5;

impl Tally {
    pub fn new() -> Tally {
        Tally {
            blocks: 0,
            clear: 0,
            suspect: 0,
            lower: 0,
            lower_pairs: 0,
            refused: [0; 10],
            searches: ["refused", "single", "no pair", "pair", "spent"].map(|name| (name, 0)),
        }
    }

    /// Compares one block, and gives its listing.
    pub fn compare(&mut self, bytes: &[u8]) -> String {
        let text = plain::listing(bytes, plain::by_pairs);
        if plain::listing(bytes, plain::by_words) != text {
            differs(bytes, "between the two plain products", &text, b"");
        }
        // A slice with room for every listing, one with just room for this one, one that is a byte
        // too short, and one of no bytes.
        for length in [MOST_TEXT + 100, text.len(), text.len() - 1, 0] {
            let mut slice = vec![BEFORE; length];
            let count = telgouin::listing(bytes, &mut slice);
            let written = if count <= length { count } else { 0 };
            let what = if count != text.len() {
                format!("{count} bytes of text and not {}", text.len())
            } else if slice[..written] != text.as_bytes()[..written] {
                "the text".to_string()
            } else if slice[written..].iter().any(|&byte| byte != BEFORE) {
                format!("a slice of {length} bytes has changed beyond byte {written}")
            } else {
                continue;
            };
            differs(bytes, &what, &text, &slice[..written]);
        }
        self.blocks += 1;
        let refused = text
            .strip_prefix("refused ")
            .and_then(|rest| rest.split(' ').next());
        match refused {
            Some(number) => self.refused[number.parse::<usize>().unwrap()] += 1,
            None if text.ends_with("glitch clear\n") => self.clear += 1,
            None => {
                self.suspect += 1;
                self.lower += usize::from(has_lower(bytes));
            }
        }
        self.compare_pairs(bytes);
        text
    }

    /// Compares the searches over the pairs of one block: with no limit, under the smallest limits,
    /// and under those around the first suspect pair and around the number of pairs.
    fn compare_pairs(&mut self, bytes: &[u8]) {
        let plain = [plain::by_pairs, plain::by_words].map(|form| pairs::Block::new(bytes, form));
        let found_at = plain[1].search(usize::MAX).looked;
        let mut limits = vec![0, 1, usize::MAX];
        for edge in [found_at, plain[1].pairs()] {
            limits.extend([edge.saturating_sub(1), edge, edge + 1]);
        }
        limits.sort();
        limits.dedup();
        for limit in limits {
            let search = telgouin::pairs(bytes, limit);
            for block in &plain {
                let expected = block.search(limit);
                if search != expected {
                    let what = format!("the search over pairs under the limit {limit}");
                    let [expected, search] = [expected, search].map(|s| format!("{s:?}"));
                    differs(bytes, &what, &expected, search.as_bytes());
                }
            }
            let case = match search.found {
                Found::Refused(..) => 0,
                Found::Single(..) => 1,
                Found::NoPair => 2,
                Found::Pair(i, j, _) => {
                    self.lower_pairs += usize::from(plain[1].has_lower(i, j));
                    3
                }
                Found::Spent => 4,
            };
            self.searches[case].1 += 1;
        }
    }

    pub fn print(&self) {
        println!("{} blocks compared, no difference.", self.blocks);
        println!(
            "Glitch half clear: {}. Glitch half with a suspect: {}, of these with a lower-numbered \
             suspect set: {}.",
            self.clear, self.suspect, self.lower
        );
        let refused: Vec<_> = (1..=9)
            .map(|number| format!("{number}: {}", self.refused[number]))
            .collect();
        println!("Refused, by number: {}.", refused.join(", "));
        let all: usize = self.searches.iter().map(|(_, count)| count).sum();
        let cases = self
            .searches
            .map(|(name, count)| format!("{name}: {count}"));
        println!("{all} searches over pairs compared, no difference.");
        println!("By what they find: {}.", cases.join(", "));
        println!(
            "Pairs with a lower-numbered suspect set: {}.",
            self.lower_pairs
        );
    }
}

/// Whether the first suspect node of a block for glitching signals has a suspect set of a lower
/// number than the one that it reports.
fn has_lower(bytes: &[u8]) -> bool {
    let netlist = plain::read(bytes).unwrap_or_default();
    let families = plain::families(&netlist.nodes, plain::by_words);
    let first = plain::first_suspect(&netlist, families.iter().map(|both| &both.glitch));
    first.is_some_and(|(_, sets)| sets.has_lower())
}

/// Reports a difference and ends the program.
fn differs(bytes: &[u8], what: &str, plain: &str, telgouin: &[u8]) -> ! {
    eprintln!("DIFFERENCE: {what}");
    eprintln!("block of {} bytes: {bytes:02x?}", bytes.len());
    eprintln!("plain:\n{plain}");
    eprintln!("telgouin:\n{}", String::from_utf8_lossy(telgouin));
    std::process::exit(1);
}

/// The blocks of document 01, against its own words.
pub fn document(tally: &mut Tally) {
    for (name, bytes, expected) in document::BLOCKS {
        let text = tally.compare(bytes);
        let agrees = match expected.strip_prefix("..") {
            Some(last) => text.ends_with(last),
            None => text == *expected,
        };
        if !agrees {
            eprintln!(
                "DIFFERENCE: {name} of document 01: expected\n{expected}\nand both say\n{text}"
            );
            std::process::exit(1);
        }
    }
}

/// The edges of the limits; block A with every change of one byte, and cut at every byte; blocks
/// with any nodes; damaged ones; blocks with many registers, in which pairs are suspect or clear;
/// blocks with several suspect sets at a node or a pair.
pub fn many(tally: &mut Tally) {
    let mut random = Random(1);
    for variables in [MOST_VARIABLES, MOST_VARIABLES + 1] {
        for nodes in [
            0,
            1,
            MOST_NODES - 1,
            MOST_NODES,
            MOST_NODES + 1,
            2 * MOST_NODES,
        ] {
            let mut bytes = [1, 1].repeat(variables);
            bytes.extend([2, 255, 3].repeat(nodes));
            tally.compare(&bytes);
            bytes.push(0);
            tally.compare(&bytes);
            bytes.push(1);
            tally.compare(&bytes);
        }
    }
    for at in 0..document::BLOCK_A.len() {
        tally.compare(&document::BLOCK_A[..at]);
        for value in 0..=255 {
            let mut bytes = document::BLOCK_A.to_vec();
            bytes[at] = value;
            tally.compare(&bytes);
        }
    }
    for _ in 0..3000 {
        let (nodes, variables) = (random.below(60), random.below(7));
        let block = blocks::any(nodes, variables, &mut random);
        tally.compare(&block);
        for _ in 0..4 {
            tally.compare(&blocks::damaged(block.clone(), &mut random));
        }
    }
    for _ in 0..100 {
        let (nodes, variables) = (random.below(50), 7 + random.below(4));
        tally.compare(&blocks::any(nodes, variables, &mut random));
    }
    for _ in 0..3000 {
        let (nodes, variables) = (random.below(40), 4 + random.below(7));
        tally.compare(&blocks::registers(nodes, variables, &mut random));
    }
    for at in 0..100 {
        let nodes = if at < 4 {
            MOST_NODES
        } else {
            20 + random.below(100)
        };
        tally.compare(&blocks::late(nodes, 7 + random.below(4), &mut random));
    }
    for masks in 1..MOST_VARIABLES {
        tally.compare(&blocks::few_masks(40, masks));
    }
    for at in 0..2000 {
        let (gates, variables) = (1 + random.below(6), 4 + random.below(7));
        tally.compare(&blocks::open(gates, variables, at % 4, &mut random));
    }
}
