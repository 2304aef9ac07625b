//! The search over pairs of tested nodes in plain Rust. As in `plain`, no code is shared with the
//! checker.

use crate::plain::{self, Family, Product, Refusal};

/// What a search over pairs finds.
#[derive(Clone, Copy, PartialEq, Debug)]
pub enum Found {
    /// The number of the refusal and its place.
    Refused(usize, usize),
    /// A node that is suspect by itself, and its set.
    Single(usize, usize),
    NoPair,
    /// The first suspect pair, the lower node before the higher, and its set.
    Pair(usize, usize, usize),
    /// The limit is spent.
    Spent,
}

/// What was found, and how many pairs were looked at.
#[derive(Clone, Copy, PartialEq, Debug)]
pub struct Search {
    pub found: Found,
    pub looked: usize,
}

/// A block that is ready for a search over its pairs.
pub struct Block {
    /// What is found without a look at any pair.
    before: Option<Found>,
    /// The tested nodes, from the lowest on, with their glitch families.
    tested: Vec<(usize, Family)>,
    /// All suspect sets.
    suspects: Family,
    product: Product,
}

impl Block {
    pub fn new(bytes: &[u8], product: Product) -> Block {
        let mut block = Block {
            before: None,
            tested: Vec::new(),
            suspects: Family::default(),
            product,
        };
        let netlist = match plain::read(bytes) {
            Ok(netlist) => netlist,
            Err(Refusal { number, place }) => {
                block.before = Some(Found::Refused(number, place));
                return block;
            }
        };
        block.suspects = netlist.suspects();
        let families = plain::families(&netlist.nodes, product);
        let glitch = families.iter().map(|both| &both.glitch);
        block.before = plain::first_suspect(&netlist, glitch.clone())
            .and_then(|(node, sets)| Some(Found::Single(node, usize::from(sets.reported()?))));
        let numbered = netlist.nodes.iter().zip(glitch).enumerate();
        block.tested = numbered
            .filter(|(_, (node, _))| node.tested())
            .map(|(i, (_, family))| (i, *family))
            .collect();
        block
    }

    /// The number of tested nodes, and of pairs of them.
    pub fn tested(&self) -> usize {
        self.tested.len()
    }

    pub fn pairs(&self) -> usize {
        self.tested() * self.tested().saturating_sub(1) / 2
    }

    /// The number of sets in the glitch families of the tested nodes.
    pub fn sets(&self) -> u32 {
        self.tested.iter().map(|(_, family)| family.len()).sum()
    }

    /// The suspect sets of a pair's product.
    fn suspects_of(&self, first: &Family, second: &Family) -> Family {
        (self.product)(first, second).common(&self.suspects)
    }

    /// Whether a pair has a suspect set of a lower number than the one that it reports.
    pub fn has_lower(&self, i: usize, j: usize) -> bool {
        let family = |node| &self.tested.iter().find(|(k, _)| *k == node).unwrap().1;
        self.suspects_of(family(i), family(j)).has_lower()
    }

    /// Looks at the pairs in their order, at most as many as the limit allows.
    pub fn search(&self, limit: usize) -> Search {
        let mut looked = 0;
        let found = self.before.unwrap_or_else(|| {
            for (lower, (j, second)) in self.tested.iter().enumerate() {
                for (i, first) in &self.tested[..lower] {
                    if looked == limit {
                        return Found::Spent;
                    }
                    looked += 1;
                    if let Some(set) = self.suspects_of(first, second).reported() {
                        return Found::Pair(*i, *j, usize::from(set));
                    }
                }
            }
            Found::NoPair
        });
        Search { found, looked }
    }
}
