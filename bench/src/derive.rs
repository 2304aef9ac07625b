//! Derivations: the plain form, the comparison with Telgouin's, and what they take beside a listing.

use crate::blocks::{any, block, Kind, Random};
use crate::clock::{figure, round, ROUNDS};
use crate::plain::{by_words, families, read, Families, Family, Node};
use crate::telgouin::{self, MOST_TEXT};

/// At most so many steps, of so many bytes each.
const MOST_STEPS: usize = 512;
const STEP: usize = 5;

/// A block by its nodes and their families.
struct Block {
    nodes: Vec<Node>,
    families: Vec<Families>,
}

impl Block {
    fn new(bytes: &[u8]) -> Block {
        let Ok(netlist) = read(bytes) else {
            panic!("a block that is read")
        };
        let families = families(&netlist.nodes, by_words);
        Block {
            nodes: netlist.nodes,
            families,
        }
    }

    fn family(&self, node: usize, layer: usize) -> &Family {
        match layer {
            0 => &self.families[node].settled,
            _ => &self.families[node].glitch,
        }
    }

    /// Writes the steps of a set behind those so far; false once there are more than `room`.
    fn explain(
        &self,
        node: usize,
        layer: usize,
        set: u16,
        room: usize,
        steps: &mut Vec<u8>,
    ) -> bool {
        if steps.len() == STEP * room {
            return false;
        }
        let has = |operand: usize, set: u16| self.family(operand, layer).has(set);
        let one = |rule: u8, operand: usize, layer: usize| (rule, vec![(operand, layer, set)]);
        let both = |a: usize, b: usize| {
            let lowest = self
                .family(a, layer)
                .sets()
                .find(|&first| has(b, set ^ first));
            let first = lowest.expect("a set of the product");
            (6, vec![(a, layer, first), (b, layer, set ^ first)])
        };
        let (rule, needs) = match self.nodes[node] {
            Node::Input(_) => (1, vec![]),
            Node::Not(a) if layer == 0 || has(a, set) => one(2, a, layer),
            Node::Not(_) => (3, vec![]),
            Node::Register(a) => one(2, a, 0),
            Node::Xor(a, b) if layer == 0 => both(a, b),
            Node::Xor(a, b) | Node::And(a, b) | Node::Or(a, b) => match () {
                _ if set == 0 => (3, vec![]),
                _ if has(a, set) => one(4, a, layer),
                _ if has(b, set) => one(5, b, layer),
                _ => both(a, b),
            },
        };
        let [low, high] = set.to_le_bytes();
        steps.extend([node as u8, layer as u8, rule, low, high]);
        needs
            .into_iter()
            .all(|(operand, layer, set)| self.explain(operand, layer, set, room, steps))
    }

    /// The steps of a set, or none where there are more than fit.
    fn derive(&self, node: usize, layer: usize, set: u16, room: usize) -> Option<Vec<u8>> {
        let mut steps = Vec::new();
        self.explain(node, layer, set, room, &mut steps)
            .then_some(steps)
    }
}

/// How many derivations were compared, how many steps they have, and how many were refused with 15 and 16.
#[derive(Default)]
pub struct Derivations {
    answered: usize,
    steps: usize,
    longest: usize,
    refused: [usize; 2],
}

impl Derivations {
    /// Asks for one derivation in a slice of so many bytes, and holds the reply and the slice to the plain form.
    fn compare(&mut self, bytes: &[u8], block: &Block, claim: (usize, usize, u16), length: usize) {
        let (node, layer, set) = claim;
        let room = MOST_STEPS.min(length / STEP);
        let before: Vec<u8> = (0..length).map(|at| at as u8 ^ 0xa5).collect();
        let mut slice = before.clone();
        let reply = telgouin::derive(bytes, node, layer, usize::from(set), &mut slice);
        let mut after = before;
        let expected = if !block.family(node, layer).has(set) {
            self.refused[1] += 1;
            16 * 4096 + usize::from(set)
        } else if let Some(steps) = block.derive(node, layer, set, room) {
            self.answered += 1;
            self.steps += steps.len() / STEP;
            self.longest = self.longest.max(steps.len() / STEP);
            after[..steps.len()].copy_from_slice(&steps);
            steps.len() / STEP
        } else {
            self.refused[0] += 1;
            15 * 4096 + room
        };
        if (reply, &slice) != (expected, &after) {
            eprintln!("{bytes:02x?}: derivation of {claim:?} in {length} bytes: {reply} and not {expected}");
            std::process::exit(1);
        }
    }

    /// Compares derivations of all sets of random blocks, at each node in both layers.
    pub fn many() -> Derivations {
        let mut tally = Derivations::default();
        let mut random = Random(14);
        for round in 0..150 {
            let variables = 2 + round % 4;
            let bytes = any(12 + round % 9, variables, &mut random);
            let block = Block::new(&bytes);
            for node in 0..block.nodes.len() {
                for layer in [0, 1] {
                    for set in 0..1 << variables {
                        tally.compare(&bytes, &block, (node, layer, set), STEP * MOST_STEPS);
                        tally.compare(&bytes, &block, (node, layer, set), random.below(60));
                    }
                }
            }
        }
        for nodes in 1..12 {
            let bytes = doubling(nodes);
            tally.compare(
                &bytes,
                &Block::new(&bytes),
                (nodes, 0, 0),
                STEP * MOST_STEPS,
            );
        }
        tally
    }

    pub fn print(&self) {
        let Derivations {
            answered,
            steps,
            longest,
            refused: [fifteen, sixteen],
        } = self;
        println!(
            "\n{answered} derivations compared, no difference, of {steps} steps, {longest} at most. Refused, 15: {fifteen}, 16: {sixteen}."
        );
    }
}

/// An input without variables, and gates that are each the XOR of the node before with itself.
fn doubling(gates: usize) -> Vec<u8> {
    let mut bytes = vec![2, 0, 0];
    for node in 0..gates as u8 {
        bytes.extend([4, node, node]);
    }
    bytes.push(0);
    bytes
}

/// What is measured: a block, and the derivation of one of its sets.
struct Row {
    name: String,
    bytes: Vec<u8>,
    claim: (usize, usize, u16),
    steps: String,
    /// Microseconds for the listing, for the derivation, and for that in the plain form.
    listing: f64,
    derive: f64,
    plain: f64,
}

impl Row {
    fn new(name: String, bytes: Vec<u8>, node: usize, layer: usize) -> Row {
        let block = Block::new(&bytes);
        let family = block.family(node, layer);
        let length = |set: &u16| {
            let steps = block.derive(node, layer, *set, MOST_STEPS);
            steps.map_or(0, |steps| steps.len() / STEP)
        };
        // The set with most steps; where none fits, the first.
        let set = family.sets().max_by_key(length).expect("a set");
        let steps = match length(&set) {
            0 => "15".to_string(),
            steps => steps.to_string(),
        };
        Row {
            name,
            bytes,
            claim: (node, layer, set),
            steps,
            listing: f64::INFINITY,
            derive: f64::INFINITY,
            plain: f64::INFINITY,
        }
    }

    fn measure(&mut self) {
        let (node, layer, set) = self.claim;
        let blocks = std::slice::from_ref(&self.bytes);
        let mut text = [0; MOST_TEXT];
        let mut steps = [0; STEP * MOST_STEPS];
        let listing = round(blocks, |bytes| {
            telgouin::listing(bytes, &mut text);
        });
        let derive = round(blocks, |bytes| {
            telgouin::derive(bytes, node, layer, usize::from(set), &mut steps);
        });
        let plain = round(blocks, |bytes| {
            std::hint::black_box(Block::new(bytes).derive(node, layer, set, MOST_STEPS));
        });
        self.listing = self.listing.min(listing * 1e6);
        self.derive = self.derive.min(derive * 1e6);
        self.plain = self.plain.min(plain * 1e6);
    }
}

/// Measures derivations and listings by turns, and prints them.
pub fn print() {
    let mut rows: Vec<Row> = [Kind::Sparse, Kind::Between, Kind::Dense]
        .into_iter()
        .map(|kind| {
            let bytes = block(kind, 200, 10, &mut Random(200));
            Row::new(format!("{kind}, 200 nodes, the last"), bytes, 199, 1)
        })
        .collect();
    for gates in [8, 199] {
        rows.push(Row::new(
            format!("{gates} XORs, each doubles"),
            doubling(gates),
            gates,
            0,
        ));
    }
    for _ in 0..ROUNDS {
        rows.iter_mut().for_each(Row::measure);
    }
    println!("\nThe derivation of a set, of those of a node the one with most steps, beside a listing of the block\n");
    println!("| block, and node | steps, or refusal | listing, µs | derivation, µs | plain, words, µs | derivation / listing | derivation / plain |");
    println!("|---|---:|---:|---:|---:|---:|---:|");
    for row in &rows {
        let figures = [
            row.listing,
            row.derive,
            row.plain,
            row.derive / row.listing,
            row.derive / row.plain,
        ]
        .map(figure);
        println!("| {} | {} | {} |", row.name, row.steps, figures.join(" | "));
    }
}
