//! The time a block takes.

use crate::blocks::{block, Kind, Random};
use crate::clock::{figure, round, ROUNDS};
use crate::compare::Tally;
use crate::pairs::{self, Found};
use crate::plain;
use crate::telgouin::MOST_TEXT;
use crate::ways::WAYS;

/// Blocks of one kind and size.
pub struct Cell {
    pub kind: Kind,
    pub nodes: usize,
    pub variables: usize,
    blocks: Vec<Vec<u8>>,
    /// The mean number of sets in a family of these blocks.
    sets: f64,
    /// Microseconds a block, for each way to check.
    times: [f64; 3],
}

impl Cell {
    /// Makes the blocks of a kind and size, and compares them.
    pub fn new(kind: Kind, nodes: usize, variables: usize, tally: &mut Tally) -> Cell {
        let mut random = Random((1000 * nodes + variables) as u64);
        // Dense blocks are much alike, and each takes long.
        let count = if kind == Kind::Dense { 2 } else { 8 };
        let blocks: Vec<_> = (0..count)
            .map(|_| block(kind, nodes, variables, &mut random))
            .collect();
        let listings: Vec<_> = blocks.iter().map(|bytes| tally.compare(bytes)).collect();
        Cell {
            kind,
            nodes,
            variables,
            blocks,
            sets: mean_sets(&listings),
            times: [f64::INFINITY; 3],
        }
    }
}

/// Measures all cells in each round, so that what disturbs one round disturbs a cell once only.
pub fn measure(cells: &mut [Cell]) {
    let mut text = [0; MOST_TEXT];
    for _ in 0..ROUNDS {
        for cell in cells.iter_mut() {
            for (way, time) in WAYS.iter().zip(&mut cell.times) {
                let seconds = round(&cell.blocks, |bytes| way.check(bytes, &mut text));
                *time = time.min(seconds * 1e6);
            }
        }
    }
}

/// Blocks of one kind and size where no pair is suspect.
pub struct PairsCell {
    kind: Kind,
    nodes: usize,
    blocks: Vec<Vec<u8>>,
    tested: usize,
    pairs: usize,
    /// The mean number of sets in a glitch family of a tested node.
    sets: f64,
    /// Milliseconds a block, for each way to search.
    times: [f64; 3],
}

impl PairsCell {
    /// Makes the blocks of a kind and size, with 10 variables, and compares them.
    pub fn new(kind: Kind, nodes: usize, tally: &mut Tally) -> PairsCell {
        let mut random = Random(nodes as u64);
        let blocks = [(); 2].map(|()| block(kind, nodes, 10, &mut random));
        let mut sets = 0.0;
        let (mut tested, mut pairs) = (0, 0);
        for bytes in &blocks {
            tally.compare(bytes);
            let plain = pairs::Block::new(bytes, plain::by_words);
            let search = plain.search(usize::MAX);
            assert_eq!(
                search.found,
                Found::NoPair,
                "a block to measure has no pair"
            );
            (tested, pairs) = (plain.tested(), search.looked);
            sets += f64::from(plain.sets()) / (tested * blocks.len()) as f64;
        }
        PairsCell {
            kind,
            nodes,
            blocks: blocks.to_vec(),
            tested,
            pairs,
            sets,
            times: [f64::INFINITY; 3],
        }
    }
}

/// Measures the searches over all pairs, as `measure` does the listings.
pub fn measure_pairs(cells: &mut [PairsCell]) {
    for _ in 0..ROUNDS {
        for cell in cells.iter_mut() {
            for (way, time) in WAYS.iter().zip(&mut cell.times) {
                let seconds = round(&cell.blocks, |bytes| way.search(bytes));
                *time = time.min(seconds * 1e3);
            }
        }
    }
}

/// The mean of the numbers of sets in these listings: the last two fields of a node's line.
fn mean_sets(listings: &[String]) -> f64 {
    let (mut sets, mut families) = (0.0, 0.0);
    for line in listings.iter().flat_map(|text| text.lines()) {
        if let [number, _, settled, glitch] = line.split(' ').collect::<Vec<_>>()[..] {
            if number != "vars" {
                sets += settled.parse::<f64>().unwrap() + glitch.parse::<f64>().unwrap();
                families += 2.0;
            }
        }
    }
    sets / f64::max(families, 1.0)
}

/// A table of these cells, each with its name.
pub fn print_table<'a>(
    title: &str,
    cells: impl Iterator<Item = &'a Cell>,
    name: impl Fn(&Cell) -> String,
) {
    println!("\n{title}\n");
    println!(
        "| block | sets a family | Telgouin, µs | pairs, µs | words, µs \
         | Telgouin / pairs | Telgouin / words |"
    );
    println!("|---|---:|---:|---:|---:|---:|---:|");
    for cell in cells {
        let [telgouin, pairs, words] = cell.times;
        let figures = [
            cell.sets,
            telgouin,
            pairs,
            words,
            telgouin / pairs,
            telgouin / words,
        ];
        println!("| {} | {} |", name(cell), figures.map(figure).join(" | "));
    }
}

/// The table of the searches over all pairs.
pub fn print_pairs(title: &str, cells: &[PairsCell]) {
    println!("\n{title}\n");
    println!(
        "| block | tested nodes | pairs of nodes | sets a glitch family | Telgouin, ms | pairs, ms \
         | words, ms | Telgouin / pairs | Telgouin / words | Telgouin, µs a pair |"
    );
    println!("|---|{}", "---:|".repeat(9));
    for cell in cells {
        let [telgouin, pairs, words] = cell.times;
        let figures = [
            cell.sets,
            telgouin,
            pairs,
            words,
            telgouin / pairs,
            telgouin / words,
            telgouin * 1e3 / cell.pairs as f64,
        ];
        println!(
            "| {}, {} nodes | {} | {} | {} |",
            cell.kind,
            cell.nodes,
            cell.tested,
            figure(cell.pairs as f64),
            figures.map(figure).join(" | ")
        );
    }
}
