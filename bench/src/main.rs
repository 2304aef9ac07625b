//! The benchmark: Telgouin's listing, its search over pairs and its derivations against a plain Rust implementation.
//! It compares every answer, then measures time and memory. See docs/BENCH.md.

mod blocks;
mod clock;
mod compare;
mod derive;
mod document;
mod edited;
mod edits;
mod memory;
mod pairs;
mod plain;
mod telgouin;
mod time;
mod ways;

use blocks::Kind;
use compare::Tally;
use derive::Derivations;
use time::{measure, measure_pairs, print_pairs, print_table, Cell, PairsCell};

/// The numbers of nodes and variables that are measured.
const SIZES: [(usize, usize); 9] = [
    (100, 2),
    (100, 4),
    (100, 6),
    (100, 8),
    (10, 10),
    (25, 10),
    (50, 10),
    (100, 10),
    (200, 10),
];

fn main() {
    // The program runs itself with the name of a way to check, for that way's memory.
    if let Some(way) = std::env::args().nth(1) {
        return memory::one_way(&way);
    }

    let mut tally = Tally::new();
    compare::document(&mut tally);
    compare::many(&mut tally);
    let mut cells = Vec::new();
    for kind in [Kind::Sparse, Kind::Between, Kind::Dense] {
        cells.extend(SIZES.map(|(nodes, variables)| Cell::new(kind, nodes, variables, &mut tally)));
    }
    cells.push(Cell::new(Kind::Cut, 100, 10, &mut tally));
    let mut pairs_cells = Vec::new();
    for kind in [Kind::Sparse, Kind::Wide] {
        pairs_cells.extend([50, 100, 200].map(|nodes| PairsCell::new(kind, nodes, &mut tally)));
    }
    tally.print();
    Derivations::many().print();

    measure(&mut cells);
    let checked = || cells.iter().filter(|cell| cell.kind != Kind::Cut);
    print_table(
        "By kind of block: 100 nodes, 10 variables",
        cells
            .iter()
            .filter(|cell| (cell.nodes, cell.variables) == (100, 10)),
        |cell| cell.kind.to_string(),
    );
    print_table(
        "By number of nodes: 10 variables",
        checked().filter(|cell| cell.variables == 10),
        |cell| format!("{}, {} nodes", cell.kind, cell.nodes),
    );
    print_table(
        "By number of variables: 100 nodes",
        checked().filter(|cell| cell.nodes == 100),
        |cell| format!("{}, {} variables", cell.kind, cell.variables),
    );
    measure_pairs(&mut pairs_cells);
    print_pairs("The search over all pairs: 10 variables", &pairs_cells);
    edits::print();
    derive::print();
    memory::print();
}
