//! The listing, the search over pairs and the edits of this checkout beside those of another one,
//! whose functions are linked under names of their own. Only time is compared: the answers may differ.
//! Prints a line a row: its name, and what both take. See docs/BENCH.md.

#![allow(dead_code)]

mod blocks;
mod clock;
mod edited;

use std::hint::black_box;

use blocks::{block, few_masks, Kind, Random};
use clock::{round, ROUNDS};
use edited::{rows, Change, EDITS};

/// How many bytes have room for every listing.
const MOST_TEXT: usize = 3654;

type Listing = unsafe extern "C" fn(*const u8, usize, *mut u8, usize) -> usize;
type Pairs = unsafe extern "C" fn(*const u8, usize, usize) -> usize;
type Edits = unsafe extern "C" fn(*const u8, usize, *const u8, usize, usize, usize) -> usize;
type EditAgain = unsafe extern "C" fn(*const u8, usize, *const u8, usize, usize) -> usize;

extern "C" {
    fn telgouin_listing(bytes: *const u8, len: usize, text: *mut u8, text_len: usize) -> usize;
    fn telgouin_pairs(bytes: *const u8, len: usize, limit: usize) -> usize;
    fn other_listing(bytes: *const u8, len: usize, text: *mut u8, text_len: usize) -> usize;
    fn other_pairs(bytes: *const u8, len: usize, limit: usize) -> usize;
    fn telgouin_edits(
        b: *const u8,
        n: usize,
        a: *const u8,
        m: usize,
        node: usize,
        t: usize,
    ) -> usize;
    fn other_edits(b: *const u8, n: usize, a: *const u8, m: usize, node: usize, t: usize) -> usize;
    fn telgouin_edit_again(b: *const u8, n: usize, a: *const u8, m: usize, t: usize) -> usize;
    fn other_edit_again(b: *const u8, n: usize, a: *const u8, m: usize, t: usize) -> usize;

    /// Stands before all of these, and moves them by its size: where a loop comes to lie within 64
    /// bytes changes its time.
    static bench_pad: u8;
}

const LISTINGS: [Listing; 2] = [telgouin_listing, other_listing];
const SEARCHES: [Pairs; 2] = [telgouin_pairs, other_pairs];
const TURNS: [Edits; 2] = [telgouin_edits, other_edits];
const AGAIN: [EditAgain; 2] = [telgouin_edit_again, other_edit_again];

/// A row: what both take of the processor for one of the blocks, by turns, the shortest of all
/// rounds.
fn row(name: &str, scale: f64, blocks: &[Vec<u8>], check: impl Fn(usize, &[u8])) {
    let mut times = [f64::INFINITY; 2];
    for _ in 0..ROUNDS {
        for (way, time) in times.iter_mut().enumerate() {
            *time = time.min(round(blocks, |bytes| check(way, bytes)) * scale);
        }
    }
    let [this, other] = times;
    println!("{name}\t{this}\t{other}");
}

/// The row of the listings of these blocks, and that of the searches over all their pairs.
fn listings(name: &str, blocks: &[Vec<u8>]) {
    row(&format!("{name}, µs"), 1e6, blocks, |way, bytes| {
        let mut text = [0; MOST_TEXT];
        // SAFETY: both pointers are valid for their lengths.
        black_box(unsafe {
            LISTINGS[way](bytes.as_ptr(), bytes.len(), text.as_mut_ptr(), text.len())
        });
    });
}

fn searches(name: &str, blocks: &[Vec<u8>]) {
    row(
        &format!("pairs of {name}, ms"),
        1e3,
        blocks,
        |way, bytes| {
            // SAFETY: the pointer is valid for the length.
            black_box(unsafe { SEARCHES[way](bytes.as_ptr(), bytes.len(), usize::MAX) });
        },
    );
}

/// The row of an edit: what both take for a call with all edits, less one with none.
fn edits(row: &edited::Row) {
    let call = |way: usize, edits: usize| {
        let (b, n) = (row.bytes.as_ptr(), row.bytes.len());
        // SAFETY: the pointers are valid for their lengths.
        let answered = match &row.change {
            Change::Again(a) => unsafe { AGAIN[way](b, n, a.as_ptr(), a.len(), edits) },
            Change::Turns(a) => unsafe { TURNS[way](b, n, a.as_ptr(), a.len(), 0, edits / 2) },
        };
        assert_eq!(answered, edits, "every edit is answered");
    };
    let blocks = std::slice::from_ref(&row.bytes);
    let mut times = [[f64::INFINITY; 2]; 2];
    for _ in 0..4 * ROUNDS {
        for (way, [check, edited]) in times.iter_mut().enumerate() {
            *check = check.min(round(blocks, |_| call(way, 0)) * 1e6);
            *edited = edited.min(round(blocks, |_| call(way, EDITS)) * 1e6);
        }
    }
    let [this, other] = times.map(|[check, edited]| (edited - check) / EDITS as f64);
    println!("edit: {}, µs\t{this}\t{other}", row.name);
    println!(
        "check of {}, µs\t{}\t{}",
        row.name, times[0][0], times[1][0]
    );
}

fn main() {
    black_box(&raw const bench_pad);
    rows().iter().for_each(edits);
    for kind in [Kind::Sparse, Kind::Between, Kind::Dense] {
        for (nodes, variables) in [(25, 10), (100, 2), (100, 4), (100, 6), (100, 10), (200, 10)] {
            let mut random = Random((1000 * nodes + variables) as u64);
            let count = if kind == Kind::Dense { 2 } else { 8 };
            let blocks: Vec<_> = (0..count)
                .map(|_| block(kind, nodes, variables, &mut random))
                .collect();
            listings(
                &format!("{kind}, {nodes} nodes, {variables} variables"),
                &blocks,
            );
        }
    }
    for kind in [Kind::Sparse, Kind::Wide] {
        for nodes in [50, 100, 200] {
            let mut random = Random(nodes as u64);
            let blocks = [(); 2].map(|()| block(kind, nodes, 10, &mut random));
            searches(&format!("{kind}, {nodes} nodes"), &blocks);
        }
    }
    for masks in [1, 2, 3, 5] {
        let blocks = [few_masks(100, masks)];
        let name = format!("registers, {masks} of 10 variables masks");
        listings(&name, &blocks);
        searches(&name, &blocks);
    }
}
