//! Open blocks of 200 nodes and edits of them, to be measured.

use crate::blocks::{block, Kind, Random};

/// How many edits one call makes. There are 100 inputs to remove.
pub const EDITS: usize = 180;

/// What a call that opens a block then does.
pub enum Change {
    /// Takes a record's node at the end of the block as it was opened, or removes its last node
    /// where there are no bytes of one, each time anew.
    Again(Vec<u8>),
    /// Removes node 0 and takes a record's node at the end, by turns.
    Turns(Vec<u8>),
}

/// A block, and the edits of it.
pub struct Row {
    pub name: String,
    pub bytes: Vec<u8>,
    pub change: Change,
}

/// The offsets of the records of a block, the end record's included.
fn records(bytes: &[u8]) -> Vec<usize> {
    let mut at = 0;
    let mut offsets = vec![0];
    while bytes[at] != 0 {
        at += if matches!(bytes[at], 1 | 3 | 7) { 2 } else { 3 };
        offsets.push(at);
    }
    offsets
}

/// The last node of a block is added to it.
fn addition(kind: Kind) -> Row {
    let mut bytes = block(kind, 200, 10, &mut Random(200));
    let offsets = records(&bytes);
    let ends = &offsets[offsets.len() - 2..];
    let record = bytes[ends[0]..ends[1]].to_vec();
    bytes.truncate(ends[0]);
    bytes.push(0);
    Row {
        name: format!("{kind}, the last node added"),
        bytes,
        change: Change::Again(record),
    }
}

/// The last node of a block is removed.
fn removal(kind: Kind) -> Row {
    Row {
        name: format!("{kind}, the last node removed"),
        bytes: block(kind, 200, 10, &mut Random(200)),
        change: Change::Again(vec![]),
    }
}

/// Node 0 is removed and an input taken at the end: a block of 100 nodes behind 100 inputs that
/// none of them names.
fn first(kind: Kind) -> Row {
    let inner = block(kind, 100, 10, &mut Random(100));
    let mut bytes = inner[..20].to_vec();
    for _ in 0..100 {
        bytes.extend([2, 2, 0]);
    }
    let offsets = records(&inner);
    for pair in offsets[10..].windows(2) {
        let record = &inner[pair[0]..pair[1]];
        bytes.push(record[0]);
        let shift = if record[0] == 2 { 0 } else { 100 };
        bytes.extend(record[1..].iter().map(|b| b + shift));
    }
    bytes.push(0);
    Row {
        name: format!("{kind}, node 0 removed and an input added, each"),
        bytes,
        change: Change::Turns(vec![2, 2, 0]),
    }
}

/// All rows.
pub fn rows() -> Vec<Row> {
    [Kind::Sparse, Kind::Between, Kind::Dense]
        .into_iter()
        .flat_map(|kind| [addition(kind), removal(kind), first(kind)])
        .collect()
}
