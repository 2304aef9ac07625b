//! The exported functions of the checker and of the crates `bench_pairs`, `bench_edits` and `bench_derivations`. A slice passes as
//! pointer and length.

use crate::pairs::{Found, Search};

/// How many bytes have room for every listing.
pub const MOST_TEXT: usize = 3654;

extern "C" {
    fn telgouin_listing(
        bytes: *const u8,
        bytes_len: usize,
        text: *mut u8,
        text_len: usize,
    ) -> usize;

    fn telgouin_pairs(bytes: *const u8, bytes_len: usize, limit: usize) -> usize;

    fn telgouin_edits(
        bytes: *const u8,
        bytes_len: usize,
        added: *const u8,
        added_len: usize,
        node: usize,
        times: usize,
    ) -> usize;

    fn telgouin_edit_again(
        bytes: *const u8,
        bytes_len: usize,
        added: *const u8,
        added_len: usize,
        times: usize,
    ) -> usize;

    fn telgouin_derive(
        bytes: *const u8,
        bytes_len: usize,
        node: usize,
        layer: usize,
        set: usize,
        steps: *mut u8,
        steps_len: usize,
    ) -> usize;
}

/// Writes the listing to the front of `text`, and returns how many bytes it has; a slice that is
/// too short keeps its contents.
pub fn listing(bytes: &[u8], text: &mut [u8]) -> usize {
    // SAFETY: both pointers are valid for their lengths, and the function requires nothing more.
    unsafe { telgouin_listing(bytes.as_ptr(), bytes.len(), text.as_mut_ptr(), text.len()) }
}

/// The search over pairs under a limit.
pub fn pairs(bytes: &[u8], limit: usize) -> Search {
    // SAFETY: the pointer is valid for the length, and the function requires nothing more.
    let packed = unsafe { telgouin_pairs(bytes.as_ptr(), bytes.len(), limit) };
    let number = |k: usize| (packed >> (24 - 12 * k)) & 0xfff;
    let found = match (packed >> 36) & 0xf {
        0 => Found::Refused(number(0), number(1)),
        1 => Found::Single(number(0), number(1)),
        2 => Found::NoPair,
        3 => Found::Pair(number(0), number(1), number(2)),
        4 => Found::Spent,
        case => panic!("telgouin_pairs gives case {case}"),
    };
    Search {
        found,
        looked: packed >> 40,
    }
}

/// Opens a block, and so many times removes a node and takes a record's node at the end: how many
/// of these edits are answered. No times: it is a fresh check.
pub fn edits(bytes: &[u8], added: &[u8], node: usize, times: usize) -> usize {
    // SAFETY: both pointers are valid for their lengths, and the function requires nothing more.
    unsafe {
        telgouin_edits(
            bytes.as_ptr(),
            bytes.len(),
            added.as_ptr(),
            added.len(),
            node,
            times,
        )
    }
}

/// Opens a block, and so many times takes a record's node at the end of it as it was opened or,
/// where there is no record, removes its last node: how many of these edits are answered. No times:
/// it is a fresh check.
pub fn edit_again(bytes: &[u8], added: &[u8], times: usize) -> usize {
    // SAFETY: both pointers are valid for their lengths, and the function requires nothing more.
    unsafe {
        telgouin_edit_again(
            bytes.as_ptr(),
            bytes.len(),
            added.as_ptr(),
            added.len(),
            times,
        )
    }
}

/// Writes the derivation of a set to the front of `steps`: the number of steps, or 4,096 times a
/// refusal's number and its place.
pub fn derive(bytes: &[u8], node: usize, layer: usize, set: usize, steps: &mut [u8]) -> usize {
    // SAFETY: both pointers are valid for their lengths, and the function requires nothing more.
    unsafe {
        telgouin_derive(
            bytes.as_ptr(),
            bytes.len(),
            node,
            layer,
            set,
            steps.as_mut_ptr(),
            steps.len(),
        )
    }
}
