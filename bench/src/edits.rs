//! Edits of an open block of 200 nodes beside fresh checks of it.

use crate::clock::{figure, round, ROUNDS};
use crate::edited::{rows, Change, Row, EDITS};
use crate::telgouin;

/// Rounds of which the shortest counts, here for each of two calls whose times are subtracted.
const EDIT_ROUNDS: usize = 4 * ROUNDS;

/// Microseconds for opening the block of a row, which is a fresh check, and for that with all edits.
struct Times {
    check: f64,
    edited: f64,
}

/// What a call takes that opens the block and then makes so many edits.
fn edits(row: &Row, edits: usize) -> f64 {
    round(std::slice::from_ref(&row.bytes), |bytes| {
        let answered = match &row.change {
            Change::Again(record) => telgouin::edit_again(bytes, record, edits),
            Change::Turns(record) => telgouin::edits(bytes, record, 0, edits / 2),
        };
        assert_eq!(answered, edits, "every edit is answered");
    }) * 1e6
}

impl Times {
    fn measure(&mut self, row: &Row) {
        self.check = self.check.min(edits(row, 0));
        self.edited = self.edited.min(edits(row, EDITS));
    }

    /// Microseconds an edit.
    fn edit(&self) -> f64 {
        (self.edited - self.check) / EDITS as f64
    }
}

/// Measures edits and fresh checks by turns, and prints them.
pub fn print() {
    let mut rows: Vec<(Row, Times)> = rows()
        .into_iter()
        .map(|row| {
            let times = Times {
                check: f64::INFINITY,
                edited: f64::INFINITY,
            };
            (row, times)
        })
        .collect();
    for _ in 0..EDIT_ROUNDS {
        rows.iter_mut().for_each(|(row, times)| times.measure(row));
    }
    println!("\nAn edit of an open block of 200 nodes, 10 variables, beside a fresh check of it\n");
    println!(
        "| block, and what is added or removed | fresh check, µs | edit, µs | edit / check |"
    );
    println!("|---|---:|---:|---:|");
    for (row, times) in &rows {
        let ratio = format!("{:.4}", times.edit() / times.check);
        let figures = [times.check, times.edit()].map(figure).join(" | ");
        println!("| {} | {figures} | {ratio} |", row.name);
    }
}
