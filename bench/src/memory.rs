//! The peak resident size of a process that checks one block.

use std::process::Command;

use crate::blocks::{block, Kind, Random};
use crate::telgouin::MOST_TEXT;
use crate::ways::WAYS;

/// Processes for each way to check, of which the smallest counts.
const PROCESSES: usize = 9;

/// Runs this program again for each way to check, and for none, and prints the peaks.
pub fn print() {
    println!(
        "\nPeak resident size of a process that checks one block of 200 nodes, 10 variables\n"
    );
    println!("| checked by | peak, kB |");
    println!("|---|---:|");
    let program = std::env::current_exe().expect("the path of this program");
    let peak_of = |way: &str| {
        let output = Command::new(&program).arg(way).output();
        let text = output.expect("this program runs again").stdout;
        let number = String::from_utf8_lossy(&text).trim().parse::<u64>();
        number.expect("a number of kB")
    };
    let ways = WAYS.map(|way| way.to_string());
    for way in ["nothing"]
        .into_iter()
        .chain(ways.iter().map(|way| &way[..]))
    {
        let peak = (0..PROCESSES).map(|_| peak_of(way)).min().unwrap();
        println!("| {way} | {peak} |");
    }
    println!("\nThis whole run: {} kB.", peak());
    println!("Telgouin's arrays, on the stack: 51,200 work bytes and 3,654 bytes of text.");
}

/// Checks the block in one way, or in none, and prints the peak of this process.
pub fn one_way(name: &str) {
    let bytes = block(Kind::Between, 200, 10, &mut Random(1));
    if let Some(way) = WAYS.iter().find(|way| way.to_string() == name) {
        way.check(&bytes, &mut [0; MOST_TEXT]);
    }
    println!("{}", peak());
}

/// The peak resident size of this process in kB: `VmHWM`, as the kernel tells it.
fn peak() -> String {
    let status = std::fs::read_to_string("/proc/self/status").unwrap_or_default();
    let line = status.lines().find_map(|line| line.strip_prefix("VmHWM:"));
    let size = line.and_then(|line| line.trim().strip_suffix(" kB"));
    size.unwrap_or("unknown").to_string()
}
