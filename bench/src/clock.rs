//! How long a round of checks takes, and how its figure is printed.

/// Rounds of which the shortest counts, and for how long one goes through the blocks of a cell.
pub const ROUNDS: usize = 5;
const ROUND_SECONDS: f64 = 0.005;

/// Goes through the blocks, once or until a round's time is over, and gives the seconds a block.
pub fn round(blocks: &[Vec<u8>], mut check: impl FnMut(&[u8])) -> f64 {
    let start = thread_seconds();
    let mut checked = 0;
    let mut seconds = 0.0;
    while seconds < ROUND_SECONDS {
        blocks.iter().for_each(|bytes| check(bytes));
        checked += blocks.len();
        seconds = thread_seconds() - start;
    }
    seconds / checked as f64
}

/// The processor time that this thread has taken: what other programs take is not in it.
fn thread_seconds() -> f64 {
    #[repr(C)]
    struct Timespec {
        seconds: i64,
        nanoseconds: i64,
    }
    extern "C" {
        fn clock_gettime(clock: i32, time: *mut Timespec) -> i32;
    }
    const THREAD_CLOCK: i32 = 3;
    let mut time = Timespec {
        seconds: 0,
        nanoseconds: 0,
    };
    // SAFETY: the C library writes one `timespec`, which on 64-bit Linux has this layout.
    let status = unsafe { clock_gettime(THREAD_CLOCK, &mut time) };
    assert_eq!(status, 0, "the thread's clock can be read");
    time.seconds as f64 + time.nanoseconds as f64 * 1e-9
}

/// A number with two decimal places or, where it is larger, one or none, and commas at thousands.
pub fn figure(number: f64) -> String {
    match number {
        n if n < 10.0 => format!("{n:.2}"),
        n if n < 100.0 => format!("{n:.1}"),
        n if n < 999.5 => format!("{n:.0}"),
        n => {
            let whole = n.round() as u64;
            match (whole / 1_000_000, whole / 1000 % 1000, whole % 1000) {
                (0, thousands, ones) => format!("{thousands},{ones:03}"),
                (millions, thousands, ones) => format!("{millions},{thousands:03},{ones:03}"),
            }
        }
    }
}
