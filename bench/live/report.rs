//! What a reader of bench/run-live in Rust counts and prints, as `reader.c` does.

use std::error::Error;
use std::time::Instant;

/// What a list had. `sum` adds up the types of the attributes, without the two upper bits, and the lengths of their
/// payloads; a reader that does not know it leaves it 0.
#[derive(Default)]
pub struct Counts {
    pub messages: u64,
    pub attributes: u64,
    pub sum: u64,
}

/// `struct rusage` of Linux on 64 bits: seconds and microseconds of user and of system, and 14 more numbers.
#[derive(Default)]
#[repr(C)]
struct Usage {
    user: [i64; 2],
    system: [i64; 2],
    others: [i64; 14],
}

unsafe extern "C" {
    fn getrusage(who: i32, usage: *mut Usage) -> i32;
}

/// The seconds of user and of system that this process took.
fn used() -> [f64; 2] {
    let mut usage = Usage::default();
    // SAFETY: it is a structure of that layout, which lives longer than the call.
    unsafe { getrusage(0, &raw mut usage) };
    [usage.user, usage.system].map(|[seconds, micros]| seconds as f64 + micros as f64 / 1e6)
}

/// Reads the list that the command line names until its seconds have passed, and once at least. Prints what the last
/// one had and what one took.
pub fn run(read: impl Fn(&str, bool) -> Result<Counts, Box<dyn Error>>) -> Result<(), Box<dyn Error>> {
    let words: Vec<String> = std::env::args().collect();
    let [_, how, list, seconds] = words.as_slice() else { return Err("usage: READER HOW links|routes SECONDS".into()) };
    let wanted: f64 = seconds.parse()?;
    let (before, begin) = (used(), Instant::now());
    let mut times = 0.0;
    let (counts, clock) = loop {
        let counts = read(how, list == "links")?;
        times += 1.0;
        let passed = begin.elapsed().as_secs_f64();
        if passed >= wanted {
            break (counts, passed / times);
        }
    };
    let after = used();
    let [user, system] = [0, 1].map(|it| (after[it] - before[it]) / times);
    let Counts { messages, attributes, sum } = counts;
    println!("{messages} {attributes} {sum} {user:.9} {system:.9} {clock:.9}");
    Ok(())
}
