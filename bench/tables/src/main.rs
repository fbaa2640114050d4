//! Times how long texts of tables take to be read: `table_times ROUNDS FILE..`. Of each text it takes the shortest of
//! the rounds, so that a pause of the machine counts for nothing.
#![tactic(auto)]

use neli_tables::Table;
use std::alloc::Global;
use std::env::{self, Env};
use std::fs;
use std::io;
use std::time::{Duration, Instant};

/// A text and its file's name.
#[derive(Drop)]
struct Text {
    name: String,
    bytes: Vec<u8>,
}

/// How long a text takes to be read, and how many lines it has; 0 where it is refused.
fn time_once(rt: &HostRuntime, text: &Text) -> io::Result<(Duration, usize)> {
    let start = Instant::now(rt)?;
    let table = Table::read(rt.alloc(), &text.bytes);
    let taken = start.elapsed(rt)?;
    let lines = match &table {
        Ok(table) => table.lines().len(),
        Err(_) => 0,
    };
    Ok((taken, lines))
}

/// The shortest time of so many rounds.
fn time_best(rt: &HostRuntime, text: &Text, rounds: u32) -> io::Result<(Duration, usize)> {
    let mut best = time_once(rt, text)?;
    for _ in 1..rounds {
        let next = time_once(rt, text)?;
        if next.0 < best.0 {
            best = next;
        }
    }
    Ok(best)
}

/// The texts of these files.
fn texts_of(rt: &HostRuntime, names: Vec<String>) -> io::Result<Vec<Text>> {
    let mut texts = Vec::new(rt.alloc());
    for name in names {
        let bytes = fs::read(rt, &name)?;
        texts.push(Text { name, bytes })?;
    }
    Ok(texts)
}

/// Prints the time of each text.
fn print_times(rt: &HostRuntime, texts: &[Text], rounds: u32) -> io::Result<()> {
    for text in texts {
        let (taken, lines) = time_best(rt, text, rounds)?;
        let micros = taken.as_micros();
        let name = &text.name;
        println!(rt; "{micros} us {lines} lines {name}")?;
    }
    Ok(())
}

fn main(rt: HostRuntime) -> io::Result<()> {
    let mut words: Vec<String> = env::args(&rt)?.skip(1).collect(rt.alloc())?;
    if words.is_empty() {
        return Ok(());
    }
    let rounds = words.remove(0).parse().unwrap_or(1);
    let texts = texts_of(&rt, words)?;
    print_times(&rt, &texts, rounds)
}
