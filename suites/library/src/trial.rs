//! Recorded datagrams changed at random, scripts of the results, texts of tables: each is checked against what is proved
//! of all.
//!
//! - [`agree`]: a datagram read lent, untyped and typed is the same, and written again it is itself, with zeros for its
//!   padding, as [`zeroed`] walks over it.
//! - [`scripts`]: both stores of the router have the same outcomes for a script.
//! - [`texts`]: a text of a table is read, or refused by a line that it has. [`shown`]: the messages of a datagram walk by
//!   the tables that are built in, and print as JSON.
//! - [`changes`]: cuts, lengths, flips, splices and other orders. [`recorded`]: what is changed.
//!
//! `bench/run-trial` tries more of each.

mod agree;
mod changes;
mod recorded;
mod scripts;
mod shown;
mod texts;
mod zeroed;

use agree::{Counts, Trouble, check};
use changes::changed;
use rand::SeedableRng;
use rand::rngs::SmallRng;
use recorded::RECORDED;
use scripts::compare;
use shown::{Walked, all_tables, changed_message, check_shown};
use std::alloc::Global;
use std::io::{self, Write};
use std::str;
use texts::{Read as Texts, built_in_texts, changed_text, check_text};

/// A seed, and how many of each are tried: datagrams, scripts, texts, and datagrams that are shown.
#[derive(Clone, Copy)]
pub struct Wanted {
    pub seed: u64,
    pub datagrams: u64,
    pub scripts: u64,
    pub texts: u64,
    pub shown: u64,
}

/// The error when memory runs out.
fn out_of_memory() -> io::Error {
    io::Error::from(io::ErrorKind::OutOfMemory)
}

/// The difference, and the datagram or the script's seed: a line.
fn tell(out: &mut impl Write, what: &str, bytes: &[u8]) -> io::Result<()> {
    write!(out, "differs: {what}: ")?;
    for byte in bytes {
        write!(out, "{byte:02x}")?;
    }
    writeln!(out)
}

/// Tries so many datagrams, and returns the number that differ.
fn try_datagrams(
    alloc: Global,
    out: &mut impl Write,
    wanted: Wanted,
    recorded: &[Vec<u8>],
    counts: &mut Counts,
) -> io::Result<u64> {
    let mut random = SmallRng::seed_from_u64(wanted.seed);
    let mut differing = 0u64;
    for _ in 0..wanted.datagrams {
        let bytes = changed(alloc, &mut random, recorded).map_err(|_| out_of_memory())?;
        match check(alloc, &bytes, counts) {
            Ok(()) => {}
            Err(Trouble::Memory) => return Err(out_of_memory()),
            Err(Trouble::Differs(what)) => {
                differing = differing.saturating_add(1);
                tell(out, what, &bytes)?;
            }
        }
    }
    Ok(differing)
}

/// Tries so many scripts, each of a seed of its own, and returns the number that differ.
fn try_scripts(
    alloc: Global,
    out: &mut impl Write,
    wanted: Wanted,
    recorded: &[Vec<u8>],
) -> io::Result<u64> {
    let mut differing = 0u64;
    for number in 0..wanted.scripts {
        let seed = wanted.seed.wrapping_add(number);
        if !compare(alloc, seed, recorded).map_err(|_| out_of_memory())? {
            differing = differing.saturating_add(1);
            tell(out, "script", &seed.to_be_bytes())?;
        }
    }
    Ok(differing)
}

/// What to do about a check: counts a difference and prints it.
fn take(
    out: &mut impl Write,
    checked: Result<(), Trouble>,
    bytes: &[u8],
    differing: &mut u64,
) -> io::Result<()> {
    match checked {
        Ok(()) => Ok(()),
        Err(Trouble::Memory) => Err(out_of_memory()),
        Err(Trouble::Differs(what)) => {
            *differing = differing.saturating_add(1);
            tell(out, what, bytes)
        }
    }
}

/// Tries so many texts of tables, and returns the number that differ.
fn try_texts(
    alloc: Global,
    out: &mut impl Write,
    wanted: Wanted,
    recorded: &[Vec<u8>],
    counts: &mut Texts,
) -> io::Result<u64> {
    let mut random = SmallRng::seed_from_u64(wanted.seed);
    let texts = built_in_texts(alloc).map_err(|_| out_of_memory())?;
    let mut differing = 0u64;
    for _ in 0..wanted.texts {
        let text = changed_text(alloc, &mut random, &texts).map_err(|_| out_of_memory())?;
        let checked = check_text(alloc, &mut random, &text, recorded, counts);
        take(out, checked, &text, &mut differing)?;
    }
    Ok(differing)
}

/// Shows so many datagrams, and returns the number that differ.
fn try_shown(
    alloc: Global,
    out: &mut impl Write,
    wanted: Wanted,
    recorded: &[Vec<u8>],
    counts: &mut Walked,
) -> io::Result<u64> {
    let mut random = SmallRng::seed_from_u64(wanted.seed);
    let tables = all_tables(alloc).map_err(|_| out_of_memory())?;
    let mut differing = 0u64;
    for _ in 0..wanted.shown {
        let (protocol, bytes) = changed_message(alloc, &mut random, recorded, &tables).map_err(
            |_| out_of_memory(),
        )?;
        let checked = check_shown(alloc, &tables, protocol, &bytes, counts);
        take(out, checked, &bytes, &mut differing)?;
    }
    Ok(differing)
}

/// Tries the tables: so many texts, and so many datagrams. Returns whether nothing differed.
fn run_tables(
    alloc: Global,
    out: &mut impl Write,
    err: &mut impl Write,
    wanted: Wanted,
    recorded: &[Vec<u8>],
) -> io::Result<bool> {
    let (mut read, mut walked) = (Texts::default(), Walked::default());
    let third = try_texts(alloc, out, wanted, recorded, &mut read)?;
    let fourth = try_shown(alloc, out, wanted, recorded, &mut walked)?;
    let (accepted, refused, by_texts) = (read.read, read.refused, read.items);
    let (messages, items, printed) = (walked.messages, walked.items, walked.printed);
    writeln!(
        err,
        "{accepted} texts were read, {refused} refused; {by_texts} attributes by them"
    )?;
    writeln!(
        err,
        "{messages} messages, {items} attributes, {printed} bytes of JSON"
    )?;
    let (texts, shown) = (wanted.texts, wanted.shown);
    writeln!(
        out,
        "{texts} texts, {third} differ; {shown} shown, {fourth} differ"
    )?;
    Ok(third == 0 && fourth == 0)
}

/// The recorded datagrams.
fn recorded_bytes(alloc: Global) -> io::Result<Vec<Vec<u8>>> {
    let mut all = Vec::new(alloc);
    for digits in RECORDED {
        let bytes = hex::decode(alloc, digits).map_err(|_| io::Error::from(
            io::ErrorKind::InvalidData,
        ))?;
        all.push(bytes)?;
    }
    Ok(all)
}

/// Tries as many as are wanted, prints each difference and then two lines that count, and returns whether nothing
/// differed; to `err` it prints what was read.
pub fn run(
    alloc: Global,
    wanted: Wanted,
    out: &mut impl Write,
    err: &mut impl Write,
) -> io::Result<bool> {
    let recorded = recorded_bytes(alloc)?;
    let mut counts = Counts::default();
    let first = try_datagrams(alloc, out, wanted, &recorded, &mut counts)?;
    let second = try_scripts(alloc, out, wanted, &recorded)?;
    let Wanted {
        seed,
        datagrams,
        scripts,
        ..
    } = wanted;
    let Counts { messages, faults } = counts;
    writeln!(err, "{messages} messages and {faults} faults were read")?;
    writeln!(
        out,
        "seed {seed}: {datagrams} datagrams, {first} differ; {scripts} scripts, {second} differ"
    )?;
    let is_alike = run_tables(alloc, out, err, wanted, &recorded)?;
    Ok(first == 0 && second == 0 && is_alike)
}

#[test]
fn what_is_changed_at_random_agrees(rt: HostRuntime) -> io::Result<()> {
    let wanted = Wanted {
        seed: 1,
        datagrams: 2000,
        scripts: 200,
        texts: 60,
        shown: 300,
    };
    let (mut out, mut err) = (Vec::new(rt.alloc()), Vec::new(rt.alloc()));
    let is_alike = run(rt.alloc(), wanted, &mut out, &mut err)?;
    let said = str::from_utf8(&out).expect(&rt, "text");
    let want =
        "seed 1: 2000 datagrams, 0 differ; 200 scripts, 0 differ\n60 texts, 0 differ; 300 shown, 0 differ\n";
    assert_eq!(rt; said, want);
    assert!(rt; is_alike);
    Ok(())
}
