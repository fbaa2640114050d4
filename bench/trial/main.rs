//! `trial SEED DATAGRAMS SCRIPTS TEXTS SHOWN`: tries so many of each, as the tests of the suite `library` try a few, and
//! ends with status 0 where nothing differs.
#![tactic(auto)]

mod trial;

use std::env::Env;
use std::process::ExitCode;
use std::{env, io};
use trial::Wanted;

/// The number that the word at a place spells.
fn number(words: &[String], at: usize) -> io::Result<u64> {
    let unreadable = || io::Error::from(io::ErrorKind::InvalidInput);
    let word = words.get(at).ok_or_else(unreadable)?;
    word.parse().map_err(|_| unreadable())
}

/// The request in the words of the command line.
fn read_words(words: &[String]) -> io::Result<Wanted> {
    Ok(Wanted {
        seed: number(words, 0)?,
        datagrams: number(words, 1)?,
        scripts: number(words, 2)?,
        texts: number(words, 3)?,
        shown: number(words, 4)?,
    })
}

fn main(rt: HostRuntime) -> io::Result<ExitCode> {
    let words: Vec<String> = env::args(&rt)?.skip(1).collect(rt.alloc())?;
    let wanted = read_words(&words)?;
    let is_alike = trial::run(rt.alloc(), wanted, &mut rt.stdout(), &mut rt.stderr())?;
    Ok(ExitCode::from(if is_alike { 0 } else { 1 }))
}
