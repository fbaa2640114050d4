//! A script: what happens to a cache, and what is in its table then.

use neli::Cursor;
use neli::cache::{Cache, Change, Changes, Keys};
use neli::err::NoMemory;
use neli::lent::{LentMessage, LentMessages};
use neli::session::{Freshness, Verdict};
use std::alloc::Global;
use std::process::Abort;

/// What a script is about, and its steps.
pub type Script = (&'static str, &'static [Step]);

#[derive(Clone, Copy, Debug)]
pub enum Step {
    /// The dump was requested with this number.
    Requested(u32),
    /// The messages of a datagram are taken in as those of an answer.
    Answer(&'static str),
    /// A notification is taken in; what became of its object.
    Notified(&'static str, Option<Change>),
    /// The answer to a number has ended; what became of the objects, where the table was replaced.
    Ended(u32, Verdict, Option<&'static [(&'static str, Change)]>),
    Lost,
    /// Whether the table is current.
    Is(Freshness),
    /// The number of objects.
    Count(usize),
    /// The payload of the object with a key.
    Has(&'static str, Option<&'static str>),
}

/// The bytes of these digits, decoded once more if memory ran out.
pub fn bytes_of(rt: &impl Abort, alloc: Global, text: &str) -> Vec<u8> {
    match hex::decode(alloc, text) {
        Ok(bytes) => bytes,
        Err(_) => hex::decode(alloc, text).expect(rt, text),
    }
}

fn check_changes(rt: &impl Abort, alloc: Global, changes: Changes<'_>, want: &[(&str, Change)]) {
    let mut place = 0;
    for (key, change) in changes {
        assert!(rt; place < want.len());
        let (digits, wanted) = want[place];
        assert_eq!(rt; key, bytes_of(rt, alloc, digits).as_slice());
        assert_eq!(rt; change, wanted);
        place += 1;
    }
    assert_eq!(rt; place, want.len());
}

fn answer(rt: &impl Abort, cache: &mut Cache, datagram: &[u8]) -> Result<(), NoMemory> {
    for message in LentMessages::<u16>::new(datagram) {
        cache.take_answer(&message.expect(rt, "a message"))?;
    }
    Ok(())
}

fn notified(
    rt: &impl Abort,
    cache: &mut Cache,
    message: &[u8],
) -> Result<Option<Change>, NoMemory> {
    let mut cursor = Cursor::new(message);
    cache.take_notification(&LentMessage::lend(&mut cursor).expect(rt, "a message"))
}

fn check_count(rt: &impl Abort, cache: &Cache, want: usize) {
    let mut count = 0;
    for (key, payload) in cache.table().iter() {
        assert_eq!(rt; cache.table().get(key), Some(payload));
        count += 1;
    }
    assert_eq!(rt; count, want);
    assert_eq!(rt; cache.table().len(), want);
}

fn check_has(rt: &impl Abort, alloc: Global, cache: &Cache, key: &str, payload: Option<&str>) {
    let key = bytes_of(rt, alloc, key);
    let got = cache.table().get(&key);
    match payload {
        None => assert!(rt; got.is_none()),
        Some(digits) => {
            let payload = bytes_of(rt, alloc, digits);
            assert_eq!(rt; got, Some(payload.as_slice()));
        }
    }
}

fn take(rt: &impl Abort, alloc: Global, cache: &mut Cache, step: Step) -> Result<(), NoMemory> {
    match step {
        Step::Requested(number) => cache.requested(number),
        Step::Answer(digits) => answer(rt, cache, &bytes_of(rt, alloc, digits))?,
        Step::Notified(digits, change) => {
            let message = bytes_of(rt, alloc, digits);
            assert_eq!(rt; notified(rt, cache, &message)?, change);
        }
        Step::Ended(number, verdict, want) => match (cache.ended(number, verdict), want) {
            (Some(before), Some(want)) => {
                check_changes(rt, alloc, Changes::new(&before, cache.table()), want)
            }
            (before, want) => assert!(rt; before.is_none() && want.is_none()),
        },
        Step::Lost => cache.lost(),
        Step::Is(freshness) => assert_eq!(rt; cache.freshness(), freshness),
        Step::Count(count) => check_count(rt, cache, count),
        Step::Has(key, payload) => check_has(rt, alloc, cache, key, payload),
    }
    Ok(())
}

/// Plays a script over a new cache; where memory ran out, the cache is stale, and its table has as many objects as before.
pub fn play(rt: &impl Abort, alloc: Global, keys: Keys, script: Script) -> Result<(), NoMemory> {
    let (name, steps) = script;
    let mut cache = Cache::new(alloc, keys);
    for it in steps {
        let count = cache.table().len();
        if let Err(error) = take(rt, alloc, &mut cache, *it) {
            assert_eq!(rt; cache.freshness(), Freshness::Stale, "at {it:?} of {name}");
            assert_eq!(rt; cache.table().len(), count, "at {it:?} of {name}");
            return Err(error);
        }
    }
    Ok(())
}
