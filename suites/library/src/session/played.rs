//! All scripts, as they are written, and with each datagram regrouped in two.

use super::script::{Grouping, Script, play};
use super::{answers, numbers, readers, ready, turns};
use neli::consts::socket::NlFamily;
use neli::session::{Next, Reader, Session, Verdict};

/// The scripts of all tables.
pub const TABLES: [&[Script]; 5] = [
    &answers::SCRIPTS,
    &readers::SCRIPTS,
    &numbers::SCRIPTS,
    &turns::SCRIPTS,
    &ready::SCRIPTS,
];

#[test]
fn reads_return_what_came(rt: HostRuntime) {
    for script in TABLES.iter().flat_map(|table| table.iter()) {
        play(&rt, rt.alloc(), *script, Grouping::AsWritten);
    }
}

#[test]
fn regrouped_datagrams_give_the_same_reads(rt: HostRuntime) {
    for script in TABLES.iter().flat_map(|table| table.iter()) {
        play(&rt, rt.alloc(), *script, Grouping::InTwo);
    }
}

#[test]
fn what_nobody_asked_for_is_kept_where_wanted_alone(rt: HostRuntime) {
    let mut session = Session::new(rt.alloc(), NlFamily::Route, 7, false);
    let stray = b"\x10\0\0\0\x10\0\0\0\x09\0\0\0\x07\0\0\0";
    assert!(rt; session.receive(stray, 0, false).is_ok());
    assert!(rt; matches!(session.next(Reader::Unasked), Next::Closed));
    assert!(rt; matches!(session.next(Reader::Multicast), Next::Waits));
}

/// Audit answers by a thread of its own (`audit_send_reply_thread` of `kernel/audit.c`), so its answer may come after the
/// link was seen empty.
#[test]
fn audit_answers_after_an_empty_link(rt: HostRuntime) {
    let mut session = Session::new(rt.alloc(), NlFamily::Audit, 7, true);
    let get = b"\x10\0\0\0\xe8\x03\x01\0\x05\0\0\0\0\0\0\0";
    let answer = b"\x10\0\0\0\xe8\x03\0\0\x05\0\0\0\x07\0\0\0";
    assert!(rt; session.send(get).is_ok());
    assert!(rt; session.next_outgoing());
    session.sent();
    session.quiet();
    assert_eq!(rt; session.verdict(5), Some(Verdict::Pending));
    assert!(rt; session.receive(answer, 0, false).is_ok());
    session.pass_answer(5);
    assert_eq!(rt; session.verdict(5), Some(Verdict::Complete));
}
