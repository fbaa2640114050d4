//! Exit codes and sets of flags as texts for people.
//!
//! Exit codes are those of wait(2): `W_EXITCODE` of glibc's bits/waitstatus.h puts a status in bits 8 to 15 and a
//! signal in bits 0 to 6, and `WCOREFLAG` is bit 7. Flags are those of linux/if.h, linux/if_addr.h and
//! linux/neighbour.h.

use super::support::{assert_is, assert_is_at};
use neli::connector::ExitStatus;
use neli::consts::rtnl::{IfaF, Iff, Nud};
use neli::consts::{Constant, FlagNames, NamedFlags};
use std::alloc::Global;
use std::fmt::Display;
use std::process::Abort;

/// Asserts the printed text of a value.
fn assert_prints<D: Display>(rt: &impl Abort, alloc: Global, value: &D, want: &str) {
    let text = value.to_string(alloc).expect(rt, "memory");
    assert_is(rt, text.as_str(), want);
}

/// A code, its status, its signal, whether there is a core file, and its text.
type Row = (u32, Option<u8>, Option<u8>, bool, &'static str);

const ENDS: [Row; 8] = [
    (0, Some(0), None, false, "exited with 0"),
    (0x300, Some(3), None, false, "exited with 3"),
    (0xff00, Some(255), None, false, "exited with 255"),
    (9, None, Some(9), false, "killed by signal 9"),
    (
        0x8b,
        None,
        Some(11),
        true,
        "killed by signal 11 (core dumped)",
    ),
    (0x40, None, Some(64), false, "killed by signal 64"),
    (0x80, Some(0), None, false, "exited with 0"),
    (0x137f, None, None, false, "status 0x137f"),
];

#[test]
fn ends_of_processes(rt: HostRuntime) {
    for (number, code, signal, core, text) in ENDS {
        let status = ExitStatus::from(number);
        assert_is_at(&rt, number, u32::from(status), number);
        assert_is_at(&rt, number, status.code(), code);
        assert_is_at(&rt, number, status.signal(), signal);
        assert_is_at(&rt, number, status.core_dumped(), core);
        assert_prints(&rt, rt.alloc(), &status, text);
    }
}

/// Asserts the printed text of a set, and its number.
fn check<F: NamedFlags>(rt: &impl Abort, alloc: Global, set: F, number: u32, text: &str) {
    assert_is(rt, set.number(), number);
    assert_prints(rt, alloc, &FlagNames(set), text);
}

#[test]
fn sets_of_flags(rt: HostRuntime) {
    let alloc = rt.alloc();
    check(&rt, alloc, Iff::empty(), 0, "0x0");
    check(&rt, alloc, Iff::UP | Iff::RUNNING, 0x41, "UP|RUNNING");
    check(
        &rt,
        alloc,
        Iff::from_wire(0x1_0043),
        0x1_0043,
        "UP|BROADCAST|RUNNING|LOWERUP",
    );
    check(
        &rt,
        alloc,
        Iff::from_wire(0x8000_0001),
        0x8000_0001,
        "UP|0x80000000",
    );
    check(&rt, alloc, IfaF::from_wire(0x80), 0x80, "PERMANENT");
    check(&rt, alloc, Nud::from_wire(0x8000), 0x8000, "0x8000");
    check(&rt, alloc, Nud::REACHABLE, 2, "REACHABLE");
}
