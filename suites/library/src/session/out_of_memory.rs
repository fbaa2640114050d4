//! Any one request for memory may be refused in these tests: `suites/run` refuses each in turn. The call is repeated, a
//! datagram from the bytes on that were not taken in, and all reads return what they return without a refusal.

use super::script::{Grouping, Script, play};
use super::{answers, numbers, readers, ready, turns};
use std::alloc::Global;
use std::process::Abort;

fn play_all(rt: &impl Abort, alloc: Global, scripts: &[Script]) {
    for script in scripts {
        play(rt, alloc, *script, Grouping::AsWritten);
    }
}

#[test]
fn answers_are_read_after_out_of_memory(rt: HostRuntime) {
    play_all(&rt, rt.alloc(), &answers::SCRIPTS);
}

#[test]
fn readers_go_on_after_out_of_memory(rt: HostRuntime) {
    play_all(&rt, rt.alloc(), &readers::SCRIPTS);
}

#[test]
fn numbers_are_used_after_out_of_memory(rt: HostRuntime) {
    play_all(&rt, rt.alloc(), &numbers::SCRIPTS);
}

#[test]
fn requests_take_turns_after_out_of_memory(rt: HostRuntime) {
    play_all(&rt, rt.alloc(), &turns::SCRIPTS);
}

#[test]
fn who_is_ready_after_out_of_memory(rt: HostRuntime) {
    play_all(&rt, rt.alloc(), &ready::SCRIPTS);
}
