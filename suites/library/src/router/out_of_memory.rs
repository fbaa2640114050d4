//! Any one allocation may be refused in these tests: `suites/run` refuses each in turn. A refused call has changed
//! nothing: when repeated, it returns what it returns without a refusal, and so does each call after it.
//! [`super::entries`] tests what the log keeps when a call is refused.

use super::script::{Script, Step, assert_told, kind_once, outcomes, outcomes_in_turn};
use super::steps::Asker;
use super::support::assert_is_at;
use super::{answers, conversations, datagrams, entries, faults, numbers};
use neli::router::synchronous::{Deliveries, Log, Queues};
use neli_log::Places;
use std::alloc::Global;
use std::io::ErrorKind;
use std::process::Abort;

/// Performs the steps of a script by the router's calls over this store, each once more if memory ran out.
fn call<D: Deliveries>(rt: &impl Abort, alloc: Global, script: Script) {
    let (row, port, steps) = script;
    let mut asker = Asker::<D>::new(rt, alloc, port);
    for (place, (step, want)) in steps.iter().enumerate() {
        let outcome = asker.step_again(rt, alloc, *step);
        assert_is_at(rt, (row, place), kind_once(outcome), *want);
    }
}

/// Performs them by one run, once more if memory ran out.
fn run<D: Deliveries>(rt: &impl Abort, alloc: Global, script: Script) {
    let (row, port, steps) = script;
    let came = match outcomes::<D>(alloc, port, steps) {
        Ok(came) => came,
        Err(_) => outcomes::<D>(alloc, port, steps).expect(rt, "memory"),
    };
    assert_told(rt, row, &came, steps);
}

/// Performs them command by command, by a new run once more if memory ran out.
fn run_in_turn<D: Deliveries>(rt: &impl Abort, alloc: Global, script: Script) {
    let (row, port, steps) = script;
    let came = match outcomes_in_turn::<D>(alloc, port, steps) {
        Ok(came) => came,
        Err(_) => outcomes_in_turn::<D>(alloc, port, steps).expect(rt, "memory"),
    };
    assert_told(rt, row, &came, steps);
}

/// Plays these scripts over each store by calls.
fn call_all(rt: &impl Abort, alloc: Global, scripts: &[Script]) {
    for script in scripts {
        call::<Queues>(rt, alloc, *script);
        call::<Log>(rt, alloc, *script);
    }
}

/// Plays these scripts over each store by runs.
fn run_all(rt: &impl Abort, alloc: Global, scripts: &[Script]) {
    for script in scripts {
        run::<Queues>(rt, alloc, *script);
        run::<Log>(rt, alloc, *script);
    }
}

#[test]
fn open_runs_for_answers_are_answered_again(rt: HostRuntime) {
    for script in &answers::SCRIPTS {
        run_in_turn::<Queues>(&rt, rt.alloc(), *script);
        run_in_turn::<Log>(&rt, rt.alloc(), *script);
    }
}

#[test]
fn calls_for_numbers_are_answered_again(rt: HostRuntime) {
    call_all(&rt, rt.alloc(), &numbers::SCRIPTS);
}

#[test]
fn calls_for_answers_are_answered_again(rt: HostRuntime) {
    call_all(&rt, rt.alloc(), &answers::SCRIPTS);
}

#[test]
fn calls_for_datagrams_are_answered_again(rt: HostRuntime) {
    call_all(&rt, rt.alloc(), &datagrams::SCRIPTS);
}

#[test]
fn calls_for_faults_are_answered_again(rt: HostRuntime) {
    call_all(&rt, rt.alloc(), &faults::SCRIPTS);
}

#[test]
fn calls_of_conversations_are_answered_again(rt: HostRuntime) {
    call_all(&rt, rt.alloc(), &conversations::SCRIPTS);
}

#[test]
fn runs_for_numbers_are_answered_again(rt: HostRuntime) {
    run_all(&rt, rt.alloc(), &numbers::SCRIPTS);
}

#[test]
fn runs_for_answers_are_answered_again(rt: HostRuntime) {
    run_all(&rt, rt.alloc(), &answers::SCRIPTS);
}

#[test]
fn runs_for_datagrams_are_answered_again(rt: HostRuntime) {
    run_all(&rt, rt.alloc(), &datagrams::SCRIPTS);
}

#[test]
fn runs_for_faults_are_answered_again(rt: HostRuntime) {
    run_all(&rt, rt.alloc(), &faults::SCRIPTS);
}

#[test]
fn runs_of_conversations_are_answered_again(rt: HostRuntime) {
    run_all(&rt, rt.alloc(), &conversations::SCRIPTS);
}

/// A fault of the link takes no memory where no number is open.
fn fail<D: Deliveries>(rt: &impl Abort, alloc: Global) {
    let mut asker = Asker::<D>::new(rt, alloc, 0);
    let failed = asker.step(alloc, Step::Fail(ErrorKind::ConnectionReset));
    assert!(rt; failed.is_ok());
}

#[test]
fn what_is_for_nobody_takes_no_memory(rt: HostRuntime) {
    let alloc = rt.alloc();
    fail::<Queues>(&rt, alloc);
    fail::<Log>(&rt, alloc);
    let mut asker = Asker::<Log>::new(&rt, alloc, 0);
    let stray = b"\x10\0\0\0\x10\0\0\0\x09\0\0\0\0\0\0\0";
    assert!(rt; asker.hand_in(alloc, stray, 0).is_ok());
    assert!(rt; Places::<u8>::new(alloc).reserve(0).is_ok());
}

#[test]
fn the_log_keeps_what_it_kept(rt: HostRuntime) {
    entries::play_all(&rt, rt.alloc());
}
