//! The places of a router's handles: which is given, what a read leaves, and what is given again after a close.
//!
//! A request is of type 18 (`RTM_GETLINK` of `linux/rtnetlink.h`) with `NLM_F_REQUEST | NLM_F_DUMP`; codes are those of
//! `include/neli.h`.
//!
//! - [`names`]: numbers by their names and names by their numbers.
//! - [`written`]: messages that JSON asks for.

mod names;
mod written;

use neli_c_parts::code::{HANDLE, ITEM, OK, WAITS};
use neli_c_parts::lending::NeliLent;
use neli_c_parts::message::NeliMessage;
use neli_c_parts::session::{NeliItem, NeliSent, Session};
use std::alloc::Global;
use std::test::Fail;

const GET_LINK: u16 = 18;

const DUMP: u16 = 0x301;

/// Sends a request, and returns its code and its handle.
fn sent(session: &mut Session, alloc: Global) -> (i32, usize) {
    let mut out = [0; 32];
    let mut sent = NeliSent {
        length: 0,
        handle: 77,
    };
    let code = session.send(alloc, GET_LINK, DUMP, &[0; 16], &mut out, &mut sent);
    (code, sent.handle)
}

/// The code of a read.
fn read(session: &mut Session, alloc: Global, handle: usize) -> i32 {
    let mut item = NeliItem {
        message_type: 0,
        flags: 0,
        number: 0,
        port: 0,
        error: 0,
    };
    session.read(alloc, handle, &mut item)
}

#[test]
fn each_request_has_a_handle_of_its_own(rt: HostRuntime) -> Result<(), Fail> {
    let alloc = rt.alloc();
    let mut session = Session::new(alloc, 9).unwrap();
    assert_eq!(rt; sent(&mut session, alloc), (OK, 1));
    assert_eq!(rt; sent(&mut session, alloc), (OK, 2));
    Ok(())
}

#[test]
fn a_handle_that_was_read_is_read_again(rt: HostRuntime) -> Result<(), Fail> {
    let alloc = rt.alloc();
    let mut session = Session::new(alloc, 9).unwrap();
    let (_, handle) = sent(&mut session, alloc);
    assert_eq!(rt; read(&mut session, alloc, handle), WAITS);
    assert_eq!(rt; read(&mut session, alloc, handle), WAITS);
    Ok(())
}

#[test]
fn freed_places_are_given_again_after_multicast_is_closed(rt: HostRuntime) -> Result<(), Fail> {
    let alloc = rt.alloc();
    let mut session = Session::new(alloc, 9).unwrap();
    for handle in [1, 2] {
        assert_eq!(rt; sent(&mut session, alloc), (OK, handle));
    }
    for handle in [1, 2, 0] {
        assert_eq!(rt; session.close(handle), OK);
    }
    for handle in [2, 1, 3] {
        assert_eq!(rt; sent(&mut session, alloc), (OK, handle));
    }
    Ok(())
}

const NOTHING: &[u8] = &[];

/// The code of a lend, and the bytes and the number of the message.
fn lent<'r>(session: &'r Session, handle: usize) -> (i32, &'r [u8], u32) {
    let mut lent = NeliLent {
        message: NeliMessage {
            length: 0,
            message_type: 0,
            flags: 0,
            number: 77,
            port: 0,
            payload: 0,
            payload_length: 0,
        },
        bytes: NOTHING,
        error: 0,
    };
    let code = session.lend(handle, &mut lent);
    (code, lent.bytes, lent.message.number)
}

/// Two messages with the flag MULTI: of number 1 with the payload 1 2 3 4, and of number 0 with 5 6 7 8.
const TWO: [u8; 40] = [
    20, 0, 0, 0, 16, 0, 2, 0, 1, 0, 0, 0, 9, 0, 0, 0, 1, 2, 3, 4, 20, 0, 0, 0, 16, 0, 2, 0, 0, 0,
    0, 0, 9, 0, 0, 0, 5, 6, 7, 8,
];

#[test]
fn a_lent_item_stays_until_it_is_passed(rt: HostRuntime) -> Result<(), Fail> {
    let alloc = rt.alloc();
    let mut session = Session::new(alloc, 9).unwrap();
    assert_eq!(rt; sent(&mut session, alloc), (OK, 1));
    assert_eq!(rt; sent(&mut session, alloc), (OK, 2));
    assert_eq!(rt; lent(&session, 1), (WAITS, NOTHING, 77));
    assert_eq!(rt; session.datagram(alloc, &TWO, &[]), OK);
    assert_eq!(rt; lent(&session, 1), (ITEM, &TWO[36..], 0));
    assert_eq!(rt; lent(&session, 2), (ITEM, &TWO[16..20], 1));
    assert_eq!(rt; lent(&session, 1), (ITEM, &TWO[36..], 0));
    assert_eq!(rt; session.pass(1), OK);
    assert_eq!(rt; lent(&session, 1), (WAITS, NOTHING, 77));
    assert_eq!(rt; lent(&session, 2), (ITEM, &TWO[16..20], 1));
    assert_eq!(rt; session.pass(1), OK);
    assert_eq!(rt; read(&mut session, alloc, 2), ITEM);
    assert_eq!(rt; lent(&session, 2), (WAITS, NOTHING, 77));
    assert_eq!(rt; session.pass(3), HANDLE);
    assert_eq!(rt; lent(&session, 3), (HANDLE, NOTHING, 77));
    Ok(())
}
