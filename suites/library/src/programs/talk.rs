//! A conversation: one request, the datagrams that answer it, and the items of its handle.

use super::support::{assert_is, bytes_of};
use neli::consts::nl::{NlType, NlmF};
use neli::err::RouterError;
use neli::nl::{NlPayload, Nlmsghdr};
use neli::router::synchronous::{Log, NlRouter, NlRouterReceiverHandle, Verdict};
use neli::short::Client;
use neli::{FromBytesWithInput, Size, ToBytes};
use std::alloc::Global;
use std::process::Abort;

/// The bytes on the link, in hexadecimal digits.
pub struct Talk {
    /// The router's port, and the request's number.
    pub port: u32,
    pub number: u32,
    /// The request. Its port is not compared: the recorded request has port 0 there.
    pub request: &'static str,
    /// The datagrams that answer it.
    pub answers: &'static [&'static str],
}

/// An item of a handle.
pub type Item<T, P> = Result<Nlmsghdr<T, P>, RouterError<T, P>>;

/// Asserts that these bytes are the recorded ones, except for the port.
fn assert_asked(rt: &impl Abort, alloc: Global, bytes: &[u8], digits: &str) {
    let want = bytes_of(rt, alloc, digits);
    assert_is(rt, bytes.get(..12), want.get(..12));
    assert_is(rt, bytes.get(16..), want.get(16..));
}

/// All items of a handle, up to the end.
fn items_of<T: NlType, P: FromBytesWithInput + Size + Drop>(
    rt: &impl Abort,
    alloc: Global,
    router: &mut NlRouter,
    mut handle: NlRouterReceiverHandle<T, P>,
) -> Vec<Item<T, P>> {
    let dump = router.read_dump(alloc, &mut handle).expect(rt, "memory");
    assert!(rt; dump.verdict != Verdict::Pending, "no end");
    dump.items
}

/// Sends a request, hands in its answers, and returns all items of its handle, up to the end.
pub fn answered<T: NlType, S: ToBytes + Drop, P: FromBytesWithInput + Size + Drop>(
    rt: &impl Abort,
    alloc: Global,
    talk: &Talk,
    nl_type: T,
    nl_flags: NlmF,
    body: S,
) -> Vec<Item<T, P>> {
    let (mut router, _multicast) = NlRouter::<Log>::new(alloc, talk.port);
    router.set_next_seq(talk.number);
    let sent = router.send::<T, S, T, P>(alloc, nl_type, nl_flags, NlPayload::Payload(body));
    let (request, handle) = match sent {
        Ok(sent) => sent,
        Err(_) => return rt.panic("not sent"),
    };
    assert_asked(rt, alloc, &request, talk.request);
    for digits in talk.answers {
        let datagram = bytes_of(rt, alloc, digits);
        router
            .receive_for(alloc, &datagram, &[])
            .expect(rt, "memory");
    }
    items_of(rt, alloc, &mut router, handle)
}

/// The payload of an item, which must be a message with one.
pub fn payload_of<'a, T, P>(rt: &impl Abort, item: &'a Item<T, P>) -> &'a P {
    match item {
        Ok(message) => message.get_payload().expect(rt, "a payload"),
        Err(_) => rt.panic("an error"),
    }
}
