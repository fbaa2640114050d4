//! The calls of lent messages and of walks over them.

use super::support::{Refusal, assert_is_at, lent_message, lent_numbers, refusal_in};
use neli::Cursor;
use neli::consts::nl::Nlmsg;
use neli::consts::rtnl::Ifla;
use neli::err::DeError;
use neli::lent::{LentAttrs, LentMessage, LentMessages};
use neli::rtnl::Ifinfomsg;
use std::process::Abort;

/// A message of type 1024 with the payload `61` and padding of any value, and one of type 3 without a payload.
const DATAGRAM: [u8; 36] = [
    17, 0, 0, 0, 0, 4, 2, 0xf0, 5, 0, 0, 0, 7, 0, 0, 0, 0x61, 0xff, 0xff, 0xff, 16, 0, 0, 0, 3, 0,
    0, 0, 6, 0, 0, 0, 0, 0, 0, 0,
];

#[test]
fn a_message_has_a_header_and_a_payload(rt: HostRuntime) {
    let mut cursor = Cursor::new(&DATAGRAM);
    let message = LentMessage::<'_, u16>::lend(&mut cursor).expect(&rt, "a message");
    assert_is_at(&rt, "the place", cursor.position(), 20);
    assert_is_at(&rt, "the type", *message.nl_type(), 1024);
    let numbers = lent_numbers(&message);
    assert_is_at(&rt, "numbers", numbers, [17, 0xf002, 5, 7]);
    assert_is_at(&rt, "payload", message.nl_payload(), &DATAGRAM[16..17]);
}

#[test]
fn a_message_of_a_header_alone(rt: HostRuntime) {
    let mut cursor = Cursor::new(&DATAGRAM);
    cursor.set_position(20);
    let last = LentMessage::<'_, Nlmsg>::lend(&mut cursor).expect(&rt, "a message");
    assert_is_at(&rt, "the place", cursor.position(), 36);
    assert_is_at(&rt, "the type", *last.nl_type(), Nlmsg::Done);
    assert_is_at(&rt, "numbers", lent_numbers(&last), [16, 0, 6, 0]);
    assert_is_at(&rt, "payload", last.nl_payload(), &[]);
}

// Types 2 (an error or an acknowledgement) and 3 (the end of a dump) have more in their payload than a body.
#[test]
fn a_body_is_plain_by_its_type(rt: HostRuntime) {
    let rows: [(u16, bool); 5] = [(1, true), (2, false), (3, false), (4, true), (1024, true)];
    for (number, want) in rows {
        let [low, high] = number.to_le_bytes();
        let bytes = [16, 0, 0, 0, low, high, 0, 0, 0, 0, 0, 0, 0, 0, 0, 0];
        let plain = lent_message::<u16>(&rt, &bytes).has_plain_body();
        assert_is_at(&rt, number, plain, want);
    }
}

#[test]
fn a_refused_message_leaves_the_cursor(rt: HostRuntime) {
    let rows: [(&str, &[u8], Refusal); 4] = [
        ("no header", &DATAGRAM[..15], Refusal::Short),
        ("length 0", &[0; 16], Refusal::Input(0)),
        ("a byte missing", &DATAGRAM[..16], Refusal::Input(1)),
        ("padding missing", &DATAGRAM[..17], Refusal::Short),
    ];
    for (row, bytes, want) in rows {
        let mut cursor = Cursor::new(bytes);
        let refused = refusal_in(LentMessage::<'_, u16>::lend(&mut cursor));
        assert_is_at(&rt, row, refused, Some(want));
        assert_is_at(&rt, row, cursor.position(), 0);
    }
}

#[test]
fn a_walk_is_a_loop(rt: HostRuntime) {
    let mut last = 0;
    for message in LentMessages::<'_, u16>::new(&DATAGRAM) {
        let number = *message.expect(&rt, "a message").nl_seq();
        assert!(rt; last < number, "in their order");
        last = number;
    }
    assert_is_at(&rt, "the last", last, 6);
}

/// The number of the next message of a walk, if there is one.
fn next_number(rt: &impl Abort, messages: &mut LentMessages<'_, u16>) -> Option<u32> {
    let next = messages.next()?;
    Some(*next.expect(rt, "a message").nl_seq())
}

#[test]
fn a_walk_is_taken_step_by_step(rt: HostRuntime) {
    let mut messages = LentMessages::<'_, u16>::new(&DATAGRAM);
    assert_is_at(&rt, "the first", next_number(&rt, &mut messages), Some(5));
    let mut ahead = messages.ahead();
    assert_is_at(&rt, "ahead", next_number(&rt, &mut ahead), Some(6));
    assert_is_at(&rt, "ahead", next_number(&rt, &mut ahead), None);
    assert_is_at(&rt, "the second", next_number(&rt, &mut messages), Some(6));
    assert_is_at(&rt, "the end", next_number(&rt, &mut messages), None);
}

#[test]
fn a_message_has_the_type_that_its_number_means(rt: HostRuntime) {
    let typed = lent_message::<u16>(&rt, &DATAGRAM[20..]).to_typed::<Nlmsg>();
    assert_is_at(&rt, "the type", *typed.nl_type(), Nlmsg::Done);
    assert_is_at(&rt, "numbers", lent_numbers(&typed), [16, 0, 6, 0]);
    assert_is_at(&rt, "payload", typed.nl_payload(), &[]);
}

/// A link without an index, and its MTU of 1500.
const LINK_WITH_MTU: [u8; 40] = [
    40, 0, 0, 0, 16, 0, 0, 0, 0, 0, 0, 0, 0, 0, 0, 0, //
    0, 0, 0, 0, 0, 0, 0, 0, 0, 0, 0, 0, 0, 0, 0, 0, //
    8, 0, 4, 0, 0xdc, 5, 0, 0,
];

/// A link without attributes, and eight zeros after it.
const LINK: [u8; 40] = [
    32, 0, 0, 0, 16, 0, 0, 0, 0, 0, 0, 0, 0, 0, 0, 0, //
    0, 0, 0, 0, 0, 0, 0, 0, 0, 0, 0, 0, 0, 0, 0, 0, //
    0, 0, 0, 0, 0, 0, 0, 0,
];

/// The same bytes, but the message states one byte less than the header of a link has.
const SHORT_LINK: [u8; 40] = [
    31, 0, 0, 0, 16, 0, 0, 0, 0, 0, 0, 0, 0, 0, 0, 0, //
    0, 0, 0, 0, 0, 0, 0, 0, 0, 0, 0, 0, 0, 0, 0, 0, //
    0, 0, 0, 0, 0, 0, 0, 0,
];

/// The attributes after the header of a link.
pub fn link_attrs<'b>(rt: &impl Abort, bytes: &'b [u8]) -> Result<LentAttrs<'b, Ifla>, DeError> {
    lent_message::<u16>(rt, bytes).get_attrs::<Ifinfomsg, Ifla>()
}

#[test]
fn attributes_follow_the_header_of_a_body(rt: HostRuntime) {
    let mut attrs = link_attrs(&rt, &LINK_WITH_MTU).expect(&rt, "attributes");
    let mtu = attrs.next().expect(&rt, "an attribute");
    let mtu = mtu.expect(&rt, "an attribute");
    assert_is_at(&rt, "the type", *mtu.attr_type(), Ifla::Mtu);
    assert_is_at(&rt, "payload", mtu.attr_payload(), &[0xdc, 5, 0, 0]);
    assert!(rt; attrs.next().is_none());
}

#[test]
fn a_body_without_attributes_or_without_its_header(rt: HostRuntime) {
    let mut attrs = link_attrs(&rt, &LINK).expect(&rt, "attributes");
    assert!(rt; attrs.next().is_none());
    let refused = refusal_in(link_attrs(&rt, &SHORT_LINK));
    assert_is_at(&rt, "refused", refused, Some(Refusal::Input(15)));
}
