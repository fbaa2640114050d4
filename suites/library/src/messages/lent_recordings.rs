//! A link and a route that were recorded from Linux 6.18, compared with libmnl's reading of their headers and
//! pyroute2's of their attributes, and a request of iproute2 with its command line. Numbers are those of
//! suites/README.md.

use super::lent_messages::link_attrs;
use super::support::{assert_is_at, lent_message, lent_numbers};
use neli::consts::rtnl::{Ifla, IflaInfo, Rta, RtaType, Rtm};
use neli::err::DeError;
use neli::lent::{LentAttr, LentAttrs, LentMessages};
use neli::rtnl::Rtmsg;
use std::alloc::Global;
use std::process::Abort;

/// A bridge port, as it was listed: datagram 0152.
const LINK: &str = "\
    a801000010000200eb0300000e61baa0070001000200000043100100000000000a000300766574683100000008000a00\
    0500000008000400dc05000005001000060000000a0001000200000000020000080005000300000050010c8005000100\
    030000000600020020000000080003000200000005000400000000000500050000000000050006000000000005000700\
    0000000005001c00000000000500080001000000050009000100000005001b000100000005001e000100000005000a00\
    0000000005000c00000000000c000d0080000200000000100c000e00800002000000001006000f000180000006001000\
    00000000060011000180000006001200010000000500130000000000050014000000000005001d000000000006001f00\
    000000000500200000000000050023000000000005002400000000000500210000000000050027000000000005002800\
    0000000005002b00000000000c00150000000000000000000c00160000000000000000000c0017000000000000000000\
    050019000100000008002500000200000800260000000000080029000500000008002a0000000000";

/// The answer to a look-up of 10.7.2.3: datagram 0202.
const ROUTE: &str = "\
    700000001800000017040000fa0598c602200000fe0000010002000008000f00fe000000080001000a07020308000400\
    0300000008000700c000020108000500c0000209080019000000000024000c0002000000000000000000000000000000\
    00000000000000000000000000000000";

/// `ip link add mac0 link veth0 type macvlan mode private`: datagram 1092.
const REQUEST: &str = "\
    50000000100005066b99026b00000000000000000000000000000000000000000800050003000000090003006d616330\
    000000001c0012000b0001006d6163766c616e000c0002000800010001000000";

/// The bytes of these digits.
fn decoded(rt: &impl Abort, alloc: Global, digits: &str) -> Vec<u8> {
    hex::decode(alloc, digits).expect(rt, "digits")
}

/// Recorded messages, each with its type, and its length, flags, number and port.
const HEADERS: [(&str, &str, Rtm, [u32; 4]); 2] = [
    ("a link", LINK, Rtm::Newlink, [424, 2, 1003, 2696569102]),
    ("a route", ROUTE, Rtm::Newroute, [112, 0, 1047, 3331851770]),
];

#[test]
fn a_recorded_message_has_a_header(rt: HostRuntime) {
    for (row, digits, kind, numbers) in HEADERS {
        let datagram = decoded(&rt, rt.alloc(), digits);
        let mut messages = LentMessages::<'_, Rtm>::new(&datagram);
        let message = messages.next().expect(&rt, row).expect(&rt, row);
        assert_is_at(&rt, row, *message.nl_type(), kind);
        assert_is_at(&rt, row, lent_numbers(&message), numbers);
        let payload = datagram.get(16..).expect(&rt, row);
        assert_is_at(&rt, row, message.nl_payload(), payload);
        assert!(rt; messages.next().is_none(), "{row}: a message more");
    }
}

/// The attribute of this type.
fn found<'b, T: RtaType>(rt: &impl Abort, attrs: &LentAttrs<'b, T>, kind: T) -> LentAttr<'b, T> {
    let found = attrs.get_attribute(kind).expect(rt, "attributes");
    found.expect(rt, "an attribute of this type")
}

/// The text of an attribute, with its last zero.
fn text<'b, T: RtaType>(rt: &impl Abort, attr: &LentAttr<'b, T>) -> &'b str {
    attr.get_payload_as_with_len_borrowed().expect(rt, "a text")
}

#[test]
fn a_link_has_a_name_an_address_and_a_port(rt: HostRuntime) {
    let datagram = decoded(&rt, rt.alloc(), LINK);
    let attrs = link_attrs(&rt, &datagram).expect(&rt, "attributes");
    assert_is_at(
        &rt,
        "attributes",
        attrs.try_count().expect(&rt, "a count"),
        7,
    );
    let name = text(&rt, &found(&rt, &attrs, Ifla::Ifname));
    assert_is_at(&rt, "a name", name, "veth1\0");
    let address = found(&rt, &attrs, Ifla::Address);
    assert_is_at(&rt, "address", address.attr_payload(), &[2, 0, 0, 0, 0, 2]);
    // The port's own attributes are marked as nested, which a routing attribute's type keeps.
    let port = found(&rt, &attrs, Ifla::UnrecognizedConst(0x800c)).get_attrs::<u16>();
    assert_is_at(&rt, "a port", port.try_count().expect(&rt, "a count"), 39);
}

#[test]
fn a_link_has_numbers(rt: HostRuntime) {
    let alloc = rt.alloc();
    let datagram = decoded(&rt, alloc, LINK);
    let attrs = link_attrs(&rt, &datagram).expect(&rt, "attributes");
    for (row, kind, want) in [
        ("master", Ifla::Master, 5),
        ("mtu", Ifla::Mtu, 1500),
        ("link", Ifla::Link, 3),
    ] {
        let number: Result<u32, DeError> = found(&rt, &attrs, kind).get_payload_as(alloc);
        assert_is_at(&rt, row, number.expect(&rt, row), want);
    }
}

/// Attributes of the route, with pyroute2's reading.
const OF_THE_ROUTE: [(&str, Rta, &[u8]); 5] = [
    ("destination", Rta::Dst, &[10, 7, 2, 3]),
    ("source", Rta::Prefsrc, &[192, 0, 2, 1]),
    ("gateway", Rta::Gateway, &[192, 0, 2, 9]),
    ("table", Rta::Table, &[254, 0, 0, 0]),
    ("link", Rta::Oif, &[3, 0, 0, 0]),
];

#[test]
fn a_route_has_addresses(rt: HostRuntime) {
    let datagram = decoded(&rt, rt.alloc(), ROUTE);
    let attrs = lent_message::<Rtm>(&rt, &datagram)
        .get_attrs::<Rtmsg, Rta>()
        .expect(&rt, "attributes");
    assert_is_at(
        &rt,
        "attributes",
        attrs.try_count().expect(&rt, "a count"),
        7,
    );
    for (row, kind, want) in OF_THE_ROUTE {
        assert_is_at(&rt, row, found(&rt, &attrs, kind).attr_payload(), want);
    }
}

#[test]
fn a_request_names_a_kind_of_link(rt: HostRuntime) {
    let datagram = decoded(&rt, rt.alloc(), REQUEST);
    let attrs = link_attrs(&rt, &datagram).expect(&rt, "attributes");
    let name = found(&rt, &attrs, Ifla::Ifname);
    assert_is_at(&rt, "a name", name.attr_payload(), b"mac0\0");
    let info = found(&rt, &attrs, Ifla::Linkinfo).get_attrs::<IflaInfo>();
    let kind = text(&rt, &found(&rt, &info, IflaInfo::Kind));
    assert_is_at(&rt, "a kind", kind, "macvlan");
}
