//! Recorded messages, and the lines that they have.

use super::support;
use neli_tables_walk::{answer_of, body_of, built_in, is_answer};
use std::test::Fail;

/// A name, a protocol, a message, and what its body is.
type Row = (&'static str, u16, &'static [u8], &'static str);

/// What was recorded. `ethtool` was 21 there, `netdev` 20, and 9999 no family.
const RECORDED: [Row; 7] = [
    (
        "0001: loopback set up",
        0,
        b"$\0\0\0P\0\0\0\0\0\0\0\0\0\0\0\x02\0\0\0\x08\0\x01\0\xfe\xff\xff\xff\x08\0\x02\0\x01\0\
          \0\0",
        "rt-netconf RTM_NEWNETCONF netconfmsg family 2, 20 bytes",
    ),
    (
        "0837: strings of ethtool are asked for",
        16,
        b"$\0\0\0\x15\0\x05\0\0\x04\0\0\0\0\0\0\x01\x01\0\0\x10\0\x01\x80\x0a\0\x02\0veth0\0\0\0",
        "ethtool ETHTOOL_MSG_STRSET_GET 1.1 family 0, 16 bytes",
    ),
    (
        "0863: a device of netdev",
        16,
        b"@\0\0\0\x14\0\0\0\x17\x04\0\0IC\0\0\x01\x01\0\0\x08\0\x01\0\x01\0\0\0\x0c\0\x03\0\0\0\
          \0\0\0\0\0\0\x0c\0\x05\0\0\0\0\0\0\0\0\0\x0c\0\x06\0\0\0\0\0\0\0\0\0",
        "netdev NETDEV_CMD_DEV_GET 1.1 family 0, 44 bytes",
    ),
    (
        "0832: a family that does not exist",
        16,
        b"\x14\0\0\0\x0f'\x05\0\xfc\x03\0\0\0\0\0\0\x01\x01\0\0",
        "1.1 family 0, 0 bytes",
    ),
    (
        "0992: a new connection",
        12,
        b"\x94\0\0\0\0\x01\0\x06\0\0\0\0\0\0\0\0\x02\0\0\04\0\x01\x80\x14\0\x01\x80\x08\0\x01\0\
          \x7f\0\0\x01\x08\0\x02\0\x7f\0\0\x01\x1c\0\x02\x80\x05\0\x01\0\x11\0\0\0\x06\0\x02\0\
          \xda\x10\0\0\x06\0\x03\0'\x0f\0\04\0\x02\x80\x14\0\x01\x80\x08\0\x01\0\x7f\0\0\x01\x08\
          \0\x02\0\x7f\0\0\x01\x1c\0\x02\x80\x05\0\x01\0\x11\0\0\0\x06\0\x02\0'\x0f\0\0\x06\0\
          \x03\0\xda\x10\0\0\x08\0\x0c\0\xbc\x94;\xbe\x08\0\x03\0\0\0\0\x08\x08\0\x07\0\0\0\0\
          \x1e",
        "conntrack IPCTNL_MSG_CT_NEW nfgenmsg family 2, 132 bytes",
    ),
    (
        "1039: a socket of packets",
        4,
        b"p\0\0\0\x14\0\x02\0\x11\x04\0\0JC\0\0\x11\x03\x03\0\x90O\x01\0\x12\0\0\0\0\0\0\0\x1c\0\
          \0\0\0\0\0\0\0\0\0\0\0\0\0\0\0\0\0\0\0\0\0\0\x01\0\0\0\x08\0\x05\0\0\0\0\0\x04\0\x01\0\
          (\0\x06\0\0\0\0\0\0@\x03\0\0\0\0\0\0@\x03\0\0\0\0\0\0\0\0\0\0\0\0\0\0\0\0\0\0\0\0\0",
        "sock-diag SOCK_DIAG_BY_FAMILY packet_diag_msg family 17, 96 bytes",
    ),
    (
        "1067: a process that ends",
        11,
        b"L\0\0\0\x03\0\0\0\x10\0\0\0\0\0\0\0\x01\0\0\0\x01\0\0\0\x10\0\0\0\0\0\0\0(\0\0\0\x01\0\
          \0\0\x01\0\0\08ch\x9e7\x02\0\0KC\0\0KC\0\0`C\0\0`C\0\0\0\0\0\0\0\0\0\0",
        "proc-event PROC_EVENT_FORK family 1, 60 bytes",
    ),
];

/// Messages without a line, worked out by hand.
const OTHERS: [Row; 7] = [
    (
        "no type of routing",
        0,
        b"\x14\0\0\0\xff\0\0\0\0\0\0\0\0\0\0\0\x02\0\0\0",
        "family 2, 4 bytes",
    ),
    (
        "a type of every protocol",
        0,
        b"\x14\0\0\0\x04\0\0\0\0\0\0\0\0\0\0\0\x02\0\0\0",
        "family 2, 4 bytes",
    ),
    (
        "no command of a family",
        16,
        b"\x18\0\0\0\x15\0\x01\0\0\0\0\0\0\0\0\0\xff\x01\0\0\x04\0\x01\0",
        "ethtool 255.1 family 0, 4 bytes",
    ),
    (
        "less than the header of generic netlink",
        16,
        b"\x13\0\0\0\x15\0\x01\0\0\0\0\0\0\0\0\0\x01\x01\0",
        "family 1, 3 bytes",
    ),
    (
        "no process event: the connector's number is 3 (CN_W1_IDX)",
        11,
        b"\x28\0\0\0\x03\0\0\0\0\0\0\0\0\0\0\0\x03\0\0\0\x01\0\0\0\0\0\0\0\0\0\0\0\x04\0\0\0\x01\0\0\0",
        "proc-event family 3, 24 bytes",
    ),
    (
        "an event that is cut off",
        11,
        b"\x27\0\0\0\x03\0\0\0\0\0\0\0\0\0\0\0\x01\0\0\0\x01\0\0\0\0\0\0\0\0\0\0\0\x04\0\0\0\x01\0\0",
        "proc-event family 1, 23 bytes",
    ),
    (
        "no table of the protocol",
        2,
        b"\x10\0\0\0\x10\0\0\0\0\0\0\0\0\0\0\0",
        "family 0, 0 bytes",
    ),
];

#[test]
fn messages_have_their_lines(rt: HostRuntime) -> Result<(), Fail> {
    let alloc = rt.alloc();
    let mut tables = built_in(alloc)?;
    tables.learn(21, b"ethtool")?;
    tables.learn(20, b"netdev")?;
    for (what, protocol, message, wanted) in RECORDED.iter().chain(&OTHERS) {
        let (head, payload) = support::parts(*protocol, message);
        let mut text = String::new(alloc);
        support::said(&body_of(&tables, head, payload), &mut text)?;
        assert_eq!(rt; text.as_str(), *wanted, "at {what}");
        assert_eq!(rt; is_answer(&tables, head), false, "at {what}");
    }
    Ok(())
}

/// 0593: an error that echoes its request of 40 bytes, and then has a text and more.
const ERROR: &[u8] =
    b"\x90\0\0\0\x02\0\0\x02h\x04\0\0+1\0\0\xde\xff\xff\xff(\0\0\0\x13\0\x05\0h\x04\0\0\0\0\
          \0\0\0\0\0\0\x03\0\0\0\0\0\0\0\0\0\0\0\x06\0\x04\0\xdc\x05\0\0'\0\x01\0Attribute faile\
          d policy validation\0\0\x08\0\x02\0 \0\0\0$\0\x04\x80\x0c\0\x04\0\0\0\0\0\0\0\0\0\x0c\
          \0\x05\0\xff\xff\xff\xff\0\0\0\0\x08\0\x01\0\x04\0\0\0";

#[test]
fn answers_have_attributes(rt: HostRuntime) -> Result<(), Fail> {
    let alloc = rt.alloc();
    let tables = built_in(alloc)?;
    let (head, payload) = support::parts(0, ERROR);
    assert_eq!(rt; is_answer(&tables, head), true);
    let mut text = String::new(alloc);
    support::said(&answer_of(&tables, head, &payload[44..]), &mut text)?;
    assert_eq!(rt; text.as_str(), "nlmsg NLMSG_ERROR family 39, 84 bytes");
    let walk = answer_of(&tables, head, &payload[44..]).walk();
    assert_eq!(rt; walk.map(|walk| walk.count()), Some(6));
    // The connector's messages have the same type, and are no answers.
    let (head, _) = support::parts(11, ERROR);
    assert_eq!(rt; is_answer(&tables, head), false);
    Ok(())
}
