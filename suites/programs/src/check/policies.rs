//! The kernel's own policies: what it refuses by them, and what by hand `lib/nlattr.c` of Linux 6.12 does.

use neli_tables_check::{Policies, Unmet};
use std::alloc::Global;
use std::fmt::Write;
use std::test::Fail;

/// Replies of Linux 6.18 to `CTRL_CMD_GETPOLICY`: of ethtool the policies of ETHTOOL_MSG_STRSET_GET (1) and of its header,
/// and of netdev that of NETDEV_CMD_QUEUE_GET (10).
const ETHTOOL: [&str; 8] = [
    "0a0200000600010015000000180009801400018008000100000000000800020000000000",
    "0a020000060001001500000024000880200000801c00018008000800010000000800090004000000080001000d000000",
    "0a020000060001001500000014000880100000800c000280080001000d000000",
    "0a020000060001001500000014000880100000800c0003800800010001000000",
    "0a02000006000100150000002c00088028000180240001800c00040000000000000000000c000500ffffffff000000000800010004000000",
    "0a02000006000100150000001c0008801800018014000280080007007f000000080001000c000000",
    "0a0200000600010015000000200008801c000180180003800c000c0003000000000000000800010004000000",
    "0a02000006000100150000002c00088028000180240004800c00040001000000000000000c000500ffffffff000000000800010004000000",
];

const NETDEV: [&str; 4] = [
    "0a02000006000100140000001800098014000a8008000100030000000800020004000000",
    "0a02000006000100140000002c00088028000380240001800c00040000000000000000000c000500ffffffff000000000800010004000000",
    "0a02000006000100140000002c00088028000380240002800c00040001000000000000000c000500ffffffff000000000800010004000000",
    "0a02000006000100140000002c00088028000380240003800c00040000000000000000000c00050001000000000000000800010004000000",
];

/// The attributes of a request; the offset at which that kernel refused them by its policy, where it stated one, and what
/// is said here. It refused the row with bytes left over without an offset.
type Row = (&'static str, Option<usize>, &'static str);

const SENT_TO_ETHTOOL: [Row; 9] = [
    ("0c0001800800010001000000", None, ""),
    (
        "0c0001000800010001000000",
        Some(0),
        "NLA_F_NESTED is missing",
    ),
    ("0c000180070002006c6f0000", None, ""),
    ("0c0001800500090000000000", Some(4), "unknown attribute"),
    (
        "0c0001800800030040000000",
        Some(4),
        "bits that are not in 0x3",
    ),
    (
        "0d000180080003000300000001000000",
        Some(12),
        "1 bytes after the attributes",
    ),
    ("0600018001020000", Some(0), "shorter than 4 bytes"),
    ("04000300", None, ""),
    ("0500030001000000", Some(0), "longer than 0 bytes"),
];

const SENT_TO_NETDEV: [Row; 3] = [
    ("080001000000000008000200010000000800030000000000", None, ""),
    (
        "080002000100000008000100000000000800030002000000",
        Some(16),
        "not from 0 to 1",
    ),
    (
        "08000200010000000600030001000000",
        Some(8),
        "shorter than 4 bytes",
    ),
];

fn read(alloc: Global, replies: &[&str]) -> Result<Policies, Fail> {
    let mut policies = Policies::new(alloc);
    for reply in replies {
        policies.take_in(alloc, &hex::decode(alloc, reply)?)?;
    }
    Ok(policies)
}

fn said(alloc: Global, checked: Result<(), Unmet>) -> Result<String, Fail> {
    let mut said = String::new(alloc);
    if let Err(unmet) = checked {
        write!(said, "{}", unmet.wrong)?;
    }
    Ok(said)
}

#[test]
fn what_a_kernel_refuses_is_refused_before(rt: HostRuntime) -> Result<(), Fail> {
    let alloc = rt.alloc();
    let families: [(&[&str], u8, usize, &[Row]); 2] = [
        (&ETHTOOL, 1, 0, &SENT_TO_ETHTOOL),
        (&NETDEV, 10, 3, &SENT_TO_NETDEV),
    ];
    for (replies, command, policy, rows) in families {
        let policies = read(alloc, replies)?;
        assert_eq!(rt; policies.policy_of(command, false), Some(policy));
        for (attributes, offset, wanted) in rows {
            let checked = policies.check(policy, &hex::decode(alloc, attributes)?);
            assert_eq!(rt;
                checked.err().map(|unmet| unmet.offset),
                *offset,
                "at {attributes}"
            );
            assert_eq!(rt; said(alloc, checked)?.as_str(), *wanted, "at {attributes}");
        }
    }
    Ok(())
}

#[test]
fn a_policy_is_that_of_a_command(rt: HostRuntime) -> Result<(), Fail> {
    let policies = read(rt.alloc(), &NETDEV)?;
    let rows = [
        (10, false, Some(3)),
        (10, true, Some(4)),
        (11, false, None),
        (0, true, None),
    ];
    for (command, dumps, policy) in rows {
        assert_eq!(rt; policies.policy_of(command, dumps), policy, "at {command}");
    }
    let none = Policies::new(rt.alloc());
    assert_eq!(rt; none.policy_of(10, false), None);
    assert_eq!(rt;
        said(rt.alloc(), none.check(3, b"\x04\0\x01\0"))?.as_str(),
        "unknown attribute"
    );
    assert!(rt; none.check(3, &[]).is_ok());
    Ok(())
}

/// Appends an attribute of this type.
fn put(out: &mut Vec<u8>, number: u16, payload: &[u8]) -> Result<(), Fail> {
    out.extend_from_slice(&(payload.len() as u16).saturating_add(4).to_le_bytes())?;
    out.extend_from_slice(&number.to_le_bytes())?;
    out.extend_from_slice(payload)?;
    while out.len() % 4 != 0 {
        out.push(0)?;
    }
    Ok(())
}

/// A reply with the row of an attribute in a policy: numbers of four bytes, and of eight.
fn row(
    alloc: Global,
    policy: u16,
    number: u16,
    short: &[(u16, u32)],
    long: &[(u16, u64)],
) -> Result<Vec<u8>, Fail> {
    let mut parts = [
        Vec::new(alloc),
        Vec::new(alloc),
        Vec::new(alloc),
        Vec::new(alloc),
    ];
    for (which, value) in short {
        put(&mut parts[0], *which, &value.to_le_bytes())?;
    }
    for (which, value) in long {
        put(&mut parts[0], *which, &value.to_le_bytes())?;
    }
    let [fields, attribute, whole, reply] = &mut parts;
    put(attribute, 0x8000 | number, fields)?;
    put(whole, 0x8000 | policy, attribute)?;
    reply.extend_from_slice(b"\x0a\x02\0\0")?;
    put(reply, 0x8008, whole)?;
    Ok(Vec::from_slice(alloc, reply)?)
}

/// A policy of attributes of each sort: 1 of 2 to 4 bytes, 2 a text of at most 3, 3 the same with a zero, 4 a signed number
/// from -2 to 5, 5 bits of 0x5, 6 an array of nests of this policy, 7 a number of four or eight bytes.
fn every_sort(alloc: Global) -> Result<Policies, Fail> {
    let mut policies = Policies::new(alloc);
    let from_minus_2_to_5 = [(2, u64::MAX - 1), (3, 5)];
    let rows: [(u16, &[(u16, u32)], &[(u16, u64)]); 8] = [
        (1, &[(6, 2), (7, 4), (1, 10)], &[]),
        (2, &[(7, 3), (1, 11)], &[]),
        (3, &[(7, 3), (1, 12)], &[]),
        (4, &[(1, 7)], &from_minus_2_to_5),
        (5, &[(10, 5), (1, 15)], &[]),
        (6, &[(8, 9), (9, 8), (1, 14)], &[]),
        (7, &[(1, 17)], &[(12, 0x3)]),
        (8, &[(1, 99)], &[]),
    ];
    for (number, short, long) in rows {
        policies.take_in(alloc, &row(alloc, 9, number, short, long)?)?;
    }
    Ok(policies)
}

/// Attributes by that policy; where the first is that is refused, and why.
const BY_HAND: [(&[u8], Option<usize>, &str); 22] = [
    (b"\x06\0\x01\0ab\0\0", None, ""),
    (b"\x05\0\x01\0a\0\0\0", Some(0), "not of 2 to 4 bytes"),
    (b"\x09\0\x01\0abcde\0\0\0", Some(0), "not of 2 to 4 bytes"),
    (b"\x08\0\x02\0abc\0", None, ""),
    (b"\x08\0\x02\0abcd", Some(0), "not of 0 to 3 bytes"),
    (b"\x04\0\x02\0", Some(0), "shorter than 1 bytes"),
    (b"\x08\0\x03\0abc\0", None, ""),
    (b"\x07\0\x03\0abc\0", Some(0), "no zero at the end"),
    (b"\x06\0\x04\0\xfe\xff\0\0", None, ""),
    (b"\x06\0\x04\0\xfd\xff\0\0", Some(0), "not from -2 to 5"),
    (b"\x06\0\x04\0\x06\0\0\0", Some(0), "not from -2 to 5"),
    (
        b"\x06\0\x04\x80\x05\0\0\0",
        Some(0),
        "NLA_F_NESTED not expected",
    ),
    (b"\x0c\0\x05\0\x04\0\0\0\x05\0\0\0", None, ""),
    (
        b"\x0c\0\x05\0\x01\0\0\0\x04\0\0\0",
        Some(0),
        "bits that are not selected",
    ),
    (
        b"\x0c\0\x05\0\0\0\0\0\x02\0\0\0",
        Some(0),
        "bits that are not in 0x5",
    ),
    (b"\x08\0\x05\0\0\0\0\0", Some(0), "shorter than 8 bytes"),
    (
        b"\x11\0\x06\x80\x0c\0\x07\0\x06\0\x01\0ab\0\0\xff",
        None,
        "",
    ),
    (
        b"\x0f\0\x06\x80\x0b\0\x07\0\x05\0\x01\0abc\0",
        Some(8),
        "not of 2 to 4 bytes",
    ),
    (b"\x08\0\x07\0\x03\0\0\0", None, ""),
    (
        b"\x0a\0\x07\0\x03\0\0\0\0\0\0\0",
        Some(0),
        "longer than 4 bytes",
    ),
    (
        b"\x0c\0\x07\0\x04\0\0\0\0\0\0\0",
        Some(0),
        "bits that are not in 0x3",
    ),
    (
        b"\x06\0\x01\0ab\0\0\x04\0\x08\0",
        Some(8),
        "unknown attribute",
    ),
];

#[test]
fn each_sort_is_checked_as_the_kernel_does(rt: HostRuntime) -> Result<(), Fail> {
    let alloc = rt.alloc();
    let policies = every_sort(alloc)?;
    for (attributes, offset, wanted) in BY_HAND {
        let checked = policies.check(9, attributes);
        assert_eq!(rt; said(alloc, checked)?.as_str(), wanted, "at {attributes:?}");
        assert_eq!(rt;
            checked.err().map(|unmet| unmet.offset),
            offset,
            "at {attributes:?}"
        );
    }
    Ok(())
}

/// Arrays of nests of the same policy in each other: ten lists are open at most, an array and its elements each one.
#[test]
fn ten_lists_are_entered(rt: HostRuntime) -> Result<(), Fail> {
    let alloc = rt.alloc();
    let policies = every_sort(alloc)?;
    let mut inner = Vec::new(alloc);
    for depth in 1..12 {
        let mut outer = Vec::new(alloc);
        put(&mut outer, if depth % 2 == 1 { 0x8006 } else { 1 }, &inner)?;
        inner = outer;
        if depth % 2 == 1 {
            let wanted = if depth < 11 { "" } else { "a nest in too many" };
            assert_eq!(rt;
                said(alloc, policies.check(9, &inner))?.as_str(),
                wanted,
                "at {depth}"
            );
        }
    }
    Ok(())
}

/// A reply is taken in, or memory ran out and nothing is. Any one request for memory may be refused here.
#[test]
fn a_reply_is_taken_in_or_out_of_memory(rt: HostRuntime) -> Result<(), Fail> {
    let alloc = rt.alloc();
    let mut policies = Policies::new(alloc);
    let reply = b"\x0a\x02\0\0\x10\0\x09\x80\x0c\0\x0a\x80\x08\0\x01\0\x03\0\0\0";
    if policies.take_in(alloc, reply).is_err() {
        assert_eq!(rt; policies.policy_of(10, false), None);
        policies.take_in(alloc, reply)?;
    }
    assert_eq!(rt; policies.policy_of(10, false), Some(3));
    Ok(())
}
