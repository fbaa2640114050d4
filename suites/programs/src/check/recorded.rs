//! Requests that a kernel (Linux 6.18) refused, with the attribute that it stated by `NLMSGERR_ATTR_OFFS`.

use crate::bodies::support::parts;
use neli_tables_check::{Diagnosis, Refusal, check, find};
use neli_tables_walk::{body_of, built_in};
use std::fmt::Write;
use std::test::Fail;

/// What was recorded, its protocol, the request, the offset that the kernel stated, the attribute there, and what
/// `check` says of the request.
type Row = (
    &'static str,
    u16,
    &'static [u8],
    usize,
    &'static str,
    &'static str,
);

/// 21 is the number of `ethtool` there.
const REFUSED: [Row; 5] = [
    (
        "0592: a link's MTU of 2 bytes (ERANGE)",
        0,
        b"\x28\0\0\0\x13\0\x05\0\x68\x04\0\0\0\0\0\0\0\0\0\0\x03\0\0\0\0\0\0\0\0\0\0\0\x06\0\x04\0\xdc\x05\0\0",
        32,
        "IFLA_MTU",
        "IFLA_MTU: shorter than 4 bytes",
    ),
    (
        "0910: a nest that is not marked as one (EINVAL)",
        16,
        b"\x20\0\0\0\x15\0\x05\0\x40\x04\0\0\0\0\0\0\x02\x01\0\0\x0c\0\x01\0\x08\0\x01\0\x01\0\0\0",
        20,
        "ETHTOOL_A_LINKINFO_HEADER",
        "ETHTOOL_A_LINKINFO_HEADER: NLA_F_NESTED is missing",
    ),
    (
        "0929: a family's name of 32 bytes (EINVAL)",
        16,
        b"\x3c\0\0\0\x10\0\x05\0\x53\x04\0\0\0\0\0\0\x03\x01\0\0\x25\0\x02\0a-name-far-too-long-for-a-family\0\0\0\0",
        20,
        "CTRL_ATTR_FAMILY_NAME",
        "CTRL_ATTR_FAMILY_NAME: not of 1 to 15 bytes",
    ),
    (
        "0963: no device of this number (ENODEV)",
        16,
        b"\x20\0\0\0\x15\0\x05\0\x6e\x04\0\0\0\0\0\0\x02\x01\0\0\x0c\0\x01\x80\x08\0\x01\0\x0f\x27\0\0",
        24,
        "ETHTOOL_A_LINKINFO_HEADER.ETHTOOL_A_HEADER_DEV_INDEX",
        "",
    ),
    (
        "0965: bits that the kernel does not know (EINVAL)",
        16,
        b"\x20\0\0\0\x15\0\x05\0\x70\x04\0\0\0\0\0\0\x02\x01\0\0\x0c\0\x01\x80\x08\0\x03\0\xff\xff\0\0",
        24,
        "ETHTOOL_A_LINKINFO_HEADER.ETHTOOL_A_HEADER_FLAGS",
        "",
    ),
];

/// What was refused: which recording the answer is, the number of its error, the attributes behind
/// the request that it echoes, and all of it in one line.
const ANSWERS: [(&str, u32, &[u8], &str); 5] = [
    (
        "0593",
        34,
        b"'\0\x01\0Attribute failed policy validation\0\0\x08\0\x02\0 \0\0\0$\0\x04\x80\x0c\0\
          \x04\0\0\0\0\0\0\0\0\0\x0c\0\x05\0\xff\xff\xff\xff\0\0\0\0\x08\0\x01\0\x04\0\0\0",
        "ERANGE: Numerical result out of range: Attribute failed policy validation: IFLA_MTU",
    ),
    (
        "0911",
        22,
        b"\x1c\0\x01\0NLA_F_NESTED is missing\0\x08\0\x02\0\x14\0\0\0\x0c\0\x04\x80\x08\0\x01\0\
          \x0d\0\0\0",
        "EINVAL: Invalid argument: NLA_F_NESTED is missing: ETHTOOL_A_LINKINFO_HEADER",
    ),
    (
        "0930",
        22,
        b"'\0\x01\0Attribute failed policy validation\0\0\x08\0\x02\0\x14\0\0\0\x14\0\x04\x80\
          \x08\0\x07\0\x0f\0\0\0\x08\0\x01\0\x0c\0\0\0",
        "EINVAL: Invalid argument: Attribute failed policy validation: CTRL_ATTR_FAMILY_NAME",
    ),
    (
        "0964",
        19,
        b"\x1e\0\x01\0no device matches ifindex\0\0\0\x08\0\x02\0\x18\0\0\0",
        "ENODEV: No such device: no device matches ifindex: ETHTOOL_A_LINKINFO_HEADER.ETHTOOL_A_HEADER_DEV_INDEX",
    ),
    (
        "0966",
        22,
        b"\x15\0\x01\0reserved bit set\0\0\0\0\x08\0\x02\0\x18\0\0\0",
        "EINVAL: Invalid argument: reserved bit set: ETHTOOL_A_LINKINFO_HEADER.ETHTOOL_A_HEADER_FLAGS",
    ),
];

#[test]
fn refused_requests_are_explained(rt: HostRuntime) -> Result<(), Fail> {
    let alloc = rt.alloc();
    let mut tables = built_in(alloc)?;
    tables.learn(21, b"ethtool")?;
    for (what, protocol, request, offset, path, wrong) in REFUSED {
        let (head, payload) = parts(protocol, request);
        let body = body_of(&tables, head, payload);
        let mut found = String::new(alloc);
        if let Some(place) = find(&body, offset) {
            write!(found, "{place}")?;
        }
        assert_eq!(rt; found.as_str(), path, "at {what}");
        let mut said = String::new(alloc);
        if let Err(violation) = check(&body) {
            write!(said, "{violation}")?;
        }
        assert_eq!(rt; said.as_str(), wrong, "at {what}");
    }
    Ok(())
}

#[test]
fn refusals_are_printed(rt: HostRuntime) -> Result<(), Fail> {
    let alloc = rt.alloc();
    let mut tables = built_in(alloc)?;
    tables.learn(21, b"ethtool")?;
    for (refused, answer) in REFUSED.iter().zip(&ANSWERS) {
        let (_, protocol, request, ..) = refused;
        let (recording, number, attributes, line) = answer;
        let (head, payload) = parts(*protocol, request);
        let body = body_of(&tables, head, payload);
        let refusal = Refusal::of(&body, *number, attributes);
        let mut said = String::new(alloc);
        write!(said, "{refusal}")?;
        assert_eq!(rt; said.as_str(), *line, "at {recording}");
    }
    // An error without a name, of which nothing is said.
    let (head, payload) = parts(0, REFUSED[0].2);
    let refusal = Refusal::of(&body_of(&tables, head, payload), 4095, b"");
    let mut said = String::new(alloc);
    write!(said, "{refusal}")?;
    assert_eq!(rt; said.as_str(), "error 4095");
    Ok(())
}

/// Requests that Linux 6.18 refused, and of each answer the number of the error and the attributes behind its echo; 20 is
/// the number of `netdev` there. The names are those of the kernel's headers by their numbers in these bytes, the limits
/// those of the policy in the answer.
const DIAGNOSED: [(&str, u16, &[u8], u32, &[u8], &str); 5] = [
    (
        "an attribute that is missing",
        16,
        b"\x14\0\0\0\x14\0\x05\0\x04\0\0\0\0\0\0\0\x01\x01\0\0",
        22,
        b"\x08\0\x05\0\x01\0\0\0",
        "EINVAL: Invalid argument: missing NETDEV_A_DEV_IFINDEX",
    ),
    (
        "another, beside one",
        16,
        b"\x1c\0\0\0\x14\0\x05\0\x05\0\0\0\0\0\0\0\x0a\x01\0\0\x08\0\x02\0\x01\0\0\0",
        22,
        b"\x08\0\x05\0\x01\0\0\0",
        "EINVAL: Invalid argument: missing NETDEV_A_QUEUE_ID",
    ),
    (
        "a number below its range",
        16,
        b"(\0\0\0\x15\0\x05\0\x06\0\0\0\0\0\0\0\x05\x01\0\0\x0c\0\x01\x80\x07\0\x02\0lo\0\0\
          \x08\0\x09\0\0\0\0\0",
        34,
        b"\x19\0\x01\0integer out of range\0\0\0\0\x08\0\x02\0 \0\0\0$\0\x04\x80\x0c\0\x04\0\x01\0\0\0\0\0\0\0\
          \x0c\0\x05\0\x08\0\0\0\0\0\0\0\x08\0\x01\0\x04\0\0\0",
        "ERANGE: Numerical result out of range: integer out of range: ETHTOOL_A_LINKMODES_LANES = 0, allowed 1..8",
    ),
    (
        "one of routing",
        0,
        b"(\0\0\0\x10\0\x05\0\x07\0\0\0\0\0\0\0\0\0\0\0\x01\0\0\0\0\0\0\0\0\0\0\0\x08\0)\0\x01\0\0\0",
        34,
        b"\x19\0\x01\0integer out of range\0\0\0\0\x08\0\x02\0 \0\0\0$\0\x04\x80\x0c\0\x04\0\xc1\0\0\0\0\0\0\0\
          \x0c\0\x05\0\xff\xff\xff\xff\0\0\0\0\x08\0\x01\0\x04\0\0\0",
        "ERANGE: Numerical result out of range: integer out of range: IFLA_GSO_MAX_SIZE = 1, allowed 193..4294967295",
    ),
    (
        "0593: a number of 2 bytes",
        0,
        b"\x28\0\0\0\x13\0\x05\0\x68\x04\0\0\0\0\0\0\0\0\0\0\x03\0\0\0\0\0\0\0\0\0\0\0\x06\0\x04\0\xdc\x05\0\0",
        34,
        b"'\0\x01\0Attribute failed policy validation\0\0\x08\0\x02\0 \0\0\0$\0\x04\x80\x0c\0\
          \x04\0\0\0\0\0\0\0\0\0\x0c\0\x05\0\xff\xff\xff\xff\0\0\0\0\x08\0\x01\0\x04\0\0\0",
        "ERANGE: Numerical result out of range: Attribute failed policy validation: IFLA_MTU = 0xdc05, allowed 0..4294967295",
    ),
];

#[test]
fn refusals_are_diagnosed(rt: HostRuntime) -> Result<(), Fail> {
    let alloc = rt.alloc();
    let mut tables = built_in(alloc)?;
    tables.learn(20, b"netdev")?;
    tables.learn(21, b"ethtool")?;
    for (what, protocol, request, number, attributes, line) in DIAGNOSED {
        let (head, payload) = parts(protocol, request);
        let diagnosis = Diagnosis::of(&body_of(&tables, head, payload), number, attributes);
        let mut said = String::new(alloc);
        write!(said, "{diagnosis}")?;
        assert_eq!(rt; said.as_str(), line, "at {what}");
    }
    Ok(())
}
