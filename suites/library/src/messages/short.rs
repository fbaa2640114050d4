//! Short calls: what an error says by words, and a message's body. `NLMSGERR_ATTR_*` of linux/netlink.h: 1 is the text,
//! 2 the offset, 4 the policy, 5 the number of a missing attribute, 6 the place of the nest that lacks it.

use super::kinds::{CAPPED, ERROR};
use super::support::{assert_is, lent_message, raw_message};
use neli::consts::linux::NlPolicyTypeAttr;
use neli::consts::nl::NlmsgerrAttr;
use neli::err::{DeError, Nlmsgerr, SerError};
use neli::nl::Nlmsghdr;
use neli::rtnl::Ifinfomsg;
use neli::short::{ExtAck, ExtAckBuilder, LentLookup, Put, ReadBody};
use neli::types::{Buffer, GenlBuffer};
use neli::{Cursor, FromBytes, FromBytesWithInput, ToBytes};
use std::alloc::Global;
use std::fmt::Debug;
use std::process::Abort;

/// What an answer says beside its code.
#[derive(Clone, Copy, Debug, PartialEq, Eq)]
struct Said<'a> {
    text: Option<&'a str>,
    offset: Option<u32>,
    missing_type: Option<u32>,
    missing_nest: Option<u32>,
}

const NOTHING: Said<'static> = Said {
    text: None,
    offset: None,
    missing_type: None,
    missing_nest: None,
};

fn said_by(attrs: &impl ExtAck) -> Said<'_> {
    Said {
        text: attrs.text(),
        offset: attrs.offset(),
        missing_type: attrs.missing_type(),
        missing_nest: attrs.missing_nest(),
    }
}

/// A code and attributes, as the end of a dump has them, and what these say.
const ANSWERS: [(&[u8], Said<'static>); 8] = [
    (&[0, 0, 0, 0], NOTHING),
    // The recorded error of a listing with a header that is too short (docs/FRAMES.md), without its echo.
    (
        b"\xea\xff\xff\xff\x1a\x00\x01\x00Invalid header length\x00\x00\x00",
        Said {
            text: Some("Invalid header length"),
            ..NOTHING
        },
    ),
    (
        &[0, 0, 0, 0, 8, 0, 2, 0, 44, 0, 0, 0],
        Said {
            offset: Some(44),
            ..NOTHING
        },
    ),
    // Attribute 3 is missing in the nest at 20.
    (
        &[0, 0, 0, 0, 8, 0, 5, 0, 3, 0, 0, 0, 8, 0, 6, 0, 20, 0, 0, 0],
        Said {
            missing_type: Some(3),
            missing_nest: Some(20),
            ..NOTHING
        },
    ),
    // Of two offsets the first; a cookie, 3, says none of these.
    (
        &[
            0, 0, 0, 0, 8, 0, 3, 0, 1, 0, 0, 0, 8, 0, 2, 0, 16, 0, 0, 0, 8, 0, 2, 0, 17, 0, 0, 0,
        ],
        Said {
            offset: Some(16),
            ..NOTHING
        },
    ),
    // No text without a byte, none that is not UTF-8, and no number of two bytes.
    (&[0, 0, 0, 0, 4, 0, 1, 0], NOTHING),
    (&[0, 0, 0, 0, 6, 0, 1, 0, 0xff, 0, 0, 0], NOTHING),
    (&[0, 0, 0, 0, 6, 0, 5, 0, 3, 0, 0, 0], NOTHING),
];

/// The answer that these bytes are.
fn answer_in(rt: &impl Abort, alloc: Global, bytes: &[u8]) -> Nlmsgerr<()> {
    Nlmsgerr::from_bytes_with_input(alloc, &mut Cursor::new(bytes), bytes.len()).expect(
        rt,
        "an answer",
    )
}

#[test]
fn answers_say(rt: HostRuntime) {
    for (bytes, want) in &ANSWERS {
        let answer = answer_in(&rt, rt.alloc(), bytes);
        assert_is(&rt, said_by(&answer), *want);
        assert!(rt; answer.policy().is_none());
        assert_is(&rt, answer.said().len(), answer.ext_ack().len());
    }
}

#[test]
fn errors_and_capped_errors_say(rt: HostRuntime) {
    let error = raw_message(&rt, rt.alloc(), &ERROR)
        .get_err()
        .expect(&rt, "an error");
    assert_is(&rt, error.text(), Some("bad"));
    let capped = raw_message(&rt, rt.alloc(), &CAPPED)
        .get_capped()
        .expect(&rt, "a capped error");
    assert_is(&rt, capped.text(), Some("bad"));
}

/// A policy: the type of the value is 3 (`NL_ATTR_TYPE_U16`), and it is 4094 at most.
const POLICY: [u8; 28] = [
    0, 0, 0, 0, 24, 0, 4, 0x80, 8, 0, 1, 0, 3, 0, 0, 0, 12, 0, 5, 0, 0xfe, 0x0f, 0, 0, 0, 0, 0, 0,
];

#[test]
fn a_policy_says(rt: HostRuntime) {
    let answer = answer_in(&rt, rt.alloc(), &POLICY);
    let policy = answer.policy().expect(&rt, "a policy");
    let kind: Option<u32> = policy.get(NlPolicyTypeAttr::Type).expect(&rt, "a type");
    assert_is(&rt, kind, Some(3));
    let most: Option<u64> = policy
        .get(NlPolicyTypeAttr::MaxValueU)
        .expect(&rt, "a number");
    assert_is(&rt, most, Some(4094));
}

/// That policy, and what it says: its type, and the largest value.
fn policy_of_a_number(alloc: Global) -> Result<GenlBuffer<NlPolicyTypeAttr, Buffer>, SerError> {
    let mut policy = GenlBuffer::new(alloc);
    policy.put(alloc, NlPolicyTypeAttr::Type, 3u32)?;
    policy.put(alloc, NlPolicyTypeAttr::MaxValueU, 4094u64)?;
    Ok(policy)
}

/// Attributes of all kinds.
fn built(alloc: Global) -> Result<GenlBuffer<NlmsgerrAttr, Buffer>, SerError> {
    ExtAckBuilder::default()
        .text("bad")
        .offset(44)
        .policy(policy_of_a_number(alloc)?)
        .missing_type(3)
        .missing_nest(20)
        .build(alloc)
}

#[test]
fn what_is_built_is_said_or_out_of_memory(rt: HostRuntime) {
    let attrs = match built(rt.alloc()) {
        Ok(attrs) => attrs,
        Err(error) => {
            assert!(rt; matches!(error, SerError::Memory));
            return;
        }
    };
    let want = Said {
        text: Some("bad"),
        offset: Some(44),
        missing_type: Some(3),
        missing_nest: Some(20),
    };
    assert_is(&rt, said_by(&attrs), want);
    let policy = attrs.policy().expect(&rt, "a policy");
    let most: Option<u64> = policy
        .get(NlPolicyTypeAttr::MaxValueU)
        .expect(&rt, "a number");
    assert_is(&rt, most, Some(4094));
}

#[test]
fn what_is_built(rt: HostRuntime) {
    let alloc = rt.alloc();
    let attrs = ExtAckBuilder::default()
        .missing_nest(20)
        .text("bad")
        .build(alloc)
        .expect(&rt, "attributes");
    let mut bytes = Vec::new(alloc);
    attrs.to_bytes(&mut bytes).expect(&rt, "memory");
    let want = [8, 0, 1, 0, b'b', b'a', b'd', 0, 8, 0, 6, 0, 20, 0, 0, 0];
    assert_is(&rt, bytes.as_slice(), want.as_slice());
    let none = ExtAckBuilder::default()
        .build(alloc)
        .expect(&rt, "attributes");
    assert_is(&rt, none.len(), 0);
}

/// A policy between an offset and a missing type: 0x8000 marks its nest (`NLA_F_NESTED`).
const WITH_POLICY: [u8; 40] = [
    8, 0, 2, 0, 16, 0, 0, 0, 24, 0, 4, 0x80, 8, 0, 1, 0, 3, 0, 0, 0, 12, 0, 5, 0, 0xfe, 0x0f, 0, 0,
    0, 0, 0, 0, 8, 0, 5, 0, 3, 0, 0, 0,
];

#[test]
fn a_policy_is_built(rt: HostRuntime) {
    let alloc = rt.alloc();
    let attrs = ExtAckBuilder::default()
        .missing_type(3)
        .policy(policy_of_a_number(alloc).expect(&rt, "a policy"))
        .offset(16)
        .build(alloc)
        .expect(&rt, "attributes");
    let mut bytes = Vec::new(alloc);
    attrs.to_bytes(&mut bytes).expect(&rt, "memory");
    assert_is(&rt, bytes.as_slice(), WITH_POLICY.as_slice());
    let empty = ExtAckBuilder::default()
        .policy(GenlBuffer::new(alloc))
        .build(alloc)
        .expect(&rt, "attributes");
    let mut bytes = Vec::new(alloc);
    empty.to_bytes(&mut bytes).expect(&rt, "memory");
    assert_is(&rt, bytes.as_slice(), [4, 0, 4, 0x80].as_slice());
}

#[test]
fn a_policy_that_is_too_long_is_refused(rt: HostRuntime) {
    let alloc = rt.alloc();
    // An attribute of 65528 bytes has room in a nest; one of 65532, which a length states too, has none.
    for (count, want) in [(65524, false), (65528, true)] {
        let zeros = vec![in alloc; 0u8; count].expect(&rt, "memory");
        let mut policy = GenlBuffer::new(alloc);
        policy
            .put(alloc, NlPolicyTypeAttr::Pad, zeros.as_slice())
            .expect(&rt, "an attribute");
        let built = ExtAckBuilder::default().policy(policy).build(alloc);
        assert_is(&rt, matches!(built, Err(SerError::Msg(_))), want);
    }
}

/// A notification of link 3: `struct ifinfomsg` of linux/rtnetlink.h, without attributes.
const LINK: [u8; 32] = [
    32, 0, 0, 0, 16, 0, 0, 0, 0, 0, 0, 0, 0, 0, 0, 0, 0, 0, 1, 0, 3, 0, 0, 0, 0, 0, 0, 0, 0, 0, 0,
    0,
];

#[test]
fn a_body_is_read(rt: HostRuntime) {
    let alloc = rt.alloc();
    let link = raw_message(&rt, alloc, &LINK);
    let body: Option<Ifinfomsg> = link.body(alloc).expect(&rt, "a link");
    assert_is(&rt, *body.expect(&rt, "a link").ifi_index(), 3);
    assert_is(&rt, link.body_bytes().expect(&rt, "bytes").len(), 16);
    let error = raw_message(&rt, alloc, &ERROR);
    let body: Option<Ifinfomsg> = error.body(alloc).expect(&rt, "nothing");
    assert!(rt; body.is_none());
    let refused = link.body::<()>(alloc).err().expect(&rt, "it has bytes");
    assert!(rt; matches!(refused, DeError::InvalidInput(16)));
}

#[test]
fn a_lent_body_is_read(rt: HostRuntime) {
    let alloc = rt.alloc();
    let link = lent_message::<u16>(&rt, &LINK);
    let body: Option<Ifinfomsg> = link.body(alloc).expect(&rt, "a link");
    assert_is(&rt, *body.expect(&rt, "a link").ifi_index(), 3);
    assert_is(&rt, link.body_bytes().expect(&rt, "bytes"), &LINK[16..]);
    let error = lent_message::<u16>(&rt, &ERROR);
    let body: Option<Ifinfomsg> = error.body(alloc).expect(&rt, "nothing");
    assert!(rt; body.is_none());
    let refused = link.body::<()>(alloc).err().expect(&rt, "it has bytes");
    assert!(rt; matches!(refused, DeError::InvalidInput(16)));
}

#[test]
fn a_body_is_read_or_out_of_memory(rt: HostRuntime) {
    let mut cursor = Cursor::new(&LINK);
    let Ok(link) = Nlmsghdr::<u16, Buffer>::from_bytes(rt.alloc(), &mut cursor) else {
        return;
    };
    match link.body::<Buffer>(rt.alloc()) {
        Ok(body) => assert_is(&rt, body.expect(&rt, "a body").as_ref(), &LINK[16..]),
        Err(error) => assert!(rt; matches!(error, DeError::Memory)),
    }
}
