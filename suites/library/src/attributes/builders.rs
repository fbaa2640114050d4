//! Refusals of builders.

use super::support::{assert_is, assert_is_at, assert_prints, assert_refused};
use neli::err::{BuildError, NoMemory, SerError, UninitializedFieldError, of};
use neli::genl::{AttrTypeBuilder, NlattrBuilder, NlattrBuilderError};
use neli::rtnl::RtattrBuilder;
use std::alloc::{AllocError, AllocFailed};
use std::io::ErrorKind;
use std::process::Abort;

/// Asserts that the builder names this field as missing.
fn assert_missing<T: Drop, const OF: u8>(
    rt: &impl Abort,
    built: Result<T, BuildError<OF>>,
    want: &str,
) {
    let missing = match built {
        Err(BuildError::UninitializedField(name)) => name,
        _ => "no field",
    };
    assert_is(rt, missing, want);
}

// The names of missing fields, the first in the order of the fields.
#[test]
fn missing_fields(rt: HostRuntime) {
    let alloc = rt.alloc();
    let field = AttrTypeBuilder::<u16>::default();
    assert_missing(&rt, field.build(), "nla_type");
    let neither = NlattrBuilder::<u16, u8>::default();
    assert_missing(&rt, neither.build(alloc), "nla_type");
    let untyped = NlattrBuilder::<u16, u8>::default().nla_payload(1);
    assert_missing(&rt, untyped.build(alloc), "nla_type");
    let bare = RtattrBuilder::<u16, u8>::default().rta_type(1);
    assert_missing(&rt, bare.build(alloc), "rta_payload");
}

#[test]
fn errors_print_the_missing_field(rt: HostRuntime) {
    let alloc = rt.alloc();
    let bare = RtattrBuilder::<u16, u8>::default().rta_type(1).build(alloc);
    assert_refused(&rt, alloc, bare, "`rta_payload` must be initialized");
    let error = NlattrBuilderError::from(UninitializedFieldError::new("nla_payload"));
    assert_prints(&rt, alloc, &error, "`nla_payload` must be initialized");
    assert_prints(&rt, alloc, &NlattrBuilderError::Memory, "Out of memory");
}

/// The text of a build error, and whether memory ran out.
fn cause_of(error: NlattrBuilderError) -> (&'static str, bool) {
    match error {
        NlattrBuilderError::UninitializedField(_) => ("a field", false),
        NlattrBuilderError::ValidationError(words) => (words, false),
        NlattrBuilderError::Memory => ("", true),
    }
}

#[test]
fn causes_of_build_errors(rt: HostRuntime) {
    let words = "Could not convert payload to binary representation";
    let unwritten = NlattrBuilderError::from(SerError::Io(ErrorKind::Other));
    assert_is(&rt, cause_of(unwritten), (words, false));
    let failed = AllocFailed { value: 7u8 };
    assert_is(&rt, cause_of(SerError::Memory.into()), ("", true));
    assert_is(&rt, cause_of(NoMemory.into()), ("", true));
    assert_is(&rt, cause_of(AllocError.into()), ("", true));
    assert_is(&rt, cause_of(failed.into()), ("", true));
}

/// The numbers that distinguish the errors of one builder from those of another.
const BUILDERS: [(&str, u8); 19] = [
    ("AttrType", of::ATTR_TYPE),
    ("Nlattr", of::NLATTR),
    ("Rtattr", of::RTATTR),
    ("Genlmsghdr", of::GENLMSGHDR),
    ("CnMsg", of::CN_MSG),
    ("Ifinfomsg", of::IFINFOMSG),
    ("Ifaddrmsg", of::IFADDRMSG),
    ("Ndmsg", of::NDMSG),
    ("NdaCacheinfo", of::NDA_CACHEINFO),
    ("IflaVlanFlags", of::IFLA_VLAN_FLAGS),
    ("IflaVlanQosMapping", of::IFLA_VLAN_QOS_MAPPING),
    ("Rtgenmsg", of::RTGENMSG),
    ("Rtmsg", of::RTMSG),
    ("Tcmsg", of::TCMSG),
    ("Fibmsg", of::FIBMSG),
    ("NlmsghdrAck", of::NLMSGHDR_ACK),
    ("NlmsghdrErr", of::NLMSGHDR_ERR),
    ("Nlmsgerr", of::NLMSGERR),
    ("Nlmsghdr", of::NLMSGHDR),
];

// Two builders with one number would share one type of errors.
#[test]
fn numbers_of_builders_differ(rt: HostRuntime) {
    for (name, number) in BUILDERS {
        for (other, its_number) in BUILDERS {
            assert_is_at(&rt, (name, other), number == its_number, name == other);
        }
        assert_is_at(&rt, name, number < 128, true);
    }
}
