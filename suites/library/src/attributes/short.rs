//! Short calls: attributes that are made and put, and looked up and read at once.

use super::support::{assert_is, assert_refused, assert_written, read_list, zeros};
use neli::consts::genl::{CtrlAttr, CtrlAttrMcastGrp, Index};
use neli::consts::linux::IflaBr;
use neli::consts::rtnl::{Ifla, IflaInfo};
use neli::err::{DeError, SerError};
use neli::genl::Nlattr;
use neli::lent::{LentNlattrs, LentRtattrs};
use neli::rtnl::Rtattr;
use neli::short::{AttrError, LentLookup, Lookup, Made, Put};
use neli::types::{Buffer, GenlBuffer, RtBuffer};
use neli::{Cursor, FromBytesWithInput};
use std::alloc::Global;
use std::io::ErrorKind;
use std::process::Abort;

/// The attributes of a bridge, as iproute2 writes them for `ip link add br0 type bridge mcast_snooping 1 stp_state 1
/// priority 5` (1090 of suites/README.md).
const BRIDGE: [u8; 52] = [
    8, 0, 3, 0, b'b', b'r', b'0', 0, 44, 0, 18, 0, 10, 0, 1, 0, b'b', b'r', b'i', b'd', b'g', b'e',
    0, 0, 28, 0, 2, 0, 5, 0, 23, 0, 1, 0, 0, 0, 8, 0, 5, 0, 1, 0, 0, 0, 6, 0, 6, 0, 5, 0, 0, 0,
];

/// The settings of a bridge.
pub fn put_settings(
    alloc: Global,
    settings: &mut RtBuffer<IflaBr, Buffer>,
) -> Result<(), SerError> {
    settings.put(alloc, IflaBr::McastSnooping, 1u8)?;
    settings.put(alloc, IflaBr::StpState, 1u32)?;
    settings.put(alloc, IflaBr::Priority, 5u16)
}

/// The attributes of a bridge, from the outside in.
pub fn bridge(alloc: Global) -> Result<RtBuffer<Ifla, Buffer>, SerError> {
    let mut attrs: RtBuffer<Ifla, Buffer> = RtBuffer::new(alloc);
    attrs.put(alloc, Ifla::Ifname, "br0")?;
    attrs.put_nest(
        alloc,
        Ifla::Linkinfo,
        |info: &mut RtBuffer<IflaInfo, Buffer>| {
            info.put(alloc, IflaInfo::Kind, *b"bridge")?;
            info.put_nest(
                alloc,
                IflaInfo::Data,
                |settings| put_settings(alloc, settings),
            )
        },
    )?;
    Ok(attrs)
}

#[test]
fn a_bridge_from_the_outside_in(rt: HostRuntime) {
    let attrs = bridge(rt.alloc()).expect(&rt, "a bridge");
    assert_written(&rt, rt.alloc(), &attrs, &BRIDGE);
}

/// A group of a family with its name and its number, marked as nested, in a list that is (docs/ATTRIBUTES.md).
fn groups(alloc: Global) -> Result<GenlBuffer<CtrlAttr, Buffer>, SerError> {
    let mut attrs: GenlBuffer<CtrlAttr, Buffer> = GenlBuffer::new(alloc);
    attrs.put_nest(
        alloc,
        CtrlAttr::McastGroups,
        |groups: &mut GenlBuffer<Index, Buffer>| {
            groups.put_nest(
                alloc,
                Index::from(1),
                |group: &mut GenlBuffer<CtrlAttrMcastGrp, Buffer>| {
                    group.put(alloc, CtrlAttrMcastGrp::Name, "notify")?;
                    group.put(alloc, CtrlAttrMcastGrp::Id, 5u32)
                },
            )
        },
    )?;
    Ok(attrs)
}

#[test]
fn generic_nests_are_marked(rt: HostRuntime) {
    let attrs = groups(rt.alloc()).expect(&rt, "groups");
    let want = [
        28, 0, 7, 0x80, 24, 0, 1, 0x80, 11, 0, 1, 0, b'n', b'o', b't', b'i', b'f', b'y', 0, 0, 8,
        0, 2, 0, 5, 0, 0, 0,
    ];
    assert_written(&rt, rt.alloc(), &attrs, &want);
}

#[test]
fn one_attribute(rt: HostRuntime) {
    let alloc = rt.alloc();
    let name = Rtattr::of(alloc, Ifla::Ifname, "lo").expect(&rt, "a name");
    assert_written(&rt, alloc, &name, &[7, 0, 3, 0, b'l', b'o', 0, 0]);
    let name = Nlattr::of(alloc, CtrlAttr::FamilyName, "nlctrl").expect(&rt, "a name");
    let want = [11, 0, 2, 0, b'n', b'l', b'c', b't', b'r', b'l', 0, 0];
    assert_written(&rt, alloc, &name, &want);
    let list = bridge(alloc).expect(&rt, "a bridge");
    let nest = Rtattr::nest_of(alloc, Ifla::Linkinfo, list).expect(&rt, "a nest");
    assert_is(&rt, *nest.rta_len(), 56);
    let list = groups(alloc).expect(&rt, "groups");
    let nest = Nlattr::nest_of(alloc, CtrlAttr::Ops, list).expect(&rt, "a nest");
    assert_is(
        &rt,
        (*nest.nla_len(), *nest.nla_type().nla_nested()),
        (32, true),
    );
}

/// What a refusal prints whose length does not fit.
const TOO_LONG: &str = "Length does not fit its field";

#[test]
fn what_is_not_put_leaves_the_list(rt: HostRuntime) {
    let alloc = rt.alloc();
    let mut attrs = bridge(alloc).expect(&rt, "a bridge");
    // With its header it has 65536 bytes.
    let put = attrs.put(alloc, Ifla::Ifalias, zeros(&rt, alloc, 65532));
    assert_refused(&rt, alloc, put, TOO_LONG);
    let long = zeros(&rt, alloc, 65531);
    let put = attrs.put_nest(
        alloc,
        Ifla::Linkinfo,
        |info: &mut RtBuffer<IflaInfo, Buffer>| { info.put(alloc, IflaInfo::Data, long) },
    );
    assert_refused(&rt, alloc, put, TOO_LONG);
    let put = attrs.put_nest(
        alloc,
        Ifla::Linkinfo,
        |info: &mut RtBuffer<IflaInfo, Buffer>| {
            info.put(alloc, IflaInfo::Kind, *b"vlan")?;
            Err(SerError::Io(ErrorKind::Other))
        },
    );
    assert!(rt; matches!(put, Err(SerError::Io(ErrorKind::Other))));
    assert_written(&rt, alloc, &attrs, &BRIDGE);
}

/// Asserts that a read was refused, of the attribute of this number, as bytes that end too early.
fn assert_short<R: Drop>(rt: &impl Abort, read: Result<Option<R>, AttrError>, number: u16) {
    let error = read.err().expect(rt, "it is not refused");
    assert_is(rt, error.number(), number);
    assert!(rt; matches!(error.cause(), DeError::Io(ErrorKind::UnexpectedEof)));
    assert!(rt; matches!(DeError::from(error), DeError::Io(ErrorKind::UnexpectedEof)));
}

#[test]
fn missing_is_not_unreadable(rt: HostRuntime) {
    let alloc = rt.alloc();
    let list: RtBuffer<Ifla, Buffer> = read_list(&rt, alloc, &BRIDGE);
    let mtu: Option<u32> = list.get(alloc, Ifla::Mtu).expect(&rt, "nothing");
    assert_is(&rt, mtu, None);
    let name: Option<u32> = list.get(alloc, Ifla::Ifname).expect(&rt, "a number");
    assert_is(&rt, name, Some(0x00307262));
    assert_short(&rt, list.get::<u64>(alloc, Ifla::Ifname), 3);
    let name: Option<String> = list.get_with_len(alloc, Ifla::Ifname).expect(&rt, "a name");
    assert_is(&rt, name.expect(&rt, "a name").as_str(), "br0");
    let alias: Option<String> = list
        .get_with_len(alloc, Ifla::Ifalias)
        .expect(&rt, "nothing");
    assert!(rt; alias.is_none());
    let handle = list.get_attr_handle();
    let name: Option<u32> = handle.get(alloc, Ifla::Ifname).expect(&rt, "a number");
    assert_is(&rt, name, Some(0x00307262));
    assert_is(
        &rt,
        handle.get_str(Ifla::Ifname).expect(&rt, "a name"),
        Some("br0"),
    );
    assert_is(
        &rt,
        handle.get_str(Ifla::Qdisc).expect(&rt, "nothing"),
        None,
    );
    assert_is(
        &rt,
        handle.payload_of(Ifla::Ifname),
        Some(b"br0\0".as_slice()),
    );
    let alias: Option<String> = handle
        .get_with_len(alloc, Ifla::Ifalias)
        .expect(&rt, "nothing");
    assert!(rt; alias.is_none());
}

#[test]
fn what_is_refused_is_named(rt: HostRuntime) {
    let alloc = rt.alloc();
    // A text without its zero, as attribute 3.
    let list: RtBuffer<Ifla, Buffer> = read_list(&rt, alloc, &[4, 0, 3, 0]);
    let name = list.get_with_len::<String>(alloc, Ifla::Ifname);
    assert_refused(
        &rt,
        alloc,
        name,
        "attribute 3: Invalid input was provided: 0",
    );
    let name = list.get_str(Ifla::Ifname);
    assert_refused(
        &rt,
        alloc,
        name,
        "attribute 3: Invalid input was provided: 0",
    );
}

/// The front of what a link of family 7 has as `IFLA_PROTINFO`, which is marked as nested: its state, 3, and its
/// priority, 32 (docs/ATTRIBUTES.md). A nest of three bytes follows, which is no list.
const PORT: [u8; 28] = [
    20, 0, 12, 0x80, 5, 0, 1, 0, 3, 0, 0, 0, 6, 0, 2, 0, 32, 0, 0, 0, 7, 0, 26, 0, 1, 2, 3, 0,
];

/// Paths in [`PORT`], and the number of two bytes at the end of each.
const PATHS: [(&[u16], Option<u16>); 6] = [
    (&[12, 2], Some(32)),
    (&[12], Some(5)),
    (&[12, 3], None),
    (&[13, 2], None),
    (&[13], None),
    (&[], None),
];

/// An attribute 1 with an attribute 2 that has an attribute 3 of two bytes, 7.
const THREE_DEEP: [u8; 16] = [16, 0, 1, 0, 12, 0, 2, 0, 6, 0, 3, 0, 7, 0, 0, 0];

#[test]
fn paths_of_three_steps(rt: HostRuntime) {
    let alloc = rt.alloc();
    let list: RtBuffer<Ifla, Buffer> = read_list(&rt, alloc, &THREE_DEEP);
    let lent: LentRtattrs<'_, Ifla> = LentRtattrs::new(&THREE_DEEP);
    let rows: [(&[u16], Option<u16>); 2] = [(&[1, 2, 3], Some(7)), (&[1, 2, 4], None)];
    for (path, want) in rows {
        let number: Option<u16> = list.get_path(alloc, path).expect(&rt, "no refusal");
        assert_is(&rt, number, want);
        assert_is(&rt, lent.get_path(path).expect(&rt, "no refusal"), want);
    }
}

#[test]
fn paths_through_nests(rt: HostRuntime) {
    let alloc = rt.alloc();
    let list: RtBuffer<Ifla, Buffer> = read_list(&rt, alloc, &PORT);
    let lent: LentRtattrs<'_, Ifla> = LentRtattrs::new(&PORT);
    for (path, want) in &PATHS {
        let number: Option<u16> = list.get_path(alloc, path).expect(&rt, "no refusal");
        assert_is(&rt, number, *want);
        assert_is(&rt, lent.get_path(path).expect(&rt, "no refusal"), *want);
        let handle = list.get_attr_handle();
        let number: Option<u16> = handle.get_path(alloc, path).expect(&rt, "no refusal");
        assert_is(&rt, number, *want);
        let bytes: Option<Buffer> = handle
            .get_path_with_len(alloc, path)
            .expect(&rt, "no refusal");
        assert_is(&rt, bytes.is_some(), want.is_some());
        let payload = handle.payload_at(path).expect(&rt, "no refusal");
        assert_is(&rt, payload.is_some(), want.is_some());
    }
    let state = list.payload_at(&[12, 1]).expect(&rt, "no refusal");
    assert_is(&rt, state, Some([3u8].as_slice()));
    assert_is(
        &rt,
        lent.payload_at(&[12, 1]).expect(&rt, "no refusal"),
        state,
    );
    assert_short(&rt, list.get_path::<u32>(alloc, &[12, 1]), 1);
    assert_short(&rt, lent.get_path::<u32>(&[12, 1]), 1);
    let state: Option<Buffer> = list
        .get_path_with_len(alloc, &[12, 1])
        .expect(&rt, "a state");
    assert_is(&rt, state.expect(&rt, "a state").as_ref(), [3u8].as_slice());
    // The list that is none names what was looked up in it.
    let broken = "attribute 5: Invalid input was provided: 3";
    assert_refused(&rt, alloc, list.get_path::<u32>(alloc, &[26, 5]), broken);
    assert_refused(&rt, alloc, lent.get_path::<u32>(&[26, 5]), broken);
}

#[test]
fn lent_attributes_are_read(rt: HostRuntime) {
    let alloc = rt.alloc();
    let lent: LentRtattrs<'_, Ifla> = LentRtattrs::new(&BRIDGE);
    let mtu: Option<u32> = lent.get(Ifla::Mtu).expect(&rt, "nothing");
    assert_is(&rt, mtu, None);
    let name: Option<u32> = lent.get(Ifla::Ifname).expect(&rt, "a number");
    assert_is(&rt, name, Some(0x00307262));
    assert_short(&rt, lent.get::<u64, _>(Ifla::Ifname), 3);
    assert_is(
        &rt,
        lent.get_str(Ifla::Ifname).expect(&rt, "a name"),
        Some("br0"),
    );
    assert_is(&rt, lent.get_str(Ifla::Qdisc).expect(&rt, "nothing"), None);
    assert_is(&rt, lent.payload_of(Ifla::Mtu).expect(&rt, "nothing"), None);
    // The flags of a generic type are passed over.
    let generic: LentNlattrs<'_, CtrlAttr> = LentNlattrs::new(&[6, 0, 1, 0x80, 16, 0, 0, 0]);
    let family: Option<u16> = generic.get(CtrlAttr::FamilyId).expect(&rt, "a number");
    assert_is(&rt, family, Some(16));
    assert_is(
        &rt,
        generic.get_path(&[1]).expect(&rt, "a number"),
        Some(16u16),
    );
    // A fault before the attribute names what was looked up.
    let cut: LentRtattrs<'_, Ifla> = LentRtattrs::new(&BRIDGE[..10]);
    let mtu = cut.get::<u32, _>(Ifla::Mtu);
    assert_refused(
        &rt,
        alloc,
        mtu,
        "attribute 4: Invalid input was provided: 10",
    );
}

#[test]
fn made_or_out_of_memory(rt: HostRuntime) {
    let alloc = rt.alloc();
    match Rtattr::of(alloc, Ifla::Mtu, 7u32) {
        Ok(attr) => assert_is(&rt, attr.rta_payload().as_ref(), [7u8, 0, 0, 0].as_slice()),
        Err(error) => assert!(rt; matches!(error, SerError::Memory)),
    }
    let mut list: GenlBuffer<CtrlAttr, Buffer> = GenlBuffer::new(alloc);
    if let Err(error) = list.put(alloc, CtrlAttr::FamilyId, 7u16) {
        assert!(rt; matches!(error, SerError::Memory));
        assert_is(&rt, list.len(), 0);
    }
    let count = list.len();
    match Nlattr::nest_of(alloc, CtrlAttr::Ops, list) {
        Ok(nest) => assert_is(&rt, nest.nla_payload().len(), 8 * count),
        Err(error) => assert!(rt; matches!(error, SerError::Memory)),
    }
}

#[test]
fn put_or_out_of_memory(rt: HostRuntime) {
    let alloc = rt.alloc();
    let mut attrs: RtBuffer<Ifla, Buffer> = RtBuffer::new(alloc);
    if let Err(error) = attrs.put(alloc, Ifla::Ifname, "br0") {
        assert!(rt; matches!(error, SerError::Memory));
        assert_is(&rt, attrs.len(), 0);
    }
    let count = attrs.len();
    let put = attrs.put_nest(
        alloc,
        Ifla::Linkinfo,
        |info: &mut RtBuffer<IflaInfo, Buffer>| { info.put(alloc, IflaInfo::Kind, *b"bridge") },
    );
    match put {
        Ok(()) => assert_is(&rt, attrs.len(), count + 1),
        Err(error) => {
            assert!(rt; matches!(error, SerError::Memory));
            assert_is(&rt, attrs.len(), count);
        }
    }
}

#[test]
fn looked_up_or_out_of_memory(rt: HostRuntime) {
    let alloc = rt.alloc();
    let mut cursor = Cursor::new(&PORT);
    let Ok(list) = RtBuffer::<Ifla, Buffer>::from_bytes_with_input(alloc, &mut cursor, PORT.len())
    else {
        return;
    };
    match list.get_with_len::<Buffer>(alloc, Ifla::PropList) {
        Ok(found) => assert!(rt; found.is_none()),
        Err(_) => assert!(rt; false, "a missing attribute takes no memory"),
    }
    match list.get_path_with_len::<Buffer>(alloc, &[12, 1]) {
        Ok(state) => assert_is(&rt, state.expect(&rt, "a state").as_ref(), [3u8].as_slice()),
        Err(error) => {
            assert_is(&rt, error.number(), 1);
            assert!(rt; matches!(error.cause(), DeError::Memory));
        }
    }
}
