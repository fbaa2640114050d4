//! Builders: their results, and missing fields.

use super::support::{assert_is_at, made, read_whole, written};
use neli::connector::{CnMsg, CnMsgBuilder, CnMsgBuilderError, ProcEvent, ProcEventHeader};
use neli::consts::connector::{CnMsgIdx, CnMsgVal, ProcEventType};
use neli::consts::genl::{CtrlAttr, CtrlCmd};
use neli::consts::rtnl::{
    FrAct, Frf, IfaF, Iff, Ifla, Ntf, Nud, RtAddrFamily, RtScope, RtTable, Rta, RtaType, RtmF, Rtn,
    Rtprot, VlanFlags,
};
use neli::err::BuildError;
use neli::genl::{AttrTypeBuilder, Genlmsghdr, GenlmsghdrBuilder, NlattrBuilder};
use neli::rtnl::{
    FibmsgBuilder, IfaddrmsgBuilder, IfinfomsgBuilder, IflaVlanFlags, IflaVlanFlagsBuilder,
    IflaVlanQosMapping, IflaVlanQosMappingBuilder, NdaCacheinfo, NdaCacheinfoBuilder, NdmsgBuilder,
    RtattrBuilder, RtgenmsgBuilder, RtmsgBuilder, TcmsgBuilder,
};
use neli::types::{Buffer, GenlBuffer, RtBuffer};
use neli::{Cursor, FromBytes, FromBytesWithInput, Header, Size, ToBytes};
use std::alloc::Global;
use std::process::Abort;

#[test]
fn a_link_set_up(rt: HostRuntime) {
    let alloc = rt.alloc();
    let up = IfinfomsgBuilder::default()
        .ifi_family(RtAddrFamily::Unspecified)
        .ifi_index(3)
        .up()
        .build(alloc);
    let bytes = [0, 0, 0, 0, 3, 0, 0, 0, 1, 0, 0, 0, 1, 0, 0, 0];
    let up = made(&rt, alloc, "a link", up, &bytes);
    let _copy = made(&rt, alloc, "its copy", up.try_clone(), &bytes);
}

#[test]
fn a_link_set_down(rt: HostRuntime) {
    let alloc = rt.alloc();
    let down = IfinfomsgBuilder::default()
        .ifi_family(RtAddrFamily::Unspecified)
        .ifi_index(3)
        .ifi_flags(Iff::UP | Iff::MULTICAST)
        .down()
        .build(alloc);
    let bytes = [0, 0, 0, 0, 3, 0, 0, 0, 0, 0x10, 0, 0, 1, 0, 0, 0];
    let down = made(&rt, alloc, "a link", down, &bytes);
    assert_is_at(&rt, "flags", *down.ifi_flags(), Iff::MULTICAST);
    assert_is_at(&rt, "change", *down.ifi_change(), Iff::UP);
}

/// A list of one routing attribute.
fn one_attribute<T: RtaType>(
    rt: &impl Abort,
    alloc: Global,
    kind: T,
    number: u32,
) -> RtBuffer<T, Buffer> {
    let attr = RtattrBuilder::default()
        .rta_type(kind)
        .rta_payload(number)
        .build(alloc)
        .expect(rt, "an attribute");
    let mut attrs = RtBuffer::new(alloc);
    attrs.push(attr).expect(rt, "memory");
    attrs
}

#[test]
fn a_link_with_attributes(rt: HostRuntime) {
    let alloc = rt.alloc();
    let link = IfinfomsgBuilder::default()
        .ifi_family(RtAddrFamily::Inet)
        .rtattrs(one_attribute(&rt, alloc, Ifla::Mtu, 1500))
        .build(alloc);
    let bytes = [
        2u8, 0, 0, 0, 0, 0, 0, 0, 0, 0, 0, 0, 0, 0, 0, 0, 8, 0, 4, 0, 0xdc, 5, 0, 0,
    ];
    let link = made(&rt, alloc, "a link", link, &bytes);
    let copy = made(&rt, alloc, "its copy", link.try_clone(), &bytes);
    assert!(rt; copy == link);
}

#[test]
fn an_address(rt: HostRuntime) {
    let alloc = rt.alloc();
    let address = IfaddrmsgBuilder::default()
        .ifa_family(RtAddrFamily::Inet6)
        .ifa_prefixlen(64)
        .ifa_flags(IfaF::PERMANENT)
        .ifa_scope(RtScope::Link)
        .ifa_index(0x0102_0304)
        .build(alloc);
    let bytes = [10, 64, 0x80, 253, 4, 3, 2, 1];
    let address = made(&rt, alloc, "an address", address, &bytes);
    let copy = made(&rt, alloc, "its copy", address.try_clone(), &bytes);
    assert!(rt; copy == address);
}

#[test]
fn a_neighbour(rt: HostRuntime) {
    let alloc = rt.alloc();
    let neighbour = NdmsgBuilder::default()
        .ndm_family(RtAddrFamily::Inet)
        .ndm_index(-2)
        .ndm_state(Nud::STALE)
        .ndm_flags(Ntf::SELF)
        .ndm_type(Rtn::Unicast)
        .build(alloc);
    let bytes = [2, 0, 0, 0, 0xfe, 0xff, 0xff, 0xff, 4, 0, 2, 1];
    let neighbour = made(&rt, alloc, "a neighbour", neighbour, &bytes);
    let copy = made(&rt, alloc, "its copy", neighbour.try_clone(), &bytes);
    assert!(rt; copy == neighbour);
}

#[test]
fn a_cache_entry(rt: HostRuntime) {
    let alloc = rt.alloc();
    let entry = NdaCacheinfoBuilder::default()
        .ndm_confirmed(1)
        .ndm_used(2)
        .ndm_updated(3)
        .ndm_refcnt(4)
        .build();
    let bytes = [1, 0, 0, 0, 2, 0, 0, 0, 3, 0, 0, 0, 4, 0, 0, 0];
    let built = made(&rt, alloc, "what is built", entry, &bytes);
    let copy = made(&rt, alloc, "its copy", built.try_clone(), &bytes);
    assert!(rt; copy == built);
    let mut cursor = Cursor::new(&bytes);
    let read = NdaCacheinfo::from_bytes(alloc, &mut cursor);
    let entry = made(&rt, alloc, "what is read", read, &bytes);
    let fields = (
        *entry.ndm_confirmed(),
        *entry.ndm_refcnt(),
        cursor.position(),
    );
    assert_is_at(&rt, "fields", fields, (1, 4, 16));
}

#[test]
fn flags_of_a_vlan(rt: HostRuntime) {
    let alloc = rt.alloc();
    let flags = IflaVlanFlagsBuilder::default()
        .flags(VlanFlags::GVRP)
        .mask(VlanFlags::GVRP | VlanFlags::MVRP)
        .build();
    let built = made(&rt, alloc, "what is built", flags, &[2, 10]);
    let copy = made(&rt, alloc, "its copy", built.try_clone(), &[2, 10]);
    assert!(rt; copy == built);
    let read = IflaVlanFlags::from_bytes(alloc, &mut Cursor::new(&[0xffu8, 1]));
    let read = made(&rt, alloc, "what is read", read, &[0xff, 1]);
    assert!(rt; copy != read);
}

#[test]
fn a_priority_of_a_vlan(rt: HostRuntime) {
    let alloc = rt.alloc();
    let mapping = IflaVlanQosMappingBuilder::default().from(7).to(3).build();
    let bytes = [7, 0, 0, 0, 3, 0, 0, 0];
    let built = made(&rt, alloc, "what is built", mapping, &bytes);
    let copy = made(&rt, alloc, "its copy", built.try_clone(), &bytes);
    assert!(rt; copy == built);
    let mut cursor = Cursor::new(&[1u8, 0, 0, 0, 2, 0, 0, 0, 9]);
    let read = IflaVlanQosMapping::from_bytes(alloc, &mut cursor);
    let mapping = made(&rt, alloc, "what is read", read, &[1, 0, 0, 0, 2, 0, 0, 0]);
    assert_is_at(&rt, "fields", (*mapping.from(), *mapping.to()), (1, 2));
}

#[test]
fn a_route(rt: HostRuntime) {
    let alloc = rt.alloc();
    let route = RtmsgBuilder::default()
        .rtm_family(RtAddrFamily::Inet)
        .rtm_dst_len(24)
        .rtm_src_len(1)
        .rtm_tos(2)
        .rtm_table(RtTable::Main)
        .rtm_protocol(Rtprot::Static)
        .rtm_scope(RtScope::Universe)
        .rtm_type(Rtn::Unicast)
        .rtm_flags(RtmF::NOTIFY)
        .rtattrs(one_attribute(&rt, alloc, Rta::Oif, 3))
        .build(alloc);
    let bytes = [
        2u8, 24, 1, 2, 254, 4, 0, 1, 0, 1, 0, 0, 8, 0, 4, 0, 3, 0, 0, 0,
    ];
    let route = made(&rt, alloc, "a route", route, &bytes);
    let copy = made(&rt, alloc, "its copy", route.try_clone(), &bytes);
    assert!(rt; copy == route);
}

#[test]
fn a_rule(rt: HostRuntime) {
    let alloc = rt.alloc();
    let rule = FibmsgBuilder::default()
        .fib_family(RtAddrFamily::Inet)
        .fib_dst_len(8)
        .fib_src_len(16)
        .fib_tos(0)
        .fib_table(RtTable::Local)
        .fib_action(FrAct::FrActToTbl)
        .fib_flags(Frf::INVERT)
        .build(alloc);
    let bytes = [2, 8, 16, 0, 255, 0, 0, 1, 2, 0, 0, 0];
    let rule = made(&rt, alloc, "a rule", rule, &bytes);
    let copy = made(&rt, alloc, "its copy", rule.try_clone(), &bytes);
    assert!(rt; copy == rule);
}

#[test]
fn a_request_by_family(rt: HostRuntime) {
    let alloc = rt.alloc();
    let request = RtgenmsgBuilder::default()
        .rtgen_family(RtAddrFamily::Inet)
        .build(alloc);
    let request = made(&rt, alloc, "a request", request, &[2, 0, 0, 0]);
    let copy = made(&rt, alloc, "its copy", request.try_clone(), &[2, 0, 0, 0]);
    assert!(rt; copy == request);
}

#[test]
fn a_queueing_discipline(rt: HostRuntime) {
    let alloc = rt.alloc();
    let queue = TcmsgBuilder::default()
        .tcm_family(0)
        .tcm_ifindex(-1)
        .tcm_handle(0x10000)
        .tcm_parent(0xffff_ffff)
        .tcm_info(2)
        .build(alloc);
    let bytes = [
        0, 0, 0, 0, 0xff, 0xff, 0xff, 0xff, 0, 0, 1, 0, 0xff, 0xff, 0xff, 0xff, 2, 0, 0, 0,
    ];
    let queue = made(&rt, alloc, "a discipline", queue, &bytes);
    let copy = made(&rt, alloc, "its copy", queue.try_clone(), &bytes);
    assert!(rt; copy == queue);
}

/// The field that a builder names as missing.
fn missing_of<T: Drop, const OF: u8>(built: Result<T, BuildError<OF>>) -> &'static str {
    match built {
        Err(BuildError::UninitializedField(name)) => name,
        _ => "no field",
    }
}

#[test]
fn missing_fields_are_named_in_order(rt: HostRuntime) {
    let alloc = rt.alloc();
    let link = IfinfomsgBuilder::default();
    let address = IfaddrmsgBuilder::default().ifa_family(RtAddrFamily::Inet);
    let route = RtmsgBuilder::default().rtm_type(Rtn::Unicast);
    let queue = TcmsgBuilder::default().tcm_family(0).tcm_ifindex(1);
    let rows = [
        (missing_of(link.build(alloc)), "ifi_family"),
        (missing_of(address.build(alloc)), "ifa_prefixlen"),
        (missing_of(route.build(alloc)), "rtm_family"),
        (missing_of(queue.build(alloc)), "tcm_handle"),
    ];
    for (missing, want) in rows {
        assert_is_at(&rt, want, missing, want);
    }
}

#[test]
fn missing_fields_of_generic_messages_are_named(rt: HostRuntime) {
    let alloc = rt.alloc();
    let entry = NdaCacheinfoBuilder::default().ndm_confirmed(1);
    let command: GenlmsghdrBuilder<u8, u16> = GenlmsghdrBuilder::default().cmd(1);
    let message: CnMsgBuilder<Buffer> = CnMsgBuilder::default().val(CnMsgVal::Proc);
    let rows = [
        (missing_of(entry.build()), "ndm_used"),
        (missing_of(command.build(alloc)), "version"),
        (missing_of(message.build()), "idx"),
    ];
    for (missing, want) in rows {
        assert_is_at(&rt, want, missing, want);
    }
}

/// Why a builder refuses its fields, in words.
fn invalid_of<T: Drop, const OF: u8>(built: Result<T, BuildError<OF>>) -> &'static str {
    match built {
        Err(BuildError::ValidationError(text)) => text,
        _ => "no text",
    }
}

#[test]
fn a_generic_message_with_a_header(rt: HostRuntime) {
    let alloc = rt.alloc();
    let message = GenlmsghdrBuilder::default()
        .cmd(CtrlCmd::Newfamily)
        .version(1)
        .header(7)
        .build_with_header(alloc);
    let bytes = [1, 1, 0, 0, 7, 0, 0, 0];
    let message: Genlmsghdr<CtrlCmd, u16, u32> = made(&rt, alloc, "a message", message, &bytes);
    let _copy = made(&rt, alloc, "its copy", message.try_clone(), &bytes);
    let size = <Genlmsghdr<CtrlCmd, u16, u32> as Header>::header_size();
    assert_is_at(&rt, "its header", size, 8);
}

#[test]
fn a_generic_message_with_a_header_of_two_bytes(rt: HostRuntime) {
    let short: GenlmsghdrBuilder<CtrlCmd, u16, u16> = GenlmsghdrBuilder::default()
        .cmd(CtrlCmd::Newfamily)
        .version(1)
        .header(7);
    let why = invalid_of(short.build_with_header(rt.alloc()));
    let want = "Header size is not a multiple of four";
    assert_is_at(&rt, "two bytes", why, want);
}

/// A list of the name `nlctrl`.
fn name_of_a_family(rt: &impl Abort, alloc: Global) -> GenlBuffer<CtrlAttr, Buffer> {
    let kind = AttrTypeBuilder::default()
        .nla_type(CtrlAttr::FamilyName)
        .build()
        .expect(rt, "a type");
    let name = NlattrBuilder::default()
        .nla_type(kind)
        .nla_payload("nlctrl")
        .build(alloc)
        .expect(rt, "a name");
    let mut attrs = GenlBuffer::new(alloc);
    attrs.push(name).expect(rt, "memory");
    attrs
}

#[test]
fn a_generic_message_with_attributes(rt: HostRuntime) {
    let alloc = rt.alloc();
    let request = GenlmsghdrBuilder::default()
        .cmd(CtrlCmd::Getfamily)
        .version(2)
        .attrs(name_of_a_family(&rt, alloc))
        .build(alloc);
    let bytes = [
        3u8, 2, 0, 0, 0x0b, 0, 2, 0, 0x6e, 0x6c, 0x63, 0x74, 0x72, 0x6c, 0, 0,
    ];
    let request: Genlmsghdr<CtrlCmd, CtrlAttr> = made(&rt, alloc, "a request", request, &bytes);
    let again = Genlmsghdr::from_bytes_with_input(alloc, &mut Cursor::new(&bytes), 16);
    let again: Genlmsghdr<CtrlCmd, CtrlAttr> = made(&rt, alloc, "what is read", again, &bytes);
    assert_is_at(&rt, "the same", &again, &request);
}

/// A connector message of so many bytes that are all the same, or why there is none.
fn connector<P: From<Vec<u8>> + ToBytes + Drop>(
    rt: &impl Abort,
    alloc: Global,
    byte: u8,
    count: usize,
) -> Result<CnMsg<P>, CnMsgBuilderError> {
    let bytes = vec![in alloc; byte; count].expect(rt, "memory");
    CnMsgBuilder::default()
        .idx(CnMsgIdx::Proc)
        .val(CnMsgVal::Proc)
        .payload(P::from(bytes))
        .build()
}

/// Asserts that a connector message has 65535 bytes at most.
fn assert_longest<P: From<Vec<u8>> + ToBytes + Drop>(
    rt: &impl Abort,
    alloc: Global,
    label: &str,
    byte: u8,
) {
    let longest: Option<CnMsg<P>> = connector(rt, alloc, byte, 65535).ok();
    let sizes = longest.map(|message| (*message.len(), message.written_size()));
    assert_is_at(rt, label, sizes, Some((65535, 65555)));
    let why = invalid_of(connector::<P>(rt, alloc, byte, 65536));
    assert_is_at(rt, label, why, "Length does not fit its field");
}

#[test]
fn lengths_of_connector_messages(rt: HostRuntime) {
    assert_longest::<Buffer>(&rt, rt.alloc(), "Buffer", 0x5a);
    assert_longest::<Vec<u8>>(&rt, rt.alloc(), "Vec", 0);
}

/// The code of the exit that the bytes spell.
fn code_of(rt: &impl Abort, alloc: Global, bytes: &[u8]) -> Option<u32> {
    let header: ProcEventHeader = read_whole(rt, alloc, "an exit", bytes);
    match header.event {
        ProcEvent::Exit { exit_code, .. } => Some(exit_code),
        _ => None,
    }
}

/// Exits, each by its code and its time, with the type that it has and the four bytes that it starts with.
const EXITS: [(u32, u64, ProcEventType, [u8; 4]); 3] = [
    (256, 0, ProcEventType::NonzeroExit, [0, 0, 0, 0x20]),
    (256, 1, ProcEventType::NonzeroExit, [0, 0, 0, 0x20]),
    (0, 1, ProcEventType::Exit, [0, 0, 0, 0x80]),
];

#[test]
fn exits_by_their_codes(rt: HostRuntime) {
    for (exit_code, timestamp_ns, kind, first) in EXITS {
        let event = ProcEvent::Exit {
            process_pid: 1,
            process_tgid: 1,
            exit_code,
            exit_signal: 17,
            parent_pid: 2,
            parent_tgid: 2,
        };
        let found = (ProcEventType::from(&event), event.unpadded_size());
        assert_is_at(&rt, exit_code, found, (kind, 24));
        let header = ProcEventHeader {
            cpu: 0,
            timestamp_ns,
            event,
        };
        let bytes = written(&rt, rt.alloc(), "an event", &header);
        let found = (bytes.len(), bytes.get(..4));
        assert_is_at(&rt, exit_code, found, (40, Some(first.as_slice())));
        let code = code_of(&rt, rt.alloc(), &bytes);
        assert_is_at(&rt, exit_code, code, Some(exit_code));
    }
}

/// The thread group and the name that the bytes spell.
fn name_of(rt: &impl Abort, alloc: Global, bytes: &[u8]) -> Option<(i32, [u8; 16])> {
    let header: ProcEventHeader = read_whole(rt, alloc, "a name", bytes);
    match header.event {
        ProcEvent::Comm {
            process_tgid,
            comm,
            ..
        } => Some((process_tgid, comm)),
        _ => None,
    }
}

#[test]
fn a_name_of_a_thread(rt: HostRuntime) {
    let comm = *b"0123456789abcde\0";
    let header = ProcEventHeader {
        cpu: 2,
        timestamp_ns: 3,
        event: ProcEvent::Comm {
            process_pid: 5,
            process_tgid: 6,
            comm,
        },
    };
    let bytes = written(&rt, rt.alloc(), "an event", &header);
    let found = (bytes.len(), bytes.get(24..));
    assert_is_at(&rt, "a name", found, (40, Some(comm.as_slice())));
    assert_is_at(
        &rt,
        "a name",
        name_of(&rt, rt.alloc(), &bytes),
        Some((6, comm)),
    );
}
