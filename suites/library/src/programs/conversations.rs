//! Conversations with a kernel, Linux 6.18 on x86-64, as recorded: a program's request, and each datagram that arrived
//! for it. libmnl and pyroute2 read the contents of the messages.

use super::support::assert_is;
use super::talk::{Item, Talk, answered, payload_of};
use neli::consts::genl::{CtrlAttr, CtrlCmd, Index};
use neli::consts::nl::{GenlId, NlmF, NlmsgerrAttr};
use neli::consts::rtnl::{Ifa, RtAddrFamily, RtScope, Rtm};
use neli::err::RouterError;
use neli::genl::{Genlmsghdr, GenlmsghdrBuilder};
use neli::nl::NlPayload;
use neli::router::synchronous::{lookup_id, resolve_genl_family, resolve_nl_mcast_group};
use neli::rtnl::{Ifaddrmsg, IfaddrmsgBuilder};
use neli::short::Put;
use neli::types::{Buffer, GenlBuffer};
use std::alloc::Global;
use std::process::Abort;

/// A request to the controller, and its answer.
type Ctrl = Genlmsghdr<CtrlCmd, CtrlAttr>;

/// A request for the family of this name.
fn family(rt: &impl Abort, alloc: Global, name: &str) -> Ctrl {
    let mut attrs: GenlBuffer<CtrlAttr, Buffer> = GenlBuffer::new(alloc);
    attrs
        .put(alloc, CtrlAttr::FamilyName, name)
        .expect(rt, "a name");
    GenlmsghdrBuilder::default()
        .cmd(CtrlCmd::Getfamily)
        .version(1)
        .attrs(attrs)
        .build(alloc)
        .expect(rt, "a request")
}

/// The controller's answer to a request for the family of this name.
fn controller(
    rt: &impl Abort,
    alloc: Global,
    talk: &Talk,
    flags: NlmF,
    name: &str,
) -> Vec<Item<GenlId, Ctrl>> {
    let request = family(rt, alloc, name);
    answered(rt, alloc, talk, GenlId::Ctrl, flags, request)
}

/// The family `tcp_metrics`, acknowledged.
const TCP_METRICS: Talk = Talk {
    port: 17225,
    number: 1009,
    request: "2400000010000500f10300000000000003010000100002007463705f6d65747269637300",
    answers: &[
        "7000000010000000f10300004943000001020000100002007463705f6d65747269637300060001001b00000008000300\
        010000000800040000000000080005000d0000002c000600140001000800010001000000080002000e00000014000200\
        0800010002000000080002000b000000",
        "2400000002000001f103000049430000000000002400000010000500f103000000000000",
    ],
};

#[test]
fn a_family_is_resolved(rt: HostRuntime) {
    let alloc = rt.alloc();
    let items = controller(&rt, alloc, &TCP_METRICS, NlmF::ACK, "tcp_metrics");
    assert_is(&rt, items.len(), 2);
    let number = resolve_genl_family(alloc, "tcp_metrics", items);
    assert_is(&rt, number.ok(), Some(27));
}

/// The controller's own family, with its group.
const NLCTRL: Talk = Talk {
    port: 17225,
    number: 1056,
    request: "20000000100001002004000000000000030100000b0002006e6c6374726c0000",
    answers: &[
        "88000000100000002004000049430000010200000b0002006e6c6374726c000006000100100000000800030002000000\
        080004000000000008000500000000002c000600140001000800010003000000080002000e00000014000200080001000a\
        000000080002000c0000001c0007001800010008000200100000000b0001006e6f746966790000",
    ],
};

/// The controller's facts about itself.
fn nlctrl(rt: &impl Abort, alloc: Global) -> Vec<Item<GenlId, Ctrl>> {
    controller(rt, alloc, &NLCTRL, NlmF::empty(), "nlctrl")
}

#[test]
fn a_group_is_resolved(rt: HostRuntime) {
    let alloc = rt.alloc();
    let number = resolve_nl_mcast_group(alloc, "nlctrl", "notify", nlctrl(&rt, alloc));
    assert_is(&rt, number.ok(), Some(16));
    let names = lookup_id(alloc, 16, nlctrl(&rt, alloc));
    let (family, group) = names.ok().expect(&rt, "names");
    assert_is(&rt, (family.as_str(), group.as_str()), ("nlctrl", "notify"));
}

/// A dump of the IPv4 addresses of one link, strictly checked.
const ADDRESSES: Talk = Talk {
    port: 4136408453,
    number: 1179,
    request: "18000000160001039b040000000000000200000003000000",
    answers: &[
        "58000000140022009b04000085958cf6021880000300000008000100c000020108000200c000020108000400c00002ff\
        0a0003007665746830000000080008008000000014000600ffffffffffffffff44730300447303005000000014002200\
        9b04000085958cf6021881000300000008000100c000020208000200c00002020c00030076657468303a780008000800\
        8100000014000600ffffffffffffffff5d7303005d730300",
        "14000000030022009b04000085958cf600000000",
    ],
};

/// The addresses in the kernel's answer.
fn addresses(rt: &impl Abort, alloc: Global) -> Vec<Item<Rtm, Ifaddrmsg>> {
    let asked = IfaddrmsgBuilder::default()
        .ifa_family(RtAddrFamily::Inet)
        .ifa_prefixlen(0)
        .ifa_scope(RtScope::Universe)
        .ifa_index(3)
        .build(alloc)
        .expect(rt, "a request");
    answered(rt, alloc, &ADDRESSES, Rtm::Getaddr, NlmF::DUMP, asked)
}

/// Asserts the label and the last byte of the address of an item.
fn assert_address(
    rt: &impl Abort,
    alloc: Global,
    item: &Item<Rtm, Ifaddrmsg>,
    label: &str,
    last: u8,
) {
    let body = payload_of(rt, item);
    let attrs = body.rtattrs().get_attr_handle();
    let own: Option<&str> = attrs.get_attr_payload_as_with_len_borrowed(Ifa::Label).ok();
    let address: Option<[u8; 4]> = attrs.get_attr_payload_as(alloc, Ifa::Local).ok();
    let found = (*body.ifa_prefixlen(), *body.ifa_index(), own, address);
    assert_is(rt, found, (24, 3, Some(label), Some([192, 0, 2, last])));
}

#[test]
fn a_dump_is_read_to_its_end(rt: HostRuntime) {
    let alloc = rt.alloc();
    let items = addresses(&rt, alloc);
    assert_is(&rt, items.len(), 3);
    for (item, (label, last)) in items.iter().zip([("veth0\0", 1), ("veth0:x\0", 2)]) {
        assert_address(&rt, alloc, item, label, last);
    }
    let Some(Ok(end)) = items.last() else {
        return rt.panic("no end");
    };
    let NlPayload::DumpExtAck(done) = end.nl_payload() else {
        return rt.panic("another payload");
    };
    assert_is(&rt, (*done.error(), done.ext_ack().len()), (0, 0));
}

/// A name that is too long for a family, refused with an extended acknowledgement.
const TOO_LONG: Talk = Talk {
    port: 17225,
    number: 1107,
    request: "3c0000001000050053040000000000000301000025000200612d6e616d652d6661722d746f6f2d6c6f6e672d666f722d\
        612d66616d696c7900000000",
    answers: &[
        "94000000020000025304000049430000eaffffff3c0000001000050053040000000000000301000025000200612d6e61\
        6d652d6661722d746f6f2d6c6f6e672d666f722d612d66616d696c790000000027000100417474726962757465206661\
        696c656420706f6c6963792076616c69646174696f6e0000080002001400000014000480080007000f00000008000100\
        0c000000",
    ],
};

#[test]
fn an_error_says_why(rt: HostRuntime) {
    let alloc = rt.alloc();
    let name = "a-name-far-too-long-for-a-family";
    let items = controller(&rt, alloc, &TOO_LONG, NlmF::ACK, name);
    assert_is(&rt, items.len(), 1);
    let Some(Err(RouterError::Nlmsgerr(answer))) = items.first() else {
        return rt.panic("no error of the kernel");
    };
    assert_is(
        &rt,
        (*answer.error(), *answer.nlmsg().nl_seq()),
        (-22, 1107),
    );
    assert_why(&rt, alloc, answer.ext_ack());
    assert_policy(&rt, alloc, answer.ext_ack());
}

/// Asserts the values of the kernel's three attributes.
fn assert_why(rt: &impl Abort, alloc: Global, ext_ack: &GenlBuffer<NlmsgerrAttr, Buffer>) {
    let attrs = ext_ack.get_attr_handle();
    let said: Option<&str> = attrs
        .get_attr_payload_as_with_len_borrowed(NlmsgerrAttr::Msg)
        .ok();
    let place: Option<u32> = attrs.get_attr_payload_as(alloc, NlmsgerrAttr::Offset).ok();
    let found = (attrs.get_attrs().len(), said, place);
    assert_is(
        rt,
        found,
        (3, Some("Attribute failed policy validation\0"), Some(20)),
    );
}

/// Asserts the policy in the kernel's third attribute: a text that ends in a zero (`NL_ATTR_TYPE_NUL_STRING`, 12), of
/// at most 15 bytes. The numbers are those of linux/netlink.h.
fn assert_policy(rt: &impl Abort, alloc: Global, ext_ack: &GenlBuffer<NlmsgerrAttr, Buffer>) {
    let attrs = ext_ack.get_attr_handle();
    let policy = attrs
        .get_attribute(NlmsgerrAttr::Policy)
        .expect(rt, "a policy");
    let count = policy.nla_payload().len();
    let said = policy
        .get_attr_handle::<Index>(alloc)
        .expect(rt, "attributes");
    let kind: Option<u32> = said.get_attr_payload_as(alloc, Index::from(1)).ok();
    let longest: Option<u32> = said.get_attr_payload_as(alloc, Index::from(7)).ok();
    let found = (*policy.nla_type().nla_nested(), count, kind, longest);
    assert_is(rt, found, (true, 16, Some(12), Some(15)));
}
