//! Writing and reading, without a kernel: the bytes are those of the structs in the kernel's headers.

use neli::connector::{CnMsg, CnMsgBuilder};
use neli::consts::connector::{CnMsgIdx, CnMsgVal};
use neli::consts::genl::{CtrlAttr, CtrlCmd};
use neli::consts::nl::{NlmF, Nlmsg, NlmsgerrAttr};
use neli::consts::rtnl::{Frattr, Iff, Ifla, IflaInfo, Nda, Ntf, Nud, RtAddrFamily, Rtm, Rtn};
use neli::err::{DeError, Refusal, RouterError, SocketError};
use neli::genl::{AttrTypeBuilder, Genlmsghdr, GenlmsghdrBuilder, NlattrBuilder};
use neli::nl::{NlPayload, NlmsghdrBuilder};
use neli::rtnl::{Ifinfomsg, IfinfomsgBuilder, Ndmsg, NdmsgBuilder, RtattrBuilder};
use neli::types::{Buffer, RtBuffer};
use neli::utils::Groups;
use neli::{FromBytes, ToBytes};
use std::error::Error;
use std::io;

fn written(value: &impl ToBytes) -> Vec<u8> {
    let mut out = Vec::new();
    value.to_bytes(&mut out).expect("is written");
    out
}

#[test]
fn a_link_is_written_and_read() {
    let kind = RtattrBuilder::default().rta_type(IflaInfo::Kind).rta_payload("veth").build().expect("a kind");
    let info = RtattrBuilder::default().rta_type(Ifla::Linkinfo).rta_payload(()).build().expect("an attribute");
    let name = RtattrBuilder::default().rta_type(Ifla::Ifname).rta_payload("a").build().expect("a name");
    let attributes: RtBuffer<Ifla, Buffer> = [name, info.nest(&kind).expect("nested")].into_iter().collect();
    let link = IfinfomsgBuilder::default()
        .ifi_family(RtAddrFamily::Unspecified)
        .ifi_index(3)
        .up()
        .rtattrs(attributes)
        .build()
        .expect("a link");
    let bytes = [
        &[0, 0, 0, 0, 3, 0, 0, 0, 1, 0, 0, 0, 1, 0, 0, 0][..],
        &[6, 0, 3, 0, b'a', 0, 0, 0],
        // NLA_F_NESTED is bit 15 of the type.
        &[16, 0, 18, 0x80, 9, 0, 1, 0, b'v', b'e', b't', b'h', 0, 0, 0, 0],
    ]
    .concat();
    assert_eq!(written(&link), bytes);
    let read = Ifinfomsg::from_bytes(&bytes).expect("is read");
    assert_eq!(read, link);
    assert!(read.ifi_flags().contains(Iff::UP));
    let handle = read.rtattrs().get_attr_handle();
    let info = handle.get_nested_attributes::<IflaInfo>(Ifla::Linkinfo).expect("a nested list");
    assert_eq!(info.get_attr_payload_as_with_len::<String>(IflaInfo::Kind).expect("a kind"), "veth");
    assert_eq!(handle.get_attr_payload_as::<u32>(Ifla::Mtu), Err(DeError::Missing(4)));
    assert_eq!(handle.get_attr_payload_as::<u32>(Ifla::Ifname), Err(DeError::InvalidInput(2)));
}

#[test]
fn a_neighbour_is_written_and_read() {
    let address = RtattrBuilder::default().rta_type(Nda::Dst).rta_payload([10, 0, 0, 2]).build().expect("an address");
    let built = NdmsgBuilder::default().ndm_family(RtAddrFamily::Inet).ndm_index(0x0102_0304);
    let built = built.ndm_state(Nud::PERMANENT | Nud::NOARP).ndm_type(Rtn::Unicast).ndm_flags(Ntf::ROUTER);
    let neighbour = built.rtattrs([address].into_iter().collect()).build().expect("a neighbour");
    let bytes = [2, 0, 0, 0, 4, 3, 2, 1, 0xc0, 0, 0x80, 1, 8, 0, 1, 0, 10, 0, 0, 2];
    assert_eq!(written(&neighbour), bytes);
    let read = Ndmsg::from_bytes(&bytes).expect("is read");
    assert_eq!(read, neighbour);
    assert_eq!((read.ndm_index(), read.ndm_state().contains(Nud::NOARP)), (&0x0102_0304, true));
    assert_eq!((*read.ndm_flags(), *read.ndm_type()), (Ntf::ROUTER, Rtn::Unicast));
    assert_eq!(Ndmsg::from_bytes(&bytes[..11]), Err(DeError::InvalidInput(11)));
    let error = NdmsgBuilder::default().ndm_family(RtAddrFamily::Inet).build().expect_err("no index was given");
    assert_eq!(error.to_string(), "`ndm_index` must be initialized");
}

#[test]
fn the_flags_of_a_type_field_are_kept() {
    let other = RtattrBuilder::default().rta_type(Ifla::AltIfname).rta_payload("b").build().expect("a name");
    let made = || RtattrBuilder::default().rta_type(Ifla::PropList).rta_payload(());
    assert!(made().rta_nested(true).build().expect("a list").rta_nested());
    let list = made().build().expect("a list").nest(&other).expect("nested");
    assert_eq!((list.rta_nested(), other.rta_nested(), *list.rta_type()), (true, false, Ifla::PropList));
    let marked = [12, 0, 52, 0x80, 6, 0, 53, 0, b'b', 0, 0, 0];
    let attributes: RtBuffer<Ifla> = [list].into_iter().collect();
    assert_eq!(written(&attributes), marked);
    let bytes = [&marked[..], &[8, 0, 4, 0x40, 0, 0, 5, 0xdc]].concat();
    let read = RtBuffer::<Ifla>::from_bytes(&bytes).expect("is read");
    assert_eq!(written(&read), bytes);
    let handle = read.get_attr_handle();
    let number = handle.get_attribute(Ifla::Mtu).expect("it is found by its number");
    assert_eq!((number.rta_nested(), number.rta_network_order()), (false, true));
    let names = handle.get_nested_attributes::<Ifla>(Ifla::PropList).expect("a nested list");
    assert_eq!(names.get_attr_payload_as_with_len::<String>(Ifla::AltIfname).expect("a name"), "b");
}

#[test]
fn bytes_that_lie_are_refused() {
    let refused = |bytes: &[u8]| Ifinfomsg::from_bytes(bytes).expect_err("is refused");
    assert_eq!(refused(&[0; 15]), DeError::InvalidInput(15));
    let with = |attribute: &[u8]| [&[0; 16], attribute].concat();
    assert_eq!(refused(&with(&[4, 0, 3])), DeError::Refused(Refusal::SHORT));
    assert_eq!(refused(&with(&[3, 0, 3, 0])), DeError::Refused(Refusal::LENGTH));
    assert_eq!(refused(&with(&[8, 0, 3, 0, 1, 2, 3])), DeError::Refused(Refusal::LENGTH));
    assert_eq!(String::from_bytes(b"no end"), Err(DeError::Utf8));
    assert_eq!(String::from_bytes(&[0xff, 0]), Err(DeError::Utf8));
    assert_eq!(CnMsg::<Buffer>::from_bytes(&[1; 20]), Err(DeError::InvalidInput(20)));
}

#[test]
fn a_request_to_the_controller_is_written() {
    let kind = AttrTypeBuilder::default().nla_type(CtrlAttr::FamilyName).build().expect("a type");
    let name = NlattrBuilder::default().nla_type(kind).nla_payload("nlctrl").build().expect("an attribute");
    let body = GenlmsghdrBuilder::default()
        .cmd(CtrlCmd::Getfamily)
        .version(2)
        .attrs([name].into_iter().collect())
        .build()
        .expect("a body");
    let message = NlmsghdrBuilder::default()
        .nl_type(16u16)
        .nl_flags(NlmF::REQUEST | NlmF::ACK)
        .nl_payload(NlPayload::Payload(body.clone()))
        .build()
        .expect("a message");
    // The first request of docs/ROUTER.md.
    let head = [32, 0, 0, 0, 16, 0, 5, 0, 0, 0, 0, 0, 0, 0, 0, 0, 3, 2, 0, 0];
    let bytes = [&head[..], &[11, 0, 2, 0], b"nlctrl\0\0"].concat();
    assert_eq!(written(&message), bytes);
    assert_eq!(Genlmsghdr::<CtrlCmd, CtrlAttr>::from_bytes(&bytes[16..]), Ok(body));
}

#[test]
fn a_body_of_the_connector_is_written_and_read() {
    let body = CnMsgBuilder::default().idx(CnMsgIdx::Proc).val(CnMsgVal::Proc).payload(Buffer::from(&[7, 8][..]));
    let body = body.build().expect("a body");
    let bytes = [1, 0, 0, 0, 1, 0, 0, 0, 0, 0, 0, 0, 0, 0, 0, 0, 2, 0, 0, 0, 7, 8];
    assert_eq!(written(&body), bytes);
    assert_eq!(CnMsg::from_bytes(&bytes), Ok(body));
}

#[test]
fn a_field_that_is_missing_is_named() {
    let error = IfinfomsgBuilder::default().build().expect_err("no family was given");
    assert_eq!(error.to_string(), "`ifi_family` must be initialized");
    let error = RtattrBuilder::<Ifla, ()>::default().rta_type(Ifla::Mtu).build().expect_err("no payload was given");
    assert_eq!(error.to_string(), "`rta_payload` must be initialized");
}

#[test]
fn numbers_have_names() {
    assert_eq!((Rtm::from(16), u16::from(Rtm::Getlink)), (Rtm::Newlink, 18));
    assert_eq!((Rtm::from(15), u16::from(Rtm::from(15))), (Rtm::UnrecognizedConst(15), 15));
    assert_eq!((u16::from(NlmsgerrAttr::MissType), u16::from(NlmsgerrAttr::MissNest)), (5, 6));
    assert!(matches!(NlmsgerrAttr::from(5), NlmsgerrAttr::MissType | NlmsgerrAttr::MissNest));
    assert_eq!(NlmsgerrAttr::MissType, NlmsgerrAttr::UnrecognizedConst(5));
    assert_eq!((u16::from(Nlmsg::Done), u16::from(Frattr::Ifname)), (3, 3));
    assert_eq!((NlmF::DUMP.bits(), (NlmF::ROOT | NlmF::MATCH)), (0x300, NlmF::DUMP));
    assert!(NlmF::from_bits_retain(0x8301).contains(NlmF::DUMP | NlmF::REQUEST));
}

#[test]
fn groups_come_and_go() {
    let mut groups = Groups::new_bitmask(0x8000_0001);
    assert_eq!(groups.as_groups(), [1, 32]);
    groups.add_groups(&[40, 1, 0]);
    groups.remove_groups(&[32]);
    assert_eq!(groups, Groups::new_groups(&[1, 40]));
    assert!(Groups::empty().is_empty());
}

#[test]
fn an_error_has_its_source() {
    let error = RouterError::from(io::Error::from_raw_os_error(105));
    assert!(matches!(&error, RouterError::Socket(SocketError::Io(_))));
    let source = error.source().and_then(|it| it.downcast_ref::<io::Error>()).and_then(io::Error::raw_os_error);
    assert_eq!(source, Some(105));
    assert_eq!(error.errno(), None);
}
