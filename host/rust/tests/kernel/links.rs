//! Links for the tests.

use neli::ToBytes;
use neli::consts::nl::NlmF;
use neli::consts::rtnl::{Ifla, IflaInfo, RtAddrFamily, Rtm};
use neli::consts::socket::NlFamily;
use neli::err::RouterError;
use neli::link::Link;
use neli::nl::NlPayload;
use neli::router::synchronous::{NlRouter, NlRouterReceiverHandle};
use neli::rtnl::{Ifinfomsg, IfinfomsgBuilder, RtattrBuilder};
use neli::types::{Buffer, RtBuffer};
use neli::utils::Groups;

/// `RTNLGRP_LINK` of `linux/rtnetlink.h`.
pub const LINK_GROUP: u32 = 1;

/// The handle of a dump of links.
pub type Links = NlRouterReceiverHandle<Rtm, Ifinfomsg>;

/// A router of routing in these groups, and their handle.
pub fn router(groups: &[u32]) -> (NlRouter, NlRouterReceiverHandle<u16, Buffer>) {
    NlRouter::connect(NlFamily::Route, None, Groups::new_groups(groups)).expect("a router connects")
}

/// A link with this index, and no other field.
pub fn link(index: i32) -> IfinfomsgBuilder {
    IfinfomsgBuilder::default().ifi_family(RtAddrFamily::Unspecified).ifi_index(index)
}

/// A link of a kind and a name; the other end of a pair has the name with an `x` at its end.
pub fn named(kind: &str, name: &str) -> Ifinfomsg {
    let kind = RtattrBuilder::default().rta_type(IflaInfo::Kind).rta_payload(kind).build().expect("a kind");
    let info = RtattrBuilder::default().rta_type(Ifla::Linkinfo).rta_payload(()).build().expect("an attribute");
    let info = info.nest(&kind).expect("a kind in an attribute");
    let name = RtattrBuilder::default().rta_type(Ifla::Ifname).rta_payload(name).build().expect("a name");
    let attributes: RtBuffer<Ifla> = [name, info].into_iter().collect();
    link(0).rtattrs(attributes).build().expect("a link")
}

/// Sends a change, and waits for the acknowledgement.
pub fn ask(
    router: &NlRouter<impl Link + 'static>,
    kind: Rtm,
    flags: NlmF,
    body: impl ToBytes,
) -> Result<(), RouterError> {
    let replies: NlRouterReceiverHandle<Rtm, Buffer> =
        router.send(kind, flags | NlmF::ACK, NlPayload::Payload(body))?;
    for reply in replies {
        reply?;
    }
    Ok(())
}

/// Makes pairs of links, and returns the number of links then.
pub fn make_pairs(count: usize) -> usize {
    let (router, _) = router(&[]);
    for at in 0..count {
        let made = ask(&router, Rtm::Newlink, NlmF::CREATE | NlmF::EXCL, named("veth", &format!("pair{at}")));
        made.expect("a pair of links is made");
    }
    names(dump(&router)).len()
}

/// Requests all links.
pub fn dump(router: &NlRouter<impl Link + 'static>) -> Links {
    let all = link(0).build().expect("a link");
    router.send(Rtm::Getlink, NlmF::DUMP, NlPayload::Payload(all)).expect("a dump is asked for")
}

/// The names of the links of a dump, to its end.
pub fn names(links: Links) -> Vec<String> {
    let mut names = Vec::new();
    for message in links {
        if let Some(link) = message.expect("a dump has no error").get_payload() {
            names.push(name(link));
        }
    }
    names
}

/// The name of a link.
pub fn name(link: &Ifinfomsg) -> String {
    link.rtattrs().get_attr_handle().get_attr_payload_as_with_len(Ifla::Ifname).expect("a link has a name")
}

/// Sets the loopback link up or down.
pub fn set_loopback(router: &NlRouter<impl Link + 'static>, is_up: bool) {
    let change = if is_up { link(1).up() } else { link(1).down() };
    ask(router, Rtm::Setlink, NlmF::empty(), change.build().expect("a link")).expect("the loopback link is changed");
}
