//! `make add NAME PEER ADDRESS/BITS NET/BITS` makes a pair of links, sets both up, and gives the first an address and a
//! route; `make del` with the same words removes route, address and links. It prints why the kernel refuses, and then
//! ends with status 3, and with 4 without an answer: the change may be done or not.

mod status;

use neli::ToBytes;
use neli::consts::nl::NlmF;
use neli::consts::rtnl::{Ifa, Ifla, IflaInfo, RtAddrFamily, RtScope, RtTable, Rta, Rtm, Rtn, Rtprot};
use neli::consts::socket::NlFamily;
use neli::err::RouterError;
use neli::nl::NlPayload;
use neli::router::synchronous::NlRouter;
use neli::rtnl::{
    Ifaddrmsg, IfaddrmsgBuilder, Ifinfomsg, IfinfomsgBuilder, Rtattr, RtattrBuilder, Rtmsg, RtmsgBuilder,
};
use neli::types::Buffer;
use neli::utils::Groups;
use status::Result;
use std::net::Ipv4Addr;
use std::process::ExitCode;

/// `192.0.2.1/24` as an address and its bits.
fn net(text: &str) -> Result<([u8; 4], u8)> {
    let (address, bits) = text.split_once('/').ok_or("an address needs /BITS")?;
    Ok((address.parse::<Ipv4Addr>()?.octets(), bits.parse()?))
}

/// Sends a change, and waits for the kernel's acknowledgement.
fn ask(router: &NlRouter, kind: Rtm, flags: NlmF, body: impl ToBytes) -> std::result::Result<(), RouterError> {
    let replies = router.send::<_, _, Rtm, Buffer>(kind, flags | NlmF::ACK, NlPayload::Payload(body))?;
    for reply in replies {
        reply?;
    }
    Ok(())
}

fn index_of(router: &NlRouter, name: &str) -> Result<i32> {
    let asked = IfinfomsgBuilder::default()
        .ifi_family(RtAddrFamily::Unspecified)
        .rtattrs([RtattrBuilder::default().rta_type(Ifla::Ifname).rta_payload(name).build()?].into_iter().collect())
        .build()?;
    let mut replies = router.send::<_, _, Rtm, Ifinfomsg>(Rtm::Getlink, NlmF::empty(), NlPayload::Payload(asked))?;
    let link = replies.next().ok_or("no reply came")??;
    Ok(*link.get_payload().ok_or("the reply is no link")?.ifi_index())
}

/// A pair of links.
fn pair(name: &str, peer: &str) -> Result<Ifinfomsg> {
    let text = |kind, text| RtattrBuilder::default().rta_type(kind).rta_payload(text).build();
    let kind = RtattrBuilder::default().rta_type(IflaInfo::Kind).rta_payload("veth").build()?;
    // VETH_INFO_PEER, 1: the other link, with a body of its own before its attributes.
    let other =
        RtattrBuilder::default().rta_type(1u16).rta_payload([0; 16]).build()?.nest(&text(Ifla::Ifname, peer)?)?;
    let data = RtattrBuilder::default().rta_type(IflaInfo::Data).rta_payload(()).build()?.nest(&other)?;
    let info = RtattrBuilder::default().rta_type(Ifla::Linkinfo).rta_payload(()).build()?.nest(&kind)?.nest(&data)?;
    let attributes: [Rtattr<Ifla>; 2] = [text(Ifla::Ifname, name)?, info];
    Ok(IfinfomsgBuilder::default()
        .ifi_family(RtAddrFamily::Unspecified)
        .rtattrs(attributes.into_iter().collect())
        .build()?)
}

fn link(index: i32) -> IfinfomsgBuilder {
    IfinfomsgBuilder::default().ifi_family(RtAddrFamily::Unspecified).ifi_index(index)
}

fn address(index: i32, (address, bits): ([u8; 4], u8)) -> Result<Ifaddrmsg> {
    let local = RtattrBuilder::default().rta_type(Ifa::Local).rta_payload(address).build()?;
    Ok(IfaddrmsgBuilder::default()
        .ifa_family(RtAddrFamily::Inet)
        .ifa_prefixlen(bits)
        .ifa_scope(RtScope::Universe)
        .ifa_index(u32::try_from(index)?)
        .rtattrs([local].into_iter().collect())
        .build()?)
}

fn route(index: i32, (net, bits): ([u8; 4], u8)) -> Result<Rtmsg> {
    let to = RtattrBuilder::default().rta_type(Rta::Dst).rta_payload(net).build()?;
    let over = RtattrBuilder::default().rta_type(Rta::Oif).rta_payload(index).build()?;
    Ok(RtmsgBuilder::default()
        .rtm_family(RtAddrFamily::Inet)
        .rtm_dst_len(bits)
        .rtm_src_len(0)
        .rtm_tos(0)
        .rtm_table(RtTable::Main)
        .rtm_protocol(Rtprot::Static)
        .rtm_scope(RtScope::Link)
        .rtm_type(Rtn::Unicast)
        .rtattrs([to, over].into_iter().collect())
        .build()?)
}

fn add(router: &NlRouter, [name, peer, local, to]: [&str; 4]) -> Result<()> {
    let new = NlmF::CREATE | NlmF::EXCL;
    ask(router, Rtm::Newlink, new, pair(name, peer)?)?;
    let (index, other) = (index_of(router, name)?, index_of(router, peer)?);
    println!("made {name} {index}");
    ask(router, Rtm::Setlink, NlmF::empty(), link(index).up().build()?)?;
    ask(router, Rtm::Setlink, NlmF::empty(), link(other).up().build()?)?;
    println!("up {name}");
    ask(router, Rtm::Newaddr, new, address(index, net(local)?)?)?;
    println!("address {local}");
    ask(router, Rtm::Newroute, new, route(index, net(to)?)?)?;
    println!("route {to}");
    Ok(())
}

fn del(router: &NlRouter, [name, _, local, to]: [&str; 4]) -> Result<()> {
    let index = index_of(router, name)?;
    ask(router, Rtm::Delroute, NlmF::empty(), route(index, net(to)?)?)?;
    ask(router, Rtm::Deladdr, NlmF::empty(), address(index, net(local)?)?)?;
    ask(router, Rtm::Dellink, NlmF::empty(), link(index).build()?)?;
    println!("gone {name}");
    Ok(())
}

fn run(words: &[&str]) -> Result<()> {
    let (router, _multicast) = NlRouter::connect(NlFamily::Route, None, Groups::empty()).map_err(status::not_begun)?;
    match *words {
        ["add", name, peer, local, to] => add(&router, [name, peer, local, to]),
        ["del", name, peer, local, to] => del(&router, [name, peer, local, to]),
        _ => Err("usage: make add|del NAME PEER ADDRESS/BITS NET/BITS".into()),
    }
}

fn main() -> ExitCode {
    let words: Vec<String> = std::env::args().skip(1).collect();
    let words: Vec<&str> = words.iter().map(String::as_str).collect();
    status::end("make", run(&words).map(|()| status::COMPLETE))
}
