//! `neli_rust lent|owned links|routes SECONDS`: the readers of bench/run-live by the crate neli-host.

#[path = "../../report.rs"]
mod report;

use neli::consts::nl::NlmF;
use neli::consts::rtnl::{RtAddrFamily, RtScope, RtTable, Rtm, Rtn, Rtprot};
use neli::consts::socket::NlFamily;
use neli::nl::NlPayload;
use neli::router::lending::LendingRouter;
use neli::router::synchronous::{NlRouter, Verdict};
use neli::rtnl::{Ifinfomsg, IfinfomsgBuilder, Rtmsg, RtmsgBuilder};
use neli::utils::Groups;
use report::Counts;
use std::error::Error;

type Result<T> = std::result::Result<T, Box<dyn Error>>;

fn add(counts: &mut Counts, number: u16, payload: &[u8]) {
    counts.attributes += 1;
    counts.sum += u64::from(number & 0x3fff) + payload.len() as u64;
}

fn all_links() -> Result<Ifinfomsg> {
    Ok(IfinfomsgBuilder::default().ifi_family(RtAddrFamily::Unspecified).build()?)
}

fn all_routes() -> Result<Rtmsg> {
    Ok(RtmsgBuilder::default()
        .rtm_family(RtAddrFamily::Inet)
        .rtm_dst_len(0)
        .rtm_src_len(0)
        .rtm_tos(0)
        .rtm_table(RtTable::Unspec)
        .rtm_protocol(Rtprot::Unspec)
        .rtm_scope(RtScope::Universe)
        .rtm_type(Rtn::Unspec)
        .build()?)
}

fn lent(is_links: bool) -> Result<Counts> {
    let mut counts = Counts::default();
    let (mut router, _multicast) = LendingRouter::connect(NlFamily::Route, None, Groups::empty())?;
    let (list, answer, header) = if is_links {
        (router.send(Rtm::Getlink, NlmF::DUMP, NlPayload::Payload(all_links()?))?, Rtm::Newlink, 16)
    } else {
        (router.send(Rtm::Getroute, NlmF::DUMP, NlPayload::Payload(all_routes()?))?, Rtm::Newroute, 12)
    };
    while let Some(message) = router.lend_next(&list)? {
        if message.nl_type() == u16::from(answer) {
            counts.messages += 1;
            for attribute in message.get_attrs(header)? {
                let attribute = attribute?;
                add(&mut counts, attribute.attr_type(), attribute.attr_payload());
            }
        }
        router.pass(&list)?;
    }
    if router.verdict(&list) == Verdict::Complete { Ok(counts) } else { Err("the list is not whole".into()) }
}

fn owned_links(router: &NlRouter) -> Result<Counts> {
    let mut counts = Counts::default();
    let asked = NlPayload::Payload(all_links()?);
    let mut list = router.send::<_, _, Rtm, Ifinfomsg>(Rtm::Getlink, NlmF::DUMP, asked)?;
    for message in &mut list {
        let message = message?;
        let Some(link) = message.get_payload() else { continue };
        counts.messages += 1;
        link.rtattrs().iter().for_each(|it| add(&mut counts, u16::from(*it.rta_type()), it.rta_payload()));
    }
    if list.verdict() == Verdict::Complete { Ok(counts) } else { Err("the list is not whole".into()) }
}

fn owned_routes(router: &NlRouter) -> Result<Counts> {
    let mut counts = Counts::default();
    let asked = NlPayload::Payload(all_routes()?);
    let mut list = router.send::<_, _, Rtm, Rtmsg>(Rtm::Getroute, NlmF::DUMP, asked)?;
    for message in &mut list {
        let message = message?;
        let Some(route) = message.get_payload() else { continue };
        counts.messages += 1;
        route.rtattrs().iter().for_each(|it| add(&mut counts, u16::from(*it.rta_type()), it.rta_payload()));
    }
    if list.verdict() == Verdict::Complete { Ok(counts) } else { Err("the list is not whole".into()) }
}

fn owned(is_links: bool) -> Result<Counts> {
    let (router, _multicast) = NlRouter::connect(NlFamily::Route, None, Groups::empty())?;
    if is_links { owned_links(&router) } else { owned_routes(&router) }
}

fn main() -> Result<()> {
    report::run(|how, is_links| if how == "lent" { lent(is_links) } else { owned(is_links) })
}
