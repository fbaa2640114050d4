//! Lists links and their IPv4 addresses, as `link 1 lo mtu 65536 up` and `address 1 127.0.0.1/8`; `list INDEX` only the
//! addresses of that link. A list that changes meanwhile is requested again. The status reports whether it is complete:
//! 0; 2 if it still changed, 3 if the kernel ended the list with an error, 4 if a part was lost, with a line on stderr.
//! The part that arrived is printed in any case.

mod status;

use neli::consts::nl::NlmF;
use neli::consts::rtnl::{Ifa, Iff, Ifla, RtAddrFamily, RtScope, Rtm};
use neli::consts::socket::NlFamily;
use neli::err::RouterError;
use neli::nl::NlPayload;
use neli::router::synchronous::NlRouter;
use neli::rtnl::{Ifaddrmsg, IfaddrmsgBuilder, Ifinfomsg, IfinfomsgBuilder};
use neli::utils::Groups;
use std::ffi::CString;
use std::io::{self, Write};
use std::net::Ipv4Addr;
use std::process::ExitCode;

/// The maximum number of requests for a list that changes meanwhile.
const TIMES: usize = 5;

fn print_link(link: &Ifinfomsg) -> Result<(), RouterError> {
    let attributes = link.rtattrs().get_attr_handle();
    // The kernel takes any bytes as a name.
    let name: CString = attributes.get_attr_payload_as(Ifla::Ifname)?;
    let mtu: u32 = attributes.get_attr_payload_as(Ifla::Mtu)?;
    let state = if link.ifi_flags().contains(Iff::UP) { "up" } else { "down" };
    let line =
        [format!("link {} ", link.ifi_index()).as_bytes(), name.as_bytes(), format!(" mtu {mtu} {state}\n").as_bytes()]
            .concat();
    Ok(io::stdout().write_all(&line)?)
}

fn print_address(address: &Ifaddrmsg) -> Result<(), RouterError> {
    let local: [u8; 4] = address.rtattrs().get_attr_handle().get_attr_payload_as(Ifa::Local)?;
    println!("address {} {}/{}", address.ifa_index(), Ipv4Addr::from(local), address.ifa_prefixlen());
    Ok(())
}

fn list_links(router: &NlRouter) -> status::Result<u8> {
    let all = IfinfomsgBuilder::default().ifi_family(RtAddrFamily::Unspecified).build()?;
    let links = router.dump::<_, _, Rtm, Ifinfomsg>(Rtm::Getlink, NlmF::empty(), NlPayload::Payload(all), TIMES)?;
    for link in &links.messages {
        link.get_payload().map_or(Ok(()), print_link)?;
    }
    Ok(status::of_dump("list", &links))
}

/// Of all links, or of the one with this index.
fn list_addresses(router: &NlRouter, index: u32) -> status::Result<u8> {
    let asked = IfaddrmsgBuilder::default()
        .ifa_family(RtAddrFamily::Inet)
        .ifa_prefixlen(0)
        .ifa_scope(RtScope::Universe)
        .ifa_index(index)
        .build()?;
    let addresses =
        router.dump::<_, _, Rtm, Ifaddrmsg>(Rtm::Getaddr, NlmF::empty(), NlPayload::Payload(asked), TIMES)?;
    for address in &addresses.messages {
        address.get_payload().map_or(Ok(()), print_address)?;
    }
    Ok(status::of_dump("list", &addresses))
}

fn run() -> status::Result<u8> {
    let index = std::env::args().nth(1).map(|it| it.parse::<u32>()).transpose()?;
    let (router, _multicast) = NlRouter::connect(NlFamily::Route, None, Groups::empty()).map_err(status::not_begun)?;
    if let Some(index) = index {
        // Only then does the kernel check the index.
        router.enable_strict_checking(true)?;
        return list_addresses(&router, index);
    }
    let links = list_links(&router)?;
    let addresses = list_addresses(&router, 0)?;
    Ok(if links == status::COMPLETE { addresses } else { links })
}

fn main() -> ExitCode {
    status::end("list", run())
}
