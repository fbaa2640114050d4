//! `watch [COUNT]` prints changes of links, addresses and routes as they arrive: as `Newlink 3 veth0`. It continues
//! after lost messages and after one that cannot be read, and reports both, as `lost some: the socket's buffer ran
//! over`. After COUNT changes the status reports whether all arrived: 0, or 4 if not.

mod status;

use neli::FromBytes;
use neli::consts::rtnl::{Ifa, Ifla, Rta, Rtm};
use neli::consts::socket::NlFamily;
use neli::err::DeError;
use neli::nl::Nlmsghdr;
use neli::router::synchronous::{Missed, NlRouter, Notice};
use neli::rtnl::{Ifaddrmsg, Ifinfomsg, Rtmsg};
use neli::types::Buffer;
use neli::utils::Groups;
use std::ffi::CString;
use std::net::Ipv4Addr;
use std::process::ExitCode;

/// `RTNLGRP_LINK`, `RTNLGRP_IPV4_IFADDR` and `RTNLGRP_IPV4_ROUTE` of `linux/rtnetlink.h`.
const GROUPS: [u32; 3] = [1, 5, 7];

fn link(bytes: &[u8]) -> Result<String, DeError> {
    let body = Ifinfomsg::from_bytes(bytes)?;
    // The kernel takes any bytes as a name.
    let name: CString = body.rtattrs().get_attr_handle().get_attr_payload_as(Ifla::Ifname)?;
    Ok(format!("{} {}", body.ifi_index(), name.to_string_lossy()))
}

fn address(bytes: &[u8]) -> Result<String, DeError> {
    let body = Ifaddrmsg::from_bytes(bytes)?;
    let local: [u8; 4] = body.rtattrs().get_attr_handle().get_attr_payload_as(Ifa::Local)?;
    Ok(format!("{} {}/{}", body.ifa_index(), Ipv4Addr::from(local), body.ifa_prefixlen()))
}

fn route(bytes: &[u8]) -> Result<String, DeError> {
    let body = Rtmsg::from_bytes(bytes)?;
    let net: [u8; 4] = body.rtattrs().get_attr_handle().get_attr_payload_as(Rta::Dst).unwrap_or_default();
    Ok(format!("{}/{}", Ipv4Addr::from(net), body.rtm_dst_len()))
}

/// The line of a change.
fn line(message: &Nlmsghdr<Rtm, Buffer>) -> Result<String, DeError> {
    let bytes = message.get_payload().map_or(&[][..], AsRef::as_ref);
    let said = match message.nl_type() {
        Rtm::Newlink | Rtm::Dellink => link(bytes)?,
        Rtm::Newaddr | Rtm::Deladdr => address(bytes)?,
        Rtm::Newroute | Rtm::Delroute => route(bytes)?,
        _ => String::new(),
    };
    Ok(format!("{:?} {said}", message.nl_type()))
}

fn run() -> status::Result<u8> {
    let count = std::env::args().nth(1).map_or(Ok(usize::MAX), |it| it.parse())?;
    let (_router, mut multicast) =
        NlRouter::connect(NlFamily::Route, None, Groups::new_groups(&GROUPS)).map_err(status::not_begun)?;
    println!("watching");
    let mut ends_with = status::COMPLETE;
    for _ in 0..count {
        let lost = match multicast.listen::<Rtm, Buffer>()? {
            Notice::Message(message) => match line(&message) {
                Ok(line) => {
                    println!("{line}");
                    continue;
                }
                Err(error) => error.to_string(),
            },
            Notice::Untyped(Ok(message)) => format!("message {}", message.nl_type()),
            Notice::Untyped(Err(error)) => error.to_string(),
            Notice::Missed(Missed::Overrun) => "the socket's buffer ran over".to_owned(),
            Notice::Missed(Missed::Fault(error)) => error.to_string(),
        };
        println!("lost some: {lost}");
        ends_with = status::LOST;
    }
    if ends_with == status::LOST {
        eprintln!("watch: some were lost");
    }
    Ok(ends_with)
}

fn main() -> ExitCode {
    status::end("watch", run())
}
