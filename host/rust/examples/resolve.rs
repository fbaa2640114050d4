//! `resolve FAMILY` prints the number of a family of generic netlink, and those of its multicast groups. It ends with
//! status 3 if no family has the name, and 4 if the answer was lost.

mod status;

use neli::consts::socket::NlFamily;
use neli::router::synchronous::NlRouter;
use neli::utils::Groups;
use std::process::ExitCode;

fn run() -> status::Result<u8> {
    let family = std::env::args().nth(1).ok_or("usage: resolve FAMILY")?;
    let (router, _multicast) =
        NlRouter::connect(NlFamily::Generic, None, Groups::empty()).map_err(status::not_begun)?;
    println!("family {family} {}", router.resolve_genl_family(&family)?);
    for (name, number) in router.list_nl_mcast_groups(&family)? {
        println!("group {name} {number}");
    }
    Ok(status::COMPLETE)
}

fn main() -> ExitCode {
    status::end("resolve", run())
}
