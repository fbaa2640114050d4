//! A program: the forwarding table of all bridges and tunnels, a line for each entry of a bridge.

use neli::consts::linux::AF_BRIDGE;
use neli::consts::nl::NlmF;
use neli::consts::rtnl::{Nda, Ntf, Nud, Rtm, Rtn};
use neli::router::synchronous::NlRouter;
use neli::rtnl::{HardwareAddress, Ndmsg, NdmsgBuilder};
use neli::short::{Client, Lookup};
use std::alloc::Global;
use std::test::Fail;

/// A line of an entry that belongs to a bridge, as `02:00:00:00:00:aa link 2 bridge 5`.
fn line(alloc: Global, entry: &Ndmsg) -> Result<Option<String>, Fail> {
    let attrs = entry.rtattrs();
    let address: Option<HardwareAddress> = attrs.get_with_len(alloc, Nda::Lladdr)?;
    let bridge: Option<u32> = attrs.get(alloc, Nda::Master)?;
    match (address, bridge) {
        (Some(address), Some(bridge)) => {
            let link = entry.ndm_index();
            Ok(Some(format!(in alloc; "{address} link {link} bridge {bridge}")?))
        }
        _ => Ok(None),
    }
}

/// The lines of all entries of bridges, of the kernel's answer in these datagrams.
pub fn list(
    alloc: Global,
    router: &mut NlRouter,
    datagrams: &[Vec<u8>],
) -> Result<Vec<String>, Fail> {
    let all = NdmsgBuilder::default()
        .ndm_family(AF_BRIDGE)
        .ndm_index(0)
        .ndm_state(Nud::empty())
        .ndm_flags(Ntf::empty())
        .ndm_type(Rtn::Unspec)
        .build(alloc)?;
    // Your link sends `request.bytes`, and the datagrams come back.
    let mut request = router.request(alloc, Rtm::Getneigh, NlmF::DUMP, all)?;
    for datagram in datagrams {
        router.receive_for(alloc, datagram, &[])?;
    }
    let mut lines = Vec::new(alloc);
    for item in router.read_dump(alloc, &mut request.handle)?.items {
        if let Some(entry) = item?.get_payload() {
            if let Some(line) = line(alloc, entry)? {
                lines.push(line)?;
            }
        }
    }
    Ok(lines)
}
