//! A program: the queueing disciplines of all links, a line each.

use neli::consts::Constant;
use neli::consts::linux::TcaStats;
use neli::consts::nl::NlmF;
use neli::consts::rtnl::{Rtm, Tca};
use neli::router::synchronous::NlRouter;
use neli::rtnl::linux::{GnetStatsBasic, GnetStatsQueue, TcHandle};
use neli::rtnl::{Tcmsg, TcmsgBuilder};
use neli::short::{Client, Lookup};
use std::alloc::Global;
use std::test::Fail;

/// A line of a discipline, as `tbf 8002: below root, link 4, sent 150, 0 wait`.
fn line(alloc: Global, queue: &Tcmsg) -> Result<String, Fail> {
    let attrs = queue.rtattrs();
    let kind = attrs.get_str(Tca::Kind)?.unwrap_or("?");
    let path = |counter: TcaStats| [Tca::Stats2.to_wire(), counter.to_wire()];
    let sent: Option<GnetStatsBasic> = attrs.get_path(alloc, &path(TcaStats::Basic))?;
    let wait: Option<GnetStatsQueue> = attrs.get_path(alloc, &path(TcaStats::Queue))?;
    let (bytes, packets) = (sent.map_or(0, |it| it.bytes), wait.map_or(0, |it| it.qlen));
    let own = TcHandle::from_wire(*queue.tcm_handle());
    let parent = TcHandle::from_wire(*queue.tcm_parent());
    let link = queue.tcm_ifindex();
    Ok(format!(in alloc; "{kind} {own} below {parent}, link {link}, sent {bytes}, {packets} wait")?)
}

/// The lines of all disciplines, from the datagrams of the kernel's answer.
pub fn list(alloc: Global, router: &mut NlRouter, answer: &[Vec<u8>]) -> Result<Vec<String>, Fail> {
    let all = TcmsgBuilder::default()
        .tcm_family(0)
        .tcm_ifindex(0)
        .tcm_handle(0)
        .tcm_parent(0)
        .tcm_info(0)
        .build(alloc)?;
    // Your link sends `request.bytes`, and the datagrams come back.
    let mut request = router.request(alloc, Rtm::Getqdisc, NlmF::DUMP, all)?;
    for datagram in answer {
        router.receive_for(alloc, datagram, &[])?;
    }
    let mut lines = Vec::new(alloc);
    for item in router.read_dump(alloc, &mut request.handle)?.items {
        if let Some(queue) = item?.get_payload() {
            lines.push(line(alloc, queue)?)?;
        }
    }
    Ok(lines)
}
