//! A program: a list that is asked for again until it is whole, or until it is known why it can't be.

use neli::consts::nl::NlmF;
use neli::consts::rtnl::{RtAddrFamily, RtScope, Rtm};
use neli::router::synchronous::{NlRouter, Verdict};
use neli::rtnl::IfaddrmsgBuilder;
use neli::short::Client;
use std::alloc::Global;
use std::test::Fail;

/// How many addresses a whole list has, or the verdict on the last try; each try has the kernel's answer in the
/// datagrams that `answer` returns for the request's bytes.
pub fn count<F: FnMut(&[u8]) -> Result<Vec<Vec<u8>>, Fail>>(
    alloc: Global,
    router: &mut NlRouter,
    mut answer: F,
) -> Result<Result<usize, Verdict>, Fail> {
    let mut last = Verdict::Pending;
    for _ in 0..3u8 {
        let all = IfaddrmsgBuilder::default()
            .ifa_family(RtAddrFamily::Unspecified)
            .ifa_prefixlen(0)
            .ifa_scope(RtScope::Universe)
            .ifa_index(0)
            .build(alloc)?;
        let mut request = router.request(alloc, Rtm::Getaddr, NlmF::DUMP, all)?;
        for datagram in answer(&request.bytes)? {
            router.receive_for(alloc, &datagram, &[])?;
        }
        let dump = router.read_dump(alloc, &mut request.handle)?;
        router.give_up(alloc, request.handle)?;
        match dump.verdict {
            // The last item is the end.
            Verdict::Complete => return Ok(Ok(dump.items.len() - 1)),
            Verdict::Interrupted => last = Verdict::Interrupted,
            other => return Ok(Err(other)),
        }
    }
    Ok(Err(last))
}
