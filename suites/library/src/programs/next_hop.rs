//! A program: a next hop that drops packets is made, and why it was not.

use neli::consts::linux::{Nha, RTM_NEWNEXTHOP};
use neli::consts::nl::NlmF;
use neli::consts::rtnl::{RtAddrFamily, RtScope, Rtm, Rtprot};
use neli::err::RouterError;
use neli::router::synchronous::NlRouter;
use neli::rtnl::linux::{Nhmsg, NhmsgHeader};
use neli::short::{Client, ExtAck, Next, Put, Request};
use neli::types::RtBuffer;
use std::alloc::Global;
use std::test::Fail;

/// The request for a next hop with this number.
pub fn ask(alloc: Global, router: &mut NlRouter, number: u32) -> Result<Request<Rtm, Nhmsg>, Fail> {
    let mut attrs = RtBuffer::new(alloc);
    attrs.put(alloc, Nha::Id, number)?;
    attrs.put(alloc, Nha::Blackhole, ())?;
    let fields = NhmsgHeader::new(RtAddrFamily::Inet, RtScope::Universe, Rtprot::Unspec, 0);
    let flags = NlmF::CREATE | NlmF::EXCL | NlmF::ACK;
    let request = router.request(alloc, RTM_NEWNEXTHOP, flags, Nhmsg::new(fields, attrs))?;
    Ok(request)
}

/// The outcome by the kernel's answer in this datagram: `made`, or as `refused: -22 (No attributes)`.
pub fn outcome(
    alloc: Global,
    router: &mut NlRouter,
    mut request: Request<Rtm, Nhmsg>,
    datagram: &[u8],
) -> Result<String, Fail> {
    router.receive_for(alloc, datagram, &[])?;
    let code = match router.next(alloc, &mut request.handle) {
        Ok(Next::Message(_)) => return Ok(String::from_str(alloc, "made")?),
        Err(RouterError::Nlmsgerr(answer)) => {
            let why = answer.text().unwrap_or("no text");
            return Ok(format!(in alloc; "refused: {} ({why})", answer.error())?);
        }
        Err(error) => return Err(error.into()),
        Ok(_) => "no answer",
    };
    Ok(String::from_str(alloc, code)?)
}
