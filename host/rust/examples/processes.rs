//! `processes COUNT` prints the next COUNT process events of the connector, as `Fork` or `Exit`. The kernel reports
//! them only to the machine's own network namespace, and to its administrators.

use neli::ToBytes;
use neli::connector::{CnMsg, CnMsgBuilder};
use neli::consts::connector::{CnMsgIdx, CnMsgVal, ProcCnMcastOp, ProcEventType};
use neli::consts::nl::Nlmsg;
use neli::consts::socket::NlFamily;
use neli::nl::{NlPayload, NlmsghdrBuilder};
use neli::socket::synchronous::NlSocketHandle;
use neli::types::Buffer;
use neli::utils::Groups;
use std::error::Error;

/// Requests process events, or their end.
fn ask(socket: &NlSocketHandle, wish: ProcCnMcastOp) -> Result<(), Box<dyn Error>> {
    let mut bytes = Vec::new();
    u32::from(wish).to_bytes(&mut bytes)?;
    let body = CnMsgBuilder::default().idx(CnMsgIdx::Proc).val(CnMsgVal::Proc).payload(bytes).build()?;
    let message = NlmsghdrBuilder::default().nl_type(Nlmsg::Done).nl_payload(NlPayload::Payload(body)).build()?;
    Ok(socket.send(&message)?)
}

/// The kind of the event: the first number of a `struct proc_event`.
fn event(body: &CnMsg<Buffer>) -> Option<ProcEventType> {
    let bytes = body.payload().as_ref().first_chunk()?;
    Some(ProcEventType::from(u32::from_ne_bytes(*bytes)))
}

fn main() -> Result<(), Box<dyn Error>> {
    let count: usize = std::env::args().nth(1).ok_or("usage: processes COUNT")?.parse()?;
    // CN_IDX_PROC of linux/connector.h is group 1.
    let socket = NlSocketHandle::connect(NlFamily::Connector, None, Groups::new_groups(&[1]))?;
    ask(&socket, ProcCnMcastOp::Listen)?;
    println!("listening");
    let mut left = count;
    while left > 0 {
        let (messages, _groups) = socket.recv::<u16, CnMsg<Buffer>>()?;
        for message in messages {
            if let Some(event) = message?.get_payload().and_then(event).filter(|it| *it != ProcEventType::None) {
                println!("{event:?}");
                left = left.saturating_sub(1);
            }
        }
    }
    ask(&socket, ProcCnMcastOp::Ignore)
}
