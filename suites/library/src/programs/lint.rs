//! A program: requests, checked by the tables before they are sent; and why a kernel refused one.

use neli::lent::{LentMessage, LentMessages};
use neli::nl::Nlmsghdr;
use neli::schema::{Body, Head, Refusal, Tables, body_of, check, find};
use neli::short::ExtAck;
use neli::types::Buffer;
use neli::{Cursor, FromBytes};
use std::alloc::Global;
use std::test::Fail;

/// The body of a message of this protocol.
fn body<'b, 'w, 't>(
    tables: &'w Tables<'t>,
    protocol: u16,
    message: &LentMessage<'b, u16>,
) -> Body<'b, 'w, 't> {
    let head = Head {
        protocol,
        message_type: *message.nl_type(),
        flags: *message.nl_flags(),
    };
    body_of(tables, head, message.nl_payload())
}

/// A line for each request of a datagram: `ok`, or what is wrong first, as `IFLA_MTU: shorter than 4 bytes`.
pub fn findings(
    alloc: Global,
    tables: &Tables<'_>,
    protocol: u16,
    datagram: &[u8],
) -> Result<Vec<String>, Fail> {
    let mut lines = Vec::new(alloc);
    for message in LentMessages::<u16>::new(datagram) {
        let line = match check(&body(tables, protocol, &message?)) {
            Ok(()) => String::from_str(alloc, "ok")?,
            Err(violation) => violation.to_string(alloc)?,
        };
        lines.push(line)?;
    }
    Ok(lines)
}

/// Why the kernel refused a request, by its answer, as `ENODEV: No such device: no device matches ifindex: ..`, with
/// the path to the attribute; `None` where the answer is no error.
pub fn reason(
    alloc: Global,
    tables: &Tables<'_>,
    protocol: u16,
    request: &[u8],
    answer: &[u8],
) -> Result<Option<String>, Fail> {
    let request = LentMessage::lend(&mut Cursor::new(request))?;
    let mut answer = Nlmsghdr::<u16, Buffer>::from_bytes(alloc, &mut Cursor::new(answer))?;
    let Some(error) = answer.get_err() else {
        return Ok(None);
    };
    let body = body(tables, protocol, &request);
    let refusal = Refusal {
        number: error.error().unsigned_abs(),
        text: error.text().map(|text| text.as_bytes()),
        place: error
            .offset()
            .and_then(|offset| find(&body, offset as usize)),
    };
    Ok(Some(refusal.to_string(alloc)?))
}
