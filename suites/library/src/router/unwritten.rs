//! A body that refuses to be written: a request, a reply, a message of a dump and a notification are refused as it is,
//! and never as want of memory, since a caller who tries again after that would do so without end.

ghost use Rattle.std.specs.Prelude.{Err};
ghost use Rattle.std.specs.declared.io.ErrorKind.TheVariants.{UnexpectedEof};
ghost use Rattle.neli_wire.specs.declared.errors.SerError.TheVariants as ser;
ghost use Rattle.neli_wire.specs.laws.Sizes.{unpadded-rounded};

use super::support::assert_is_at;
use neli::consts::nl::NlmF;
use neli::err::{RouterError, SerError, SocketError};
use neli::lent::LentMessage;
use neli::nl::NlPayload;
use neli::router::synchronous::{Deliveries, Log, NlRouter, NlRouterReceiverHandle, Queues};
use neli::simulator::{Request, notification};
use neli::types::Buffer;
use neli::{Cursor, Size, ToBytes};
use std::alloc::Global;
use std::io::ErrorKind;
use std::process::Abort;

/// A body of so many bytes, of which the write is refused.
#[derive(Clone, Copy, Debug)]
struct Unwritten(usize);

impl Size for Unwritten {
    ghost unpadded_length = { λ body. body.0 };

    ghost wire_length = { λ body. body.0 };

    ghost rounded = { unpadded-rounded (λ body. body.0) };

    fn unpadded_size(&self) -> usize {
        self.0
    }

    fn written_size(&self) -> usize {
        self.0
    }
}

impl ToBytes for Unwritten {
    ghost wire = { λ _. Err (ser.Io UnexpectedEof) };

    ghost length_is = { λ body bytes e. Prim.cc };

    ghost zeros_after = { λ body bytes e. Prim.cc };

    ghost no_memory = { λ body e. Prim.cc };

    fn to_bytes(&self, _buffer: &mut Vec<u8>) -> Result<(), SerError> {
        Err(SerError::Io(ErrorKind::UnexpectedEof))
    }
}

/// Why something was not written.
#[derive(Clone, Copy, Debug, PartialEq, Eq)]
enum Why {
    /// The body's own refusal.
    Refused,
    Memory,
    Other,
    /// It was written.
    No,
}

fn why(error: &SerError) -> Why {
    match error {
        SerError::Io(ErrorKind::UnexpectedEof) => Why::Refused,
        SerError::Memory => Why::Memory,
        _ => Why::Other,
    }
}

fn why_not_written<V: Drop>(outcome: &Result<V, SerError>) -> Why {
    match outcome {
        Ok(_) => Why::No,
        Err(error) => why(error),
    }
}

/// Why a router sent no request with a body of so many bytes.
fn why_not_sent<D: Deliveries>(alloc: Global, size: usize) -> Why {
    let (mut router, _multicast) = NlRouter::<D>::new(alloc, 0);
    let body = NlPayload::Payload(Unwritten(size));
    let sent: Result<(Vec<u8>, NlRouterReceiverHandle<u16, Buffer>), _> = router.send(
        alloc,
        18u16,
        NlmF::REQUEST,
        body,
    );
    match &sent {
        Ok(_) => Why::No,
        Err(RouterError::Socket(SocketError::Ser(error))) => why(error),
        Err(RouterError::Memory) => Why::Memory,
        Err(_) => Why::Other,
    }
}

/// A request of 16 bytes, type 18 (`RTM_GETLINK` of `linux/rtnetlink.h`).
const ASKED: &[u8] = b"\x10\0\0\0\x12\0\x01\0\0\0\0\0\0\0\0\0";

#[test]
fn bodies_that_refuse_to_be_written(rt: HostRuntime) {
    let alloc = rt.alloc();
    let message = LentMessage::lend(&mut Cursor::new(ASKED)).expect(&rt, "a message");
    let request = Request::new(0, &message);
    for size in [0, 1, 4, 100] {
        assert_is_at(&rt, size, why_not_sent::<Log>(alloc, size), Why::Refused);
        assert_is_at(&rt, size, why_not_sent::<Queues>(alloc, size), Why::Refused);
        let body = Unwritten(size);
        let reply = request.reply(alloc, 16u16, NlmF::empty(), body);
        assert_is_at(&rt, size, why_not_written(&reply), Why::Refused);
        let mut dump = request.dump(alloc, 4096);
        let pushed = dump.push(alloc, 16u16, NlmF::empty(), body);
        assert_is_at(&rt, size, why_not_written(&pushed), Why::Refused);
        let told = notification(alloc, 16u16, NlmF::empty(), 0, 0, body);
        assert_is_at(&rt, size, why_not_written(&told), Why::Refused);
    }
}
