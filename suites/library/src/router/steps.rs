//! The steps of a script by the router's own calls, one by one.

use super::script::{Came, Refusal, Step, Told, bytes_of};
use neli::consts::nl::NlmF;
use neli::err::{NoMemory, RouterError, SocketError};
use neli::nl::NlPayload;
use neli::router::synchronous::{Deliveries, NlRouter, NlRouterReceiverHandle, Outcome, Reply};
use neli::types::Buffer;
use neli::utils::Groups;
use std::alloc::Global;
use std::process::Abort;

/// A handle of these tests.
pub type Handle = NlRouterReceiverHandle<u16, Buffer>;

/// A router and its handles: that for multicast, and one for each request that was sent. The place of a closed handle
/// is empty.
#[derive(Drop)]
pub struct Asker<D> {
    pub router: NlRouter<D>,
    pub handles: Vec<Option<Handle>>,
}

// A refused call, as when memory runs out, has done nothing visible when it is repeated.
impl<D: Deliveries> Asker<D> {
    /// A new router of this port and its handle for multicast. Any one allocation may be refused here.
    pub fn new(rt: &impl Abort, alloc: Global, port: u32) -> Asker<D> {
        let mut handles = Vec::new(alloc);
        if handles.reserve(1).is_err() {
            handles.reserve(1).expect(rt, "memory");
        }
        let (router, multicast) = NlRouter::<D>::new(alloc, port);
        handles.push(Some(multicast.retyped())).expect(rt, "memory");
        Asker { router, handles }
    }

    /// Sends a request of this type, with these flags and this body in hexadecimal, and returns its bytes and its
    /// handle.
    pub fn request(
        &mut self,
        alloc: Global,
        nl_type: u16,
        flags: u16,
        body: &str,
    ) -> Result<(Vec<u8>, Handle), Refusal> {
        let body = NlPayload::Payload(Buffer::from(bytes_of(alloc, body)?));
        self.router.send(alloc, nl_type, NlmF::from(flags), body)
    }

    /// Sends such a request, and keeps its handle.
    pub fn send(
        &mut self,
        alloc: Global,
        nl_type: u16,
        flags: u16,
        body: &str,
    ) -> Result<Came, NoMemory> {
        self.handles.reserve(1)?;
        match self.request(alloc, nl_type, flags, body) {
            Ok((bytes, handle)) => {
                self.handles.push(Some(handle))?;
                Ok(Outcome::Sent(bytes))
            }
            Err(RouterError::Memory) => Err(NoMemory),
            Err(error) => Ok(Outcome::NotSent(error)),
        }
    }

    /// Hands in a datagram that arrived for the groups of a mask.
    pub fn hand_in(&mut self, alloc: Global, bytes: &[u8], mask: u32) -> Result<(), NoMemory> {
        let groups = Groups::new_bitmask(alloc, mask)?;
        self.router.processing_loop(bytes, &groups)
    }

    /// Hands in a datagram, in hexadecimal, that arrived for the groups of a mask.
    pub fn come(&mut self, alloc: Global, text: &str, mask: u32) -> Result<Came, NoMemory> {
        let bytes = bytes_of(alloc, text)?;
        self.hand_in(alloc, &bytes, mask)?;
        Ok(Outcome::Done)
    }

    /// The number of a handle.
    pub fn number(&self, k: usize) -> Option<u32> {
        match self.handles.get(k) {
            Some(Some(handle)) => handle.state().number,
            _ => None,
        }
    }

    /// Reads the next item of a handle.
    pub fn read(&mut self, alloc: Global, k: usize) -> Result<Came, NoMemory> {
        let Some(Some(handle)) = self.handles.get_mut(k) else {
            return Ok(Outcome::NoHandle);
        };
        Ok(match self.router.next_typed(alloc, handle)? {
            Reply::Item(item) => Outcome::Item(item),
            Reply::End => Outcome::End,
            Reply::Waits => Outcome::Waits,
        })
    }

    /// Closes a handle.
    fn close(&mut self, k: usize) -> Came {
        let Some(place) = self.handles.get_mut(k) else {
            return Outcome::NoHandle;
        };
        match place.take() {
            Some(handle) => {
                self.router.close(handle);
                Outcome::Done
            }
            None => Outcome::NoHandle,
        }
    }

    /// Performs a step.
    pub fn step(&mut self, alloc: Global, step: Step) -> Result<Came, NoMemory> {
        match step {
            Step::Next(number) => {
                self.router.set_next_seq(number);
                Ok(Outcome::Done)
            }
            Step::Send(nl_type, flags, body) => self.send(alloc, nl_type, flags, body),
            Step::Come(text, mask) => self.come(alloc, text, mask),
            Step::Fail(kind) => {
                self.router.error_handling(SocketError::Io(kind))?;
                Ok(Outcome::Done)
            }
            Step::Read(k) => self.read(alloc, k),
            Step::Close(k) => Ok(self.close(k)),
        }
    }

    /// Performs a step, once more if memory ran out.
    pub fn step_again(&mut self, rt: &impl Abort, alloc: Global, step: Step) -> Came {
        match self.step(alloc, step) {
            Ok(outcome) => outcome,
            Err(_) => self.step(alloc, step).expect(rt, "memory"),
        }
    }

    /// Performs these steps in their order.
    pub fn steps(&mut self, rt: &impl Abort, alloc: Global, steps: &[(Step, Told)]) -> Vec<Came> {
        let mut came = Vec::new(alloc);
        for (step, _) in steps {
            let outcome = self.step(alloc, *step).expect(rt, "memory");
            came.push(outcome).expect(rt, "memory");
        }
        came
    }
}

/// Performs these steps in their order with a new router of this port, over this store, a call each.
pub fn called<D: Deliveries>(
    rt: &impl Abort,
    alloc: Global,
    port: u32,
    steps: &[(Step, Told)],
) -> Vec<Came> {
    Asker::<D>::new(rt, alloc, port).steps(rt, alloc, steps)
}
