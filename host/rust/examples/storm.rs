//! `storm SEED` asks, reads and drops handles by a seed, and says what it was given: `host/storm/storm.c` in Rust,
//! where the lines are explained. `host/test` runs it over a relay that loses, repeats and reorders.

use neli::consts::nl::NlmF;
use neli::consts::rtnl::{Ifa, Ifla, RtAddrFamily, RtScope, Rtm};
use neli::consts::socket::NlFamily;
use neli::err::{RouterError, SocketError};
use neli::nl::NlPayload;
use neli::router::synchronous::{NlRouter, NlRouterReceiverHandle};
use neli::rtnl::{IfaddrmsgBuilder, Ifinfomsg, IfinfomsgBuilder, RtattrBuilder};
use neli::types::Buffer;
use neli::utils::Groups;
use neli::{FromBytes, ToBytes};
use std::error::Error;
use std::time::{Duration, Instant};

const REQUESTS: usize = 8;
const STEPS: usize = 250;
const SHORT: Duration = Duration::from_millis(3);
const LONG: Duration = Duration::from_millis(300);

type Handle = NlRouterReceiverHandle<u16, Buffer>;

struct Storm {
    router: NlRouter,
    state: u64,
    open: Vec<(u32, Handle)>,
    number: u32,
    mtu: u32,
}

/// The code in `neli.h` of an error that ends a request, and the system's number where the socket has one.
fn code_of(error: &RouterError) -> (i32, i32) {
    match error {
        RouterError::Nlmsgerr(_) => (3, 0),
        RouterError::BadSeqOrPid => (-8, 0),
        RouterError::NoAck => (-9, 0),
        RouterError::UnexpectedAck => (-10, 0),
        RouterError::Socket(SocketError::Io(it)) => (-11, it.raw_os_error().unwrap_or(0)),
        _ => (-99, 0),
    }
}

/// `EAGAIN`, which ends a wait.
const LATE: (i32, i32) = (-11, 11);

impl Storm {
    fn below(&mut self, limit: usize) -> usize {
        self.state ^= self.state << 13;
        self.state ^= self.state >> 7;
        self.state ^= self.state << 17;
        (self.state >> 33) as usize % limit
    }

    /// Sends a request, if there is room for one.
    fn ask(&mut self, kind: Rtm, flags: NlmF, body: impl ToBytes) {
        if self.open.len() == REQUESTS {
            return;
        }
        match self.router.send(kind, flags, NlPayload::Payload(body)) {
            Ok(handle) => {
                println!("sent {}", self.number);
                self.open.push((self.number, handle));
                self.number += 1;
            }
            Err(error) => println!("refused {error}"),
        }
    }

    fn ask_something(&mut self) -> Result<(), Box<dyn Error>> {
        let changes = [NlmF::empty(), NlmF::ACK, NlmF::ECHO, NlmF::ECHO | NlmF::ACK];
        let index = if self.below(4) == 0 { 4711 } else { 1 };
        let link = |index| IfinfomsgBuilder::default().ifi_family(RtAddrFamily::Unspecified).ifi_index(index);
        match self.below(5) {
            0 => self.ask(Rtm::Getlink, NlmF::DUMP, link(0).build()?),
            1 => {
                self.mtu += 1;
                let mtu = RtattrBuilder::default().rta_type(Ifla::Mtu).rta_payload(self.mtu).build()?;
                let flags = changes[self.below(2)];
                self.ask(Rtm::Setlink, flags, link(index).rtattrs([mtu].into_iter().collect()).build()?);
            }
            2 => {
                let local = [10, 0, 0, 1 + self.below(200) as u8];
                let local = RtattrBuilder::default().rta_type(Ifa::Local).rta_payload(local).build()?;
                let address = IfaddrmsgBuilder::default()
                    .ifa_family(RtAddrFamily::Inet)
                    .ifa_prefixlen(8)
                    .ifa_scope(RtScope::Universe)
                    .ifa_index(1)
                    .rtattrs([local].into_iter().collect())
                    .build()?;
                let flags = NlmF::CREATE | NlmF::REPLACE | changes[self.below(4)];
                self.ask(Rtm::Newaddr, flags, address);
            }
            _ => self.ask(Rtm::Getlink, NlmF::ACK, link(index).build()?),
        }
        Ok(())
    }

    /// The next item, within a time.
    fn next(&mut self, at: usize, wait: Duration) -> Option<Result<u16, (i32, i32)>> {
        self.router.socket().set_recv_timeout(Some(wait)).ok()?;
        let start = Instant::now();
        let next = self.open[at].1.next();
        if start.elapsed() > wait + Duration::from_secs(3) {
            println!("slow {}", start.elapsed().as_millis());
        }
        next.map(|it| it.map(|it| *it.nl_type()).map_err(|it| code_of(&it)))
    }

    /// Reads a request once, or to its end.
    fn read_at(&mut self, at: usize, wait: Duration, to_its_end: bool) {
        let number = self.open[at].0;
        let mut next = self.next(at, wait);
        while let Some(Ok(kind)) = next {
            println!("item {number} {kind}");
            if !to_its_end {
                return;
            }
            next = self.next(at, wait);
        }
        let code = match next {
            Some(Err(LATE)) => return,
            Some(Err((code, _))) => code,
            _ => 0,
        };
        println!("over {number} {code}");
        if code != 0 || self.below(2) == 0 {
            self.open.swap_remove(at);
        }
    }

    /// Reads messages for groups; false if none arrived in time.
    fn listen_once(&self, multicast: &mut Handle, wait: Duration) -> bool {
        self.router.socket().set_recv_timeout(Some(wait)).expect("a time is set");
        match multicast.next() {
            Some(Ok(message)) => {
                let body = message.get_payload().and_then(|it| Ifinfomsg::from_bytes(it.as_ref()).ok());
                let mtu = body.and_then(|it| it.rtattrs().get_attr_handle().get_attr_payload_as::<u32>(Ifla::Mtu).ok());
                println!("group {} {}", message.nl_seq(), mtu.unwrap_or(0));
            }
            Some(Err(error)) => match code_of(&error) {
                LATE => return false,
                (-11, number) => println!("lost {number}"),
                (code, _) => println!("wrong group {code}"),
            },
            None => println!("wrong end of groups"),
        }
        true
    }
}

fn main() -> Result<(), Box<dyn Error>> {
    let seed: u64 = std::env::args().nth(1).ok_or("usage: storm SEED")?.parse()?;
    let (router, mut multicast) = NlRouter::connect(NlFamily::Route, None, Groups::new_groups(&[1]))?;
    let state = seed.wrapping_mul(0x9e37_79b9_7f4a_7c15) + 7;
    let mut storm = Storm { router, state, open: Vec::new(), number: 0, mtu: 5000 };
    for _ in 0..STEPS {
        let (what, count) = (storm.below(10), storm.open.len());
        match what {
            0..4 => storm.ask_something()?,
            4..7 if count > 0 => {
                let (at, to_its_end) = (storm.below(count), storm.below(2) == 0);
                storm.read_at(at, SHORT, to_its_end);
            }
            7 if count > 0 => {
                let at = storm.below(count);
                storm.open.swap_remove(at);
            }
            _ => _ = storm.listen_once(&mut multicast, Duration::ZERO),
        }
    }
    while storm.listen_once(&mut multicast, LONG) {}
    while let Some(last) = storm.open.len().checked_sub(1) {
        storm.read_at(last, Duration::ZERO, true);
        if let Some((number, _)) = storm.open.get(last) {
            println!("left {number}");
            storm.open.truncate(last);
        }
    }
    while storm.listen_once(&mut multicast, Duration::ZERO) {}
    println!("end");
    Ok(())
}
