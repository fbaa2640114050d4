//! A kernel with a tunnel of WireGuard, played by the simulator, and a program that shows the tunnel. The numbers are
//! those of `linux/wireguard.h`.

use neli::consts::genl::{CtrlAttr, CtrlCmd};
use neli::consts::nl::{GenlId, NlType, NlmF};
use neli::err::SerError;
use neli::genl::{AttrType, Genlmsghdr, GenlmsghdrBuilder};
use neli::lent::{LentMessages, LentNlattrs};
use neli::router::synchronous::{NlRouter, NlRouterReceiverHandle, resolve_genl_family};
use neli::short::{Client, Dump, LentLookup, Lookup, Put};
use neli::simulator::{ExtAck, Request};
use neli::types::{Buffer, GenlBuffer};
use neli::{FromBytesWithInput, Size};
use std::alloc::Global;
use std::test::Fail;

/// The number that this kernel gives the family, and its version.
const FAMILY: u16 = 31;

const VERSION: u8 = 1;

/// The command that gets a device.
const GET_DEVICE: u8 = 0;

/// Attributes of a device: its index, its name, its port, its peers.
const IFINDEX: u16 = 1;

const IFNAME: u16 = 2;

const LISTEN_PORT: u16 = 6;

const PEERS: u16 = 8;

/// Attributes of a peer: its key, the bytes received and sent, the addresses that it may have.
const KEY: u16 = 1;

const RECEIVED: u16 = 7;

const SENT: u16 = 8;

const ALLOWED: u16 = 9;

/// Attributes of such an address: the address, and the length of its prefix.
const ADDRESS: u16 = 2;

const PREFIX: u16 = 3;

type Attrs = GenlBuffer<u16, Buffer>;

type Device = Genlmsghdr<u8, u16>;

/// A peer, as the kernel knows it.
#[derive(Clone, Copy)]
struct Peer {
    key: [u8; 32],
    received: u64,
    sent: u64,
    allowed: ([u8; 4], u8),
}

const PEERS_THERE: [Peer; 2] = [
    Peer {
        key: [0xaa; 32],
        received: 1500,
        sent: 92,
        allowed: ([192, 0, 2, 0], 24),
    },
    Peer {
        key: [0xbb; 32],
        received: 0,
        sent: 148,
        allowed: ([198, 51, 100, 7], 32),
    },
];

// ---- the kernel

/// The attributes of a peer.
fn put_peer(alloc: Global, attrs: &mut Attrs, peer: Peer) -> Result<(), SerError> {
    attrs.put(alloc, KEY, peer.key)?;
    attrs.put(alloc, RECEIVED, peer.received)?;
    attrs.put(alloc, SENT, peer.sent)?;
    attrs.put_nest(alloc, ALLOWED, |all: &mut Attrs| {
        all.put_nest(alloc, 0u16, |one: &mut Attrs| {
            one.put(alloc, ADDRESS, peer.allowed.0)?;
            one.put(alloc, PREFIX, peer.allowed.1)
        })
    })
}

/// The device with its peers.
fn device(alloc: Global) -> Result<Device, Fail> {
    let mut attrs = Attrs::new(alloc);
    attrs.put(alloc, IFINDEX, 12u32)?;
    attrs.put(alloc, IFNAME, "wg0")?;
    attrs.put(alloc, LISTEN_PORT, 51820u16)?;
    attrs.put_nest(alloc, PEERS, |peers: &mut Attrs| {
        for peer in PEERS_THERE {
            peers.put_nest(
                alloc,
                0u16,
                |attrs: &mut Attrs| put_peer(alloc, attrs, peer),
            )?;
        }
        Ok::<(), SerError>(())
    })?;
    let body = GenlmsghdrBuilder::default()
        .cmd(GET_DEVICE)
        .version(VERSION);
    Ok(body.attrs(attrs).build(alloc)?)
}

/// The controller's message about the family.
fn family(alloc: Global) -> Result<Genlmsghdr<CtrlCmd, CtrlAttr>, Fail> {
    let mut attrs: GenlBuffer<CtrlAttr, Buffer> = GenlBuffer::new(alloc);
    attrs.put(alloc, CtrlAttr::FamilyName, "wireguard")?;
    attrs.put(alloc, CtrlAttr::FamilyId, FAMILY)?;
    let body = GenlmsghdrBuilder::default()
        .cmd(CtrlCmd::Newfamily)
        .version(2);
    Ok(body.attrs(attrs).build(alloc)?)
}

/// The kernel's answer to the requests in these bytes, from the socket of this port: the family, the device, or that
/// there is no such family (`ENOENT`).
pub fn served(alloc: Global, port: u32, sent: &[u8]) -> Result<Vec<Vec<u8>>, Fail> {
    let mut datagrams = Vec::new(alloc);
    for message in LentMessages::<u16>::new(sent) {
        let request = Request::new(port, &message?);
        match *request.header().nl_type() {
            16 => {
                datagrams.push(request.reply(alloc, GenlId::Ctrl, NlmF::empty(), family(alloc)?)?)?;
                datagrams.push(request.acknowledgement(alloc, ExtAck::new(alloc))?)?;
            }
            FAMILY => {
                let mut dump = request.dump(alloc, 8192);
                dump.push(alloc, FAMILY, NlmF::empty(), device(alloc)?)?;
                for datagram in dump.finish(alloc, NlmF::empty(), 0, ExtAck::new(alloc))? {
                    datagrams.push(datagram)?;
                }
            }
            _ => datagrams.push(request.error(alloc, -2, ExtAck::new(alloc))?)?,
        }
    }
    Ok(datagrams)
}

// ---- the program

/// All that the kernel answers to this request.
fn answer<T: NlType, P: FromBytesWithInput + Size + Drop>(
    alloc: Global,
    router: &mut NlRouter,
    bytes: &[u8],
    mut handle: NlRouterReceiverHandle<T, P>,
) -> Result<Dump<T, P>, Fail> {
    for datagram in served(alloc, router.pid(), bytes)? {
        router.receive_for(alloc, &datagram, &[])?;
    }
    let dump = router.read_dump(alloc, &mut handle)?;
    router.close(handle);
    Ok(dump)
}

/// Appends a line for each peer, as `peer aa..: received 1500, sent 92, prefix 24`.
fn peers(alloc: Global, lines: &mut Vec<String>, bytes: &[u8]) -> Result<(), Fail> {
    for peer in LentNlattrs::<u16>::new(bytes) {
        let attrs = peer?.get_attrs::<AttrType<u16>>();
        let key = attrs.payload_of(KEY)?.unwrap_or(&[0]);
        let received: Option<u64> = attrs.get(RECEIVED)?;
        let sent: Option<u64> = attrs.get(SENT)?;
        let prefix: Option<u8> = attrs.get_path(&[ALLOWED, 0, PREFIX])?;
        lines.push(format!(in alloc;
            "peer {:x}..: received {}, sent {}, prefix {}",
            key[0],
            received.unwrap_or(0),
            sent.unwrap_or(0),
            prefix.unwrap_or(0)
        )?)?;
    }
    Ok(())
}

/// The lines of a tunnel: its name and its port, and its peers.
pub fn show(alloc: Global, router: &mut NlRouter) -> Result<Vec<String>, Fail> {
    let (bytes, handle) = router.request_genl_family(alloc, "wireguard")?;
    let dump = answer(alloc, router, &bytes, handle)?;
    let number = resolve_genl_family(alloc, "wireguard", dump.items)?;
    let mut attrs = Attrs::new(alloc);
    attrs.put(alloc, IFNAME, "wg0")?;
    let body = GenlmsghdrBuilder::default()
        .cmd(GET_DEVICE)
        .version(VERSION);
    let body: Device = body.attrs(attrs).build(alloc)?;
    let request = router.request(alloc, number, NlmF::DUMP, body)?;
    let mut lines = Vec::new(alloc);
    for item in answer(alloc, router, &request.bytes, request.handle)?.items {
        if let Some(device) = item?.get_payload() {
            let name = device.attrs().get_str(IFNAME)?.unwrap_or("?");
            let port: Option<u16> = device.attrs().get(alloc, LISTEN_PORT)?;
            lines.push(format!(in alloc; "{name} port {}", port.unwrap_or(0))?)?;
            peers(
                alloc,
                &mut lines,
                device.attrs().payload_of(PEERS).unwrap_or(&[]),
            )?;
        }
    }
    Ok(lines)
}
