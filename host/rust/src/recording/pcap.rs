//! Recordings as files: pcap with the link type of netlink, 253.
//!
//! ```text
//! d4c3b2a1 0200 0400 00000000 00000000 ffff0000 fd000000   the file: magic, version 2.4, zone, 0, longest, link type
//! 00f15365 05000000 24000000 24000000                      a frame: seconds, fraction, bytes kept, bytes there were
//! 0004 0338 0000 0000000000000000 0000                     cooked: sent by us, netlink, no address, family 0
//! 14000000 1200 0100 ..                                    the datagram
//! ```
//!
//! The cooked header has its high bytes first. What came to a multicast group has the type 2, and the group's number
//! as an address of 4 bytes; what was sent has its port so.

use super::{Frame, Recording, Way};
use crate::consts::nl::NlmF;
use crate::consts::socket::NlFamily;
use crate::ffi;
use std::collections::HashSet;
use std::error::Error;
use std::fmt;
use std::io::{self, Write};
use std::time::Duration;

/// Magic numbers of files whose times have microseconds, and nanoseconds.
const MICROSECONDS: u32 = 0xa1b2_c3d4;
const NANOSECONDS: u32 = 0xa1b2_3c4d;

/// `LINKTYPE_NETLINK` of pcap, and `ARPHRD_NETLINK` of `linux/if_arp.h`.
const LINK_TYPE: u32 = 253;
const NETLINK: u16 = 824;

/// Bytes of a file's header, a frame's and the cooked one.
const FILE: usize = 24;
const FRAME: usize = 16;
const COOKED: usize = 16;

/// The longest frame that Wireshark reads.
const LONGEST: u32 = 262_144;

/// Types of frames in a cooked header.
const TO_US: u16 = 0;
const MULTICAST: u16 = 2;
const BY_US: u16 = 4;

/// Why a file is not read. A place is in bytes from the front.
#[derive(Clone, Copy, Debug, PartialEq, Eq)]
pub enum PcapError {
    /// It is no pcap file, or ends inside its header.
    Header,
    /// It is of this link type, and not of netlink's.
    LinkType(u32),
    /// It ends inside the frame that begins here.
    Short(usize),
    /// The frame that begins here was cut when it was recorded.
    Snapped(usize),
    /// The frame that begins here has no cooked header of netlink.
    NotNetlink(usize),
}

impl fmt::Display for PcapError {
    fn fmt(&self, f: &mut fmt::Formatter<'_>) -> fmt::Result {
        match self {
            PcapError::Header => write!(f, "it is no pcap file"),
            PcapError::LinkType(number) => write!(f, "its link type is {number}, and netlink's is {LINK_TYPE}"),
            PcapError::Short(place) => write!(f, "it ends inside the frame at {place}"),
            PcapError::Snapped(place) => write!(f, "the frame at {place} was cut when it was recorded"),
            PcapError::NotNetlink(place) => write!(f, "the frame at {place} is not of netlink"),
        }
    }
}

impl Error for PcapError {}

/// How a file's numbers are written.
#[derive(Clone, Copy)]
struct Form {
    is_little: bool,
    has_nanoseconds: bool,
}

impl Form {
    fn of(file: &[u8]) -> Option<Form> {
        let magic = *file.first_chunk::<4>()?;
        [true, false].into_iter().find_map(|is_little| {
            let form = Form { is_little, has_nanoseconds: false };
            match form.number(&magic, 0)? {
                MICROSECONDS => Some(form),
                NANOSECONDS => Some(Form { has_nanoseconds: true, ..form }),
                _ => None,
            }
        })
    }

    /// The number of 4 bytes at a place.
    fn number(self, bytes: &[u8], place: usize) -> Option<u32> {
        let field = *bytes.get(place..)?.first_chunk::<4>()?;
        Some(if self.is_little { u32::from_le_bytes(field) } else { u32::from_be_bytes(field) })
    }

    fn time(self, seconds: u32, fraction: u32) -> Duration {
        let fraction = u64::from(fraction);
        let rest = if self.has_nanoseconds { Duration::from_nanos(fraction) } else { Duration::from_micros(fraction) };
        Duration::from_secs(seconds.into()) + rest
    }
}

/// The number of 2 bytes at a place of a cooked header.
fn cooked_number(cooked: &[u8; COOKED], place: usize) -> u16 {
    u16::from_be_bytes([cooked[place], cooked[place + 1]])
}

/// The first message of a datagram.
fn first_message(datagram: &[u8]) -> ffi::Message {
    let (mut walk, mut message) = (ffi::Walk { place: 0, end: datagram.len() }, ffi::Message::default());
    ffi::next_message(datagram, &mut walk, &mut message);
    message
}

/// Where a datagram went. `nlmon` says of each that it was sent by us: then it is a request by its flags, or else an
/// answer where a request had its number.
fn way_of(cooked: &[u8; COOKED], datagram: &[u8], asked: &HashSet<u32>) -> Way {
    let first = first_message(datagram);
    let has_address = cooked_number(cooked, 4) == 4;
    let address = if has_address { u32::from_be_bytes([cooked[6], cooked[7], cooked[8], cooked[9]]) } else { 0 };
    match cooked_number(cooked, 0) {
        TO_US => Way::Received,
        MULTICAST => Way::Group(address),
        _ if first.flags & NlmF::REQUEST.bits() != 0 => Way::Sent(address),
        _ if asked.contains(&first.number) => Way::Received,
        _ => Way::Group(0),
    }
}

impl Recording {
    /// What a pcap file has of this family of netlink.
    ///
    /// Both byte orders are read, and times with microseconds or nanoseconds. Refused as [`PcapError`] says, at the
    /// first frame that can't be read, of whatever family.
    pub fn from_pcap(file: &[u8], family: NlFamily) -> Result<Self, PcapError> {
        let form = Form::of(file).ok_or(PcapError::Header)?;
        let link_type = form.number(file, 20).ok_or(PcapError::Header)?;
        if link_type != LINK_TYPE {
            return Err(PcapError::LinkType(link_type));
        }
        let (mut recording, mut asked, mut place) = (Recording::new(family), HashSet::new(), FILE);
        while place < file.len() {
            let number = |at: usize| form.number(file, place + at).ok_or(PcapError::Short(place));
            let (kept, there) = (number(8)? as usize, number(12)? as usize);
            let time = form.time(number(0)?, number(4)?);
            let bytes = file.get(place + FRAME..).and_then(|it| it.get(..kept)).ok_or(PcapError::Short(place))?;
            if kept < there {
                return Err(PcapError::Snapped(place));
            }
            let (cooked, datagram) = bytes.split_first_chunk::<COOKED>().ok_or(PcapError::NotNetlink(place))?;
            if cooked_number(cooked, 2) != NETLINK {
                return Err(PcapError::NotNetlink(place));
            }
            place += FRAME + kept;
            if i32::from(cooked_number(cooked, 14)) != i32::from(family) {
                continue;
            }
            let way = way_of(cooked, datagram, &asked);
            if matches!(way, Way::Sent(_)) {
                asked.insert(first_message(datagram).number);
            }
            recording.extend([Frame { time, way, bytes: datagram.to_vec() }]);
        }
        Ok(recording)
    }

    /// Writes it as a pcap file, without its faults. Its times are in microseconds.
    ///
    /// Refused as `out` refuses the bytes, and as [`io::ErrorKind::Other`] if a frame's length exceeds 32 bits; what
    /// comes before is written then.
    pub fn write_pcap(&self, out: &mut impl Write) -> io::Result<()> {
        out.write_all(&MICROSECONDS.to_le_bytes())?;
        out.write_all(&[2, 0, 4, 0, 0, 0, 0, 0, 0, 0, 0, 0])?;
        out.write_all(&LONGEST.to_le_bytes())?;
        out.write_all(&LINK_TYPE.to_le_bytes())?;
        for frame in self {
            let (kind, address) = match frame.way {
                Way::Sent(port) => (BY_US, port),
                Way::Received => (TO_US, 0),
                Way::Group(group) => (MULTICAST, group),
                Way::Fault(_) => continue,
            };
            let length = u32::try_from(COOKED + frame.bytes.len()).map_err(io::Error::other)?;
            let seconds = u32::try_from(frame.time.as_secs()).unwrap_or(u32::MAX);
            for number in [seconds, frame.time.subsec_micros(), length, length] {
                out.write_all(&number.to_le_bytes())?;
            }
            out.write_all(&cooked(kind, address, self.family))?;
            out.write_all(&frame.bytes)?;
        }
        Ok(())
    }
}

fn cooked(kind: u16, address: u32, family: NlFamily) -> [u8; COOKED] {
    let mut header = [0; COOKED];
    header[..2].copy_from_slice(&kind.to_be_bytes());
    header[2..4].copy_from_slice(&NETLINK.to_be_bytes());
    if address != 0 {
        header[5] = 4;
        header[6..10].copy_from_slice(&address.to_be_bytes());
    }
    header[14..].copy_from_slice(&(i32::from(family) as u16).to_be_bytes());
    header
}
