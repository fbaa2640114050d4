//! How a recording is played.

use super::{Frame, Recording, Way};
use crate::consts::socket::NlFamily;
use crate::err::{SocketError, Unrecorded};
use crate::ffi::{self, messages};
use crate::link::{Arrived, Link, LinkOption};
use crate::utils::NetlinkBitArray;
use std::collections::{BTreeSet, HashMap, HashSet};
use std::io;
use std::ops::Range;
use std::sync::{MutexGuard, PoisonError};
use std::time::Duration;

/// The port of a client that a recording is played to.
const PORT: u32 = 1;

/// The group of what came to one that the file does not state.
const SOME_GROUP: u32 = 1;

/// Type of an error, and where in one the header of its request begins.
const ERROR: u16 = 2;
const ECHO: usize = 20;

/// The places in a header of the sequence number and the port.
const NUMBER: Range<usize> = 8..12;
const NUMBER_AND_PORT: Range<usize> = 8..16;

/// A request of the recording: the index of its datagram, none where the recording has no requests; and its number.
type Asked = (Option<usize>, u32);

/// How far a recording was played.
#[derive(Debug, Default)]
pub(super) struct Play {
    /// The frames that were sent or received.
    past: HashSet<usize>,
    /// Of each request that was sent, its sequence number and the port that it states.
    numbers: HashMap<Asked, [u8; 8]>,
    groups: BTreeSet<u32>,
    options: HashSet<LinkOption>,
}

fn is_request(frame: &Frame) -> bool {
    matches!(frame.way, Way::Sent(_))
}

/// Where two requests differ but for their numbers and ports: the first such byte.
fn difference(one: &[u8], other: &[u8]) -> Option<usize> {
    let mut is_free = vec![false; one.len()];
    for (place, _) in messages(one) {
        is_free[place..][NUMBER_AND_PORT].fill(true);
    }
    let differs = |at: &usize| !is_free[*at] && one.get(*at) != other.get(*at);
    let end = one.len().min(other.len());
    (0..end).find(differs).or((one.len() != other.len()).then_some(end))
}

impl Play {
    /// Whether nothing is left.
    pub(super) fn is_over(&self, frames: &[Frame]) -> bool {
        self.past.len() == frames.len()
    }

    /// The requests that were not sent, by their indices.
    fn unsent<'f>(&self, frames: &'f [Frame]) -> impl Iterator<Item = (usize, &'f Frame)> {
        let is_left = |(at, it): &(usize, &Frame)| is_request(it) && !self.past.contains(at);
        frames.iter().enumerate().filter(is_left)
    }

    /// Takes a request.
    fn send(&mut self, frames: &[Frame], datagram: &[u8]) -> Result<(), Unrecorded> {
        if !frames.iter().any(is_request) {
            self.take_any(frames, datagram);
            return Ok(());
        }
        let found = self.unsent(frames).find(|(_, it)| difference(&it.bytes, datagram).is_none());
        let Some((at, frame)) = found else {
            let next = self.unsent(frames).next().ok_or(Unrecorded::Past)?;
            return Err(Unrecorded::Differs { at: difference(&next.1.bytes, datagram).unwrap_or(0) });
        };
        for ((_, recorded), (place, _)) in messages(&frame.bytes).zip(messages(datagram)) {
            self.note(Some(at), recorded.number, &datagram[place..]);
        }
        self.past.insert(at);
        Ok(())
    }

    /// Takes a request of a recording that has none: it is that of the answers that come next.
    fn take_any(&mut self, frames: &[Frame], datagram: &[u8]) {
        let answers = frames.iter().filter(|it| it.way == Way::Received);
        let mut numbers = answers.flat_map(|it| messages(&it.bytes)).map(|(_, it)| it.number);
        for (place, _) in messages(datagram) {
            if let Some(number) = numbers.find(|it| !self.numbers.contains_key(&(None, *it))) {
                self.note(None, number, &datagram[place..]);
            }
        }
    }

    fn note(&mut self, at: Option<usize>, number: u32, message: &[u8]) {
        let mut own = [0; 8];
        own.copy_from_slice(&message[NUMBER_AND_PORT]);
        self.numbers.insert((at, number), own);
    }

    /// The request that a message of a frame answers, if it may be an answer.
    fn asked(frames: &[Frame], at: usize, message: &ffi::Message) -> Option<Asked> {
        if matches!(frames[at].way, Way::Group(_)) && message.port == 0 {
            return None;
        }
        if !frames.iter().any(is_request) {
            return (frames[at].way == Way::Received).then_some((None, message.number));
        }
        let has_number = |it: &Frame| messages(&it.bytes).any(|(_, request)| request.number == message.number);
        let is_port = |it: &Frame| matches!(it.way, Way::Sent(port) if port == 0 || port == message.port);
        let before = frames[..at].iter().enumerate().rev().find(|(_, it)| is_port(it) && has_number(it))?;
        Some((Some(before.0), message.number))
    }

    /// Whether what stands before a frame lets it come now.
    fn may_come(&self, frames: &[Frame], at: usize) -> bool {
        let is_late = |(before, it): (usize, &Frame)| is_request(it) && !self.past.contains(&before);
        let is_early = || frames[..at].iter().enumerate().any(is_late);
        let mut asked = messages(&frames[at].bytes).filter_map(|(_, it)| Self::asked(frames, at, &it)).peekable();
        match asked.peek() {
            Some(_) => asked.all(|it| self.numbers.contains_key(&it)),
            None => !is_early(),
        }
    }

    /// The frame that comes next, if one does.
    fn next(&self, frames: &[Frame]) -> Option<usize> {
        let is_left = |at: &usize| !is_request(&frames[*at]) && !self.past.contains(at);
        (0..frames.len()).filter(is_left).find(|at| self.may_come(frames, *at))
    }

    /// The bytes of a frame, with the numbers and ports of the requests that were sent.
    fn rewritten(&self, frames: &[Frame], at: usize) -> Vec<u8> {
        let mut bytes = frames[at].bytes.clone();
        for (place, message) in messages(&frames[at].bytes) {
            let asked = Self::asked(frames, at, &message).and_then(|it| self.numbers.get(&it));
            let Some(own) = asked else { continue };
            let end = message.payload + message.payload_length;
            if message.kind == ERROR && end >= place + ECHO + NUMBER_AND_PORT.end {
                bytes[place + ECHO..][NUMBER_AND_PORT].copy_from_slice(own);
            }
            bytes[place..][NUMBER].copy_from_slice(&own[..4]);
            bytes[place..][NUMBER.end..NUMBER_AND_PORT.end].copy_from_slice(&PORT.to_ne_bytes());
        }
        bytes
    }
}

impl Recording {
    pub(super) fn play(&self) -> MutexGuard<'_, Play> {
        self.play.lock().unwrap_or_else(PoisonError::into_inner)
    }
}

impl Link for Recording {
    fn port(&self) -> u32 {
        PORT
    }

    fn send(&self, datagram: &[u8]) -> Result<(), SocketError> {
        Ok(self.play().send(&self.frames, datagram)?)
    }

    fn receive(&self, room: &mut Vec<u8>) -> Result<Option<Arrived>, SocketError> {
        let mut play = self.play();
        let Some(at) = play.next(&self.frames) else { return Ok(None) };
        play.past.insert(at);
        let group = match self.frames[at].way {
            Way::Fault(number) => return Err(io::Error::from_raw_os_error(number).into()),
            Way::Group(0) => SOME_GROUP,
            Way::Group(group) => group,
            Way::Sent(_) | Way::Received => 0,
        };
        Ok(Some(Arrived::into_room(room, &play.rewritten(&self.frames, at), group)))
    }

    fn wait(&self, _limit: Option<Duration>) -> Result<(), SocketError> {
        self.play().next(&self.frames).map(|_| ()).ok_or(SocketError::Ended)
    }

    fn family(&self) -> NlFamily {
        self.family
    }

    fn set_membership(&self, group: u32, is_member: bool) -> Result<(), SocketError> {
        let mut play = self.play();
        if is_member {
            play.groups.insert(group)
        } else {
            play.groups.remove(&group)
        };
        Ok(())
    }

    fn memberships(&self) -> Result<NetlinkBitArray, SocketError> {
        Ok(NetlinkBitArray::of_groups(self.play().groups.iter().copied()))
    }

    fn set_option(&self, option: LinkOption, enable: bool) -> Result<(), SocketError> {
        let mut play = self.play();
        if enable {
            play.options.insert(option)
        } else {
            play.options.remove(&option)
        };
        Ok(())
    }

    fn option(&self, option: LinkOption) -> Result<bool, SocketError> {
        Ok(self.play().options.contains(&option))
    }
}
