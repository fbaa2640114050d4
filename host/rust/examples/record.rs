//! `record -c COUNT [-p PROTOCOL] [-m GROUP[,GROUP]..] FILE` writes the next COUNT datagrams that come to these multicast
//! groups into a pcap file with netlink's link type, for `neli_show`, tshark and Wireshark. The protocol is route,
//! generic, or a number of `linux/netlink.h`; the groups of route are those of links, IPv4 addresses and IPv4 routes
//! where none are named. Where some were lost it says so, goes on, and ends with status 4.

mod status;

use neli::consts::socket::NlFamily;
use neli::err::SocketError;
use neli::link::Link;
use neli::recording::Recorder;
use neli::socket::synchronous::NlSocketHandle;
use neli::utils::Groups;
use std::fs::File;
use std::io::BufWriter;
use std::process::ExitCode;

const USAGE: &str = "usage: record -c COUNT [-p PROTOCOL] [-m GROUP[,GROUP]..] FILE";

/// `RTNLGRP_LINK`, `RTNLGRP_IPV4_IFADDR` and `RTNLGRP_IPV4_ROUTE` of `linux/rtnetlink.h`.
const GROUPS: [u32; 3] = [1, 5, 7];

/// `ENOBUFS` of `errno.h`.
const OVERRUN: i32 = 105;

/// What the words of the call ask for.
struct Asked {
    count: usize,
    family: NlFamily,
    groups: Groups,
    path: String,
}

fn family(word: &str) -> status::Result<NlFamily> {
    match word {
        "route" => Ok(NlFamily::Route),
        "generic" => Ok(NlFamily::Generic),
        number => Ok(NlFamily::from(number.parse::<i32>()?)),
    }
}

fn asked() -> status::Result<Asked> {
    let (mut count, mut named, mut groups, mut path) = (None, NlFamily::Route, Groups::empty(), None);
    let mut words = std::env::args().skip(1);
    while let Some(word) = words.next() {
        match word.as_str() {
            "-c" => count = Some(words.next().ok_or(USAGE)?.parse()?),
            "-p" => named = family(&words.next().ok_or(USAGE)?)?,
            "-m" => {
                let numbers: Result<Vec<u32>, _> = words.next().ok_or(USAGE)?.split(',').map(str::parse).collect();
                groups.add_groups(&numbers?);
            }
            _ => path = Some(word),
        }
    }
    if groups.is_empty() && named == NlFamily::Route {
        groups = Groups::new_groups(&GROUPS);
    }
    match (count, path) {
        (Some(count), Some(path)) if !groups.is_empty() => Ok(Asked { count, family: named, groups, path }),
        _ => Err(USAGE.into()),
    }
}

fn run() -> status::Result<u8> {
    let Asked { count, family, groups, path } = asked()?;
    let mut file = BufWriter::new(File::create(path)?);
    let recorder = Recorder::new(NlSocketHandle::connect(family, None, groups).map_err(status::not_begun)?);
    println!("recording");
    let (mut left, mut room, mut ends_with) = (count, Vec::new(), status::COMPLETE);
    while left > 0 {
        match recorder.receive(&mut room) {
            Ok(Some(_)) => left -= 1,
            Ok(None) => recorder.wait(None)?,
            Err(SocketError::Io(error)) if error.raw_os_error() == Some(OVERRUN) => {
                eprintln!("record: lost some: {error}");
                ends_with = status::LOST;
            }
            Err(error) => return Err(error.into()),
        }
    }
    recorder.recording().write_pcap(&mut file)?;
    Ok(ends_with)
}

fn main() -> ExitCode {
    status::end("record", run())
}
