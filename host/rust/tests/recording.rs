//! Clients over recordings: no kernel and no namespace. `recordings/` has datagrams of `suites/README.md`, each in a
//! frame that was packed field by field: 0154 to 0156 (a list of addresses, as `nlmon` records it), 0762 and 0763 (a
//! link's MTU of two bytes is refused), 0818 and 0819 (the answer of the controller about the family netdev).

use neli::ToBytes;
use neli::consts::nl::{NlmF, Nlmsg};
use neli::consts::rtnl::{Ifa, Ifla, RtAddrFamily, RtScope, Rtm};
use neli::consts::socket::NlFamily;
use neli::err::{RouterError, SocketError, Unrecorded};
use neli::link::{Arrived, Link};
use neli::nl::NlPayload;
use neli::recording::{PcapError, Recorder, Recording, Way};
use neli::router::lending::LendingRouter;
use neli::router::synchronous::{Loss, Missed, NlRouter, Notice, Verdict};
use neli::rtnl::{Ifaddrmsg, IfaddrmsgBuilder, Ifinfomsg, IfinfomsgBuilder, RtattrBuilder};
use neli::types::Buffer;
use std::io::{self, ErrorKind};
use std::net::Ipv4Addr;
use std::sync::atomic::{AtomicBool, AtomicI32, Ordering};
use std::sync::{Arc, Mutex};
use std::time::Duration;

type Outcome = Result<(), Box<dyn std::error::Error>>;

const ADDRESSES: &[u8] = include_bytes!("recordings/addresses.pcap");
const MTU: &[u8] = include_bytes!("recordings/mtu.pcap");
const NETDEV: &[u8] = include_bytes!("recordings/netdev.pcap");

/// As pyroute2 reads the datagram 0155: index, `IFA_LOCAL` and the length of the prefix.
const LISTED: [&str; 6] =
    ["1 127.0.0.1/8", "3 192.0.2.1/24", "3 192.0.2.2/24", "4 198.51.100.1/24", "4 203.0.113.1/32", "5 10.9.0.1/16"];

fn routing(file: &[u8]) -> Result<Recording, PcapError> {
    Recording::from_pcap(file, NlFamily::Route)
}

/// The body of a request for all IPv4 addresses.
fn all_addresses() -> Result<NlPayload<Rtm, Ifaddrmsg>, RouterError> {
    let all = IfaddrmsgBuilder::default().ifa_family(RtAddrFamily::Inet).ifa_scope(RtScope::Universe);
    Ok(NlPayload::Payload(all.ifa_prefixlen(0).ifa_index(0).build()?))
}

/// The client: it lists IPv4 addresses.
fn addresses(router: &NlRouter<impl Link + 'static>) -> Result<(Vec<String>, Verdict), RouterError> {
    let dump = router.dump::<_, _, Rtm, Ifaddrmsg>(Rtm::Getaddr, NlmF::empty(), all_addresses()?, 1)?;
    let mut found = Vec::new();
    for body in dump.messages.iter().filter_map(|it| it.get_payload()) {
        let local: [u8; 4] = body.rtattrs().get_attr_handle().get_attr_payload_as(Ifa::Local)?;
        found.push(format!("{} {}/{}", body.ifa_index(), Ipv4Addr::from(local), body.ifa_prefixlen()));
    }
    Ok((found, dump.verdict))
}

fn listed() -> Vec<String> {
    LISTED.map(str::to_owned).to_vec()
}

#[test]
fn a_list_is_played_with_the_numbers_of_its_client() -> Outcome {
    for first in [0, 1005, u32::MAX - 1] {
        let (router, _) = NlRouter::over(routing(ADDRESSES)?)?;
        router.set_next_seq(first);
        assert_eq!(addresses(&router)?, (listed(), Verdict::Complete), "number {first}");
        assert!(router.link().is_over());
    }
    Ok(())
}

#[test]
fn a_refusal_is_played_with_its_text_and_its_offset() -> Outcome {
    let (router, _) = NlRouter::over(routing(MTU)?)?;
    let mtu = RtattrBuilder::default().rta_type(Ifla::Mtu).rta_payload(1500u16).build()?;
    let link = IfinfomsgBuilder::default()
        .ifi_family(RtAddrFamily::Unspecified)
        .ifi_index(3)
        .rtattrs([mtu].into_iter().collect())
        .build()?;
    let mut replies = router.send::<_, _, Rtm, Ifinfomsg>(Rtm::Setlink, NlmF::ACK, NlPayload::Payload(link))?;
    let Some(Err(RouterError::Nlmsgerr(answer))) = replies.next() else { return Err("it is not refused".into()) };
    // ERANGE, the text and the place of IFLA_MTU, as libmnl reads the datagram 0763.
    assert_eq!((answer.error(), answer.offset()), (-34, Some(32)));
    assert_eq!(answer.text().as_deref(), Some("Attribute failed policy validation"));
    // The header that it answers is that of the client's request.
    assert_eq!((answer.nlmsg().nl_len(), *answer.nlmsg().nl_seq()), (40, 0));
    assert_eq!(replies.verdict(), Verdict::Failed(-34));
    Ok(())
}

#[test]
fn names_are_resolved_over_a_recording() -> Outcome {
    let recording = Recording::from_pcap(NETDEV, NlFamily::Generic)?;
    let (router, _) = NlRouter::over(recording.clone())?;
    assert_eq!(router.resolve_nl_mcast_group("netdev", "page-pool")?, 5);
    assert!(router.link().is_over());
    let (router, _) = NlRouter::over(recording)?;
    assert_eq!(router.resolve_genl_family("netdev")?, 20);
    assert!(router.link().is_over());
    Ok(())
}

#[test]
fn a_file_has_several_families() -> Outcome {
    let both = [ADDRESSES, &NETDEV[24..]].concat();
    assert_eq!(routing(&both)?.frames(), routing(ADDRESSES)?.frames());
    assert_eq!(Recording::from_pcap(&both, NlFamily::Generic)?.frames().len(), 2);
    Ok(())
}

#[test]
fn a_request_that_differs_is_refused_with_its_place() -> Outcome {
    let (router, _) = NlRouter::over(routing(ADDRESSES)?)?;
    let all = IfinfomsgBuilder::default().ifi_family(RtAddrFamily::Unspecified).build()?;
    let sent = router.send::<_, _, Rtm, Ifinfomsg>(Rtm::Getlink, NlmF::DUMP, NlPayload::Payload(all));
    // The length: 32 in place of 24.
    let Err(RouterError::Socket(SocketError::Unrecorded(why))) = sent else { return Err("it is sent".into()) };
    assert_eq!(why, Unrecorded::Differs { at: 0 });
    assert_eq!(why.to_string(), "the request differs at byte 0 from the one that the recording has next");
    assert_eq!(addresses(&router)?.0, listed(), "the recorded one is taken afterwards");
    let Err(RouterError::Socket(error)) = addresses(&router) else { return Err("it is sent twice".into()) };
    assert!(matches!(error, SocketError::Unrecorded(Unrecorded::Past)), "{error}");
    Ok(())
}

#[test]
fn an_answer_that_lacks_its_end_is_not_complete() -> Outcome {
    let mut cut = Recording::new(NlFamily::Route);
    cut.extend(routing(ADDRESSES)?.frames()[..2].iter().cloned());
    let (router, _) = NlRouter::over(cut)?;
    assert_eq!(addresses(&router)?, (listed(), Verdict::Lost(Loss::Unended)));
    Ok(())
}

#[test]
fn datagrams_alone_answer_each_request_in_order() -> Outcome {
    let frames = routing(ADDRESSES)?;
    let answers = &frames.frames()[1..];
    let mut recording = Recording::new(NlFamily::Route);
    // Two lists, whose numbers differ: the second has 7 in place of 1005.
    for number in [1005u32, 7] {
        for frame in answers {
            let mut frame = frame.clone();
            let mut place = 0;
            while place < frame.bytes.len() {
                frame.bytes[place + 8..place + 12].copy_from_slice(&number.to_ne_bytes());
                place += frame.bytes[place] as usize;
            }
            recording = recording.received(frame.bytes);
        }
    }
    let (router, _) = NlRouter::over(recording)?;
    for _ in 0..2 {
        assert_eq!(addresses(&router)?, (listed(), Verdict::Complete));
    }
    assert!(router.link().is_over());
    Ok(())
}

/// A notification, by hand from linux/netlink.h: length 16, type 16, flags 0, number and port 0.
const NOTIFICATION: [u8; 16] = [16, 0, 0, 0, 16, 0, 0, 0, 0, 0, 0, 0, 0, 0, 0, 0];

#[test]
fn notifications_and_losses_come_in_their_places() -> Outcome {
    const ENOBUFS: i32 = 105;
    let mut recording = Recording::new(NlFamily::Route).to_group(1, NOTIFICATION).fault(ENOBUFS);
    recording.extend(routing(ADDRESSES)?.frames().iter().cloned());
    let (router, mut multicast) = NlRouter::over(recording.to_group(0, NOTIFICATION))?;
    assert!(matches!(multicast.listen::<u16, Buffer>()?, Notice::Message(it) if *it.nl_type() == 16));
    assert!(matches!(multicast.listen::<u16, Buffer>()?, Notice::Missed(Missed::Overrun)));
    // The other one was recorded after the request.
    assert!(matches!(multicast.listen::<u16, Buffer>(), Err(RouterError::Socket(SocketError::Ended))));
    assert_eq!(addresses(&router)?.0, listed());
    assert!(matches!(multicast.listen::<u16, Buffer>()?, Notice::Message(it) if *it.nl_type() == 16));
    assert!(router.link().is_over());
    Ok(())
}

#[test]
fn a_recorder_keeps_what_a_recording_plays() -> Outcome {
    let recorder = Arc::new(Recorder::new(routing(ADDRESSES)?));
    let (router, _) = NlRouter::over(Arc::clone(&recorder))?;
    router.set_next_seq(1005);
    assert_eq!(addresses(&router)?.0, listed());
    let recording = recorder.recording();
    let ways: Vec<Way> = recording.frames().iter().map(|it| it.way).collect();
    assert_eq!(ways, [Way::Sent(router.pid()), Way::Received, Way::Received]);
    let mut file = Vec::new();
    recording.write_pcap(&mut file)?;
    let read = routing(&file)?;
    let bytes = |it: &Recording| it.frames().iter().map(|it| (it.way, it.bytes.clone())).collect::<Vec<_>>();
    assert_eq!(bytes(&read), bytes(&recording));
    let (router, _) = NlRouter::over(read)?;
    assert_eq!(addresses(&router)?, (listed(), Verdict::Complete));
    Ok(())
}

#[test]
fn a_group_is_kept_in_a_file() -> Outcome {
    let recording = Recording::new(NlFamily::Route).to_group(0x12345, NOTIFICATION).to_group(0, NOTIFICATION);
    let mut file = Vec::new();
    recording.write_pcap(&mut file)?;
    assert_eq!(routing(&file)?.frames(), recording.frames());
    Ok(())
}

#[test]
fn files_are_refused_by_what_is_wrong() -> Outcome {
    let mut other = ADDRESSES.to_vec();
    other[20] = 113;
    let mut snapped = ADDRESSES.to_vec();
    snapped[36] += 1;
    let mut ether = ADDRESSES.to_vec();
    ether[42..44].copy_from_slice(&[0, 1]);
    let rows: [(&[u8], PcapError); 7] = [
        (b"", PcapError::Header),
        (b"no pcap file, but text of its length", PcapError::Header),
        (&ADDRESSES[..23], PcapError::Header),
        (&other, PcapError::LinkType(113)),
        (&ADDRESSES[..ADDRESSES.len() - 1], PcapError::Short(592)),
        (&snapped, PcapError::Snapped(24)),
        (&ether, PcapError::NotNetlink(24)),
    ];
    for (file, wanted) in rows {
        assert_eq!(routing(file).err(), Some(wanted), "{wanted}");
    }
    Ok(())
}

#[test]
fn the_other_byte_order_and_nanoseconds_are_read() -> Outcome {
    let mut file = ADDRESSES.to_vec();
    // The magic number of nanoseconds, and the first frame's fraction.
    file[..4].copy_from_slice(&0xa1b2_3c4du32.to_le_bytes());
    file[28..32].copy_from_slice(&5u32.to_le_bytes());
    assert_eq!(routing(&file)?.frames()[0].time.subsec_nanos(), 5);
    // A file of one frame, all of whose numbers are turned: the header's, and the frame's.
    let mut file = ADDRESSES[..24 + 16 + 16 + 24].to_vec();
    for place in [0, 8, 12, 16, 20, 24, 28, 32, 36] {
        file[place..place + 4].reverse();
    }
    assert_eq!(routing(&file)?.frames(), &routing(ADDRESSES)?.frames()[..1]);
    Ok(())
}

#[test]
fn what_a_recording_has_is_lent() -> Outcome {
    let (mut router, _multicast) = LendingRouter::over(routing(ADDRESSES)?)?;
    let addresses = router.send(Rtm::Getaddr, NlmF::DUMP, all_addresses()?)?;
    let mut labels = String::new();
    while let Some(message) = router.lend_next(&addresses)? {
        if message.nl_type() == u16::from(Rtm::Newaddr) {
            // struct ifaddrmsg has 8 bytes.
            if let Some(label) = message.get_attrs(8)?.get_attribute(Ifa::Label)? {
                labels += label.get_str()?;
                labels.push(' ');
            }
        }
        router.pass(&addresses)?;
    }
    assert_eq!(labels, "lo veth0 veth0:x veth2 veth2 br0 ");
    assert_eq!(router.verdict(&addresses), Verdict::Complete);
    Ok(())
}

/// Answers the request with the number 0 by a message with 17 bytes of payload, of which so many bytes come.
#[derive(Debug)]
struct Cut(Mutex<Option<usize>>);

impl Link for Cut {
    fn port(&self) -> u32 {
        3
    }

    fn send(&self, _datagram: &[u8]) -> Result<(), SocketError> {
        Ok(())
    }

    fn receive(&self, room: &mut Vec<u8>) -> Result<Option<Arrived>, SocketError> {
        let head = [33u32, 16, 0, self.port()].map(u32::to_ne_bytes).concat();
        let came = self.0.lock().map_err(|_| SocketError::Ended)?.take();
        Ok(came.map(|it| Arrived::into_room(room, &[&head[..], &[9; 24]].concat()[..it], 0)))
    }
}

#[test]
fn a_last_padding_is_completed() -> Outcome {
    let rows =
        [(31, 0, true), (32, 0, true), (33, 1, false), (34, 1, false), (35, 1, false), (36, 1, false), (37, 1, true)];
    for (came, count, is_cut) in rows {
        let (router, _multicast) = NlRouter::over(Cut(Mutex::new(Some(came))))?;
        let mut replies = router.send::<_, Buffer, u16, Buffer>(Rtm::Getlink, NlmF::ACK, NlPayload::Empty)?;
        let (found, errors): (Vec<_>, Vec<_>) = replies.by_ref().partition(Result::is_ok);
        assert_eq!((found.len(), errors.len()), (count, usize::from(is_cut)), "{came} bytes");
        assert_eq!(replies.verdict(), Verdict::Lost(if is_cut { Loss::Datagram } else { Loss::Unended }));
        for reply in found {
            assert_eq!(reply?.get_payload().map(|it| it.as_ref().to_vec()), Some(vec![9; 17]), "{came} bytes");
        }
    }
    Ok(())
}

#[test]
fn a_list_is_requested_again_after_a_loss() -> Outcome {
    for (times, verdict) in [(1, Verdict::Lost(Loss::Link)), (2, Verdict::Complete)] {
        let whole = routing(ADDRESSES)?;
        let mut recording = Recording::new(NlFamily::Route).sent(whole.frames()[0].bytes.clone()).fault(105);
        recording.extend(whole.frames().iter().cloned());
        let (router, _multicast) = NlRouter::over(recording)?;
        let list = router.dump::<_, _, u16, Buffer>(Rtm::Getaddr, NlmF::empty(), all_addresses()?, times)?;
        assert_eq!(list.verdict, verdict);
    }
    Ok(())
}

/// Answers nothing, and says how it was called.
#[derive(Debug)]
struct Silent;

impl Link for Silent {
    fn port(&self) -> u32 {
        3
    }

    fn send(&self, _datagram: &[u8]) -> Result<(), SocketError> {
        Ok(())
    }

    fn receive(&self, _room: &mut Vec<u8>) -> Result<Option<Arrived>, SocketError> {
        Ok(None)
    }
}

/// A link on which a notification for a group has always arrived.
#[derive(Debug)]
struct Flooded(Option<Duration>);

impl Link for Flooded {
    fn port(&self) -> u32 {
        3
    }

    fn send(&self, _datagram: &[u8]) -> Result<(), SocketError> {
        Ok(())
    }

    fn receive(&self, room: &mut Vec<u8>) -> Result<Option<Arrived>, SocketError> {
        Ok(Some(Arrived::into_room(room, &NOTIFICATION, 1)))
    }

    fn limit(&self) -> Option<Duration> {
        self.0
    }
}

#[test]
fn a_wait_has_an_end_while_more_arrives() -> Outcome {
    let is_over = |it: &SocketError| matches!(it, SocketError::Io(it) if it.kind() == ErrorKind::WouldBlock);
    let (router, _multicast) = NlRouter::over(Flooded(Some(Duration::from_millis(5))))?;
    let mut replies = router.send::<_, Buffer, u16, Buffer>(Nlmsg::Noop, NlmF::ACK, NlPayload::Empty)?;
    assert!(matches!(replies.next(), Some(Err(RouterError::Socket(it))) if is_over(&it)));
    let (mut router, _multicast) = LendingRouter::over(Flooded(Some(Duration::from_millis(5))))?;
    let handle = router.send::<_, Buffer>(Nlmsg::Noop, NlmF::ACK, NlPayload::Empty)?;
    assert!(matches!(router.lend_next(&handle), Err(RouterError::Socket(it)) if is_over(&it)));
    Ok(())
}

/// A link with one fault more at each receive that follows a request: numbers of the system from 1 on.
#[derive(Debug, Default)]
struct Faulty(AtomicI32, AtomicBool);

impl Link for Faulty {
    fn port(&self) -> u32 {
        3
    }

    fn send(&self, _datagram: &[u8]) -> Result<(), SocketError> {
        self.1.store(true, Ordering::Relaxed);
        Ok(())
    }

    fn receive(&self, _room: &mut Vec<u8>) -> Result<Option<Arrived>, SocketError> {
        if !self.1.swap(false, Ordering::Relaxed) {
            return Ok(None);
        }
        Err(SocketError::Io(io::Error::from_raw_os_error(self.0.fetch_add(1, Ordering::Relaxed) + 1)))
    }
}

#[test]
fn each_request_has_its_own_fault() -> Outcome {
    let number = |error: RouterError| match error {
        RouterError::Socket(SocketError::Io(it)) => it.raw_os_error(),
        _ => None,
    };
    let (router, mut multicast) = NlRouter::over(Faulty::default())?;
    let mut handles = Vec::new();
    for fault in 1..=3 {
        handles.push(router.send::<_, Buffer, u16, Buffer>(Nlmsg::Noop, NlmF::ACK, NlPayload::Empty)?);
        assert_eq!(multicast.next().and_then(|it| it.err().and_then(number)), Some(fault));
    }
    let found: Vec<_> = handles.iter_mut().map(|it| it.next().and_then(|it| it.err().and_then(number))).collect();
    assert_eq!(found, [Some(1), Some(2), Some(3)]);
    Ok(())
}

#[test]
fn a_link_on_which_nothing_comes_ends_each_request_and_each_wait() -> Outcome {
    let (router, mut multicast) = NlRouter::over(Box::new(Silent) as Box<dyn Link>)?;
    assert_eq!(router.pid(), 3);
    let mut replies = router.send::<_, Buffer, u16, Buffer>(Nlmsg::Noop, NlmF::ACK, NlPayload::Empty)?;
    assert_eq!(replies.verdict(), Verdict::Pending);
    assert!(replies.next().is_none() && replies.verdict() == Verdict::Lost(Loss::Unended));
    assert!(matches!(multicast.next(), Some(Err(RouterError::Socket(SocketError::Ended)))));
    assert!(multicast.next().is_none());
    let mut written = Vec::new();
    Buffer::from(&NOTIFICATION[..]).to_bytes(&mut written)?;
    assert_eq!(written, NOTIFICATION);
    Ok(())
}
