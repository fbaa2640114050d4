//! Examples of the pages of docs/, line by line; `tests/pages` compares them with the pages.
//!
//! Expected bytes are those of recorded datagrams, whose numbers are those of suites/README.md, or were worked out by
//! hand from the kernel's headers.

use neli::consts::rtnl::{Ifla, Rtm};
use neli::lent::LentMessage;
use neli::nl::Nlmsghdr;
use neli::router::synchronous::{Log, NlRouter, NlRouterReceiverHandle, Reply};
use neli::rtnl::Ifinfomsg;
use neli::schema::Tables;
use neli::types::{Buffer, RtBuffer};
use neli::{Cursor, FromBytes, ToBytes};
use std::alloc::Global;
use std::test::Fail;

/// A request for a bridge, as iproute2 sends it (1090).
const BRIDGE: &[u8] =
    b"\x54\0\0\0\x10\0\x05\x06\x6b\x99\x02\x6b\0\0\0\0\0\0\0\0\0\0\0\0\0\0\0\0\0\0\0\0\
    \x08\0\x03\0br0\0\x2c\0\x12\0\x0a\0\x01\0bridge\0\0\x1c\0\x02\0\x05\0\x17\0\x01\0\0\0\x08\0\x05\0\x01\0\0\0\
    \x06\0\x06\0\x05\0\0\0";

/// A port of a bridge, with some of the attributes of docs/ATTRIBUTES.md: its name, its MTU, and its state in
/// `IFLA_PROTINFO`, which is marked as nested.
const PORT: &[u8] = b"\x40\0\0\0\x10\0\0\0\x01\0\0\0\0\0\0\0\x07\0\0\0\x02\0\0\0\0\0\0\0\0\0\0\0\
    \x0a\0\x03\0veth1\0\0\0\x08\0\x04\0\xdc\x05\0\0\x0c\0\x0c\x80\x05\0\x01\0\x03\0\0\0";

/// A body of `RTM_NEWLINK` with `IFLA_LINKINFO` (18) around `IFLA_INFO_KIND` (1), then an `IFLA_MTU` (4) of two bytes,
/// and a byte that is no attribute (`linux/if_link.h`).
const LINK: &[u8] = b"\0\0\x01\0\x02\0\0\0\0\0\0\0\0\0\0\0\
    \x10\0\x12\0\x0a\0\x01\0dummy\0\0\0\x06\0\x04\0\xdc\x05\0\0\x07";

/// The attributes of a refusal: the kernel's text, and the offset of `IFLA_MTU` in a message with the body above.
const REFUSED: &[u8] = b"\x09\0\x01\0nope\0\0\0\0\x08\0\x02\0\x30\0\0\0";

/// A bridge from the outside in.
fn bridge(alloc: Global) -> Result<RtBuffer<Ifla, Buffer>, Fail> {
    use neli::consts::linux::IflaBr;
    use neli::consts::rtnl::{Ifla, IflaInfo};
    use neli::short::Put;
    use neli::types::{Buffer, RtBuffer};

    let mut attrs: RtBuffer<Ifla, Buffer> = RtBuffer::new(alloc);
    attrs.put(alloc, Ifla::Ifname, "br0")?;
    attrs.put_nest(
        alloc,
        Ifla::Linkinfo,
        |info: &mut RtBuffer<IflaInfo, Buffer>| {
            info.put(alloc, IflaInfo::Kind, *b"bridge")?;
            info.put_nest(
                alloc,
                IflaInfo::Data,
                |settings: &mut RtBuffer<IflaBr, Buffer>| {
                    settings.put(alloc, IflaBr::McastSnooping, 1u8)?;
                    settings.put(alloc, IflaBr::StpState, 1u32)?;
                    settings.put(alloc, IflaBr::Priority, 5u16)
                },
            )
        },
    )?;
    Ok(attrs)
}

/// The request for it.
fn request(
    alloc: Global,
    router: &mut NlRouter,
    attrs: RtBuffer<Ifla, Buffer>,
) -> Result<Vec<u8>, Fail> {
    use neli::consts::nl::NlmF;
    use neli::consts::rtnl::{RtAddrFamily, Rtm};
    use neli::rtnl::IfinfomsgBuilder;
    use neli::short::Client;

    let link = IfinfomsgBuilder::default()
        .ifi_family(RtAddrFamily::Unspecified)
        .rtattrs(attrs)
        .build(alloc)?;
    let request = router.request(
        alloc,
        Rtm::Newlink,
        NlmF::CREATE | NlmF::EXCL | NlmF::ACK,
        link,
    )?;
    Ok(request.bytes)
}

#[test]
fn a_bridge_is_requested(rt: HostRuntime) -> Result<(), Fail> {
    let alloc = rt.alloc();
    let (mut router, _multicast) = NlRouter::<Log>::new(alloc, 0);
    router.set_next_seq(1795332459);
    let bytes = request(alloc, &mut router, bridge(alloc)?)?;
    assert_eq!(rt; bytes.as_slice(), BRIDGE);
    Ok(())
}

/// What is read of a link.
type Seen = (Option<u32>, Option<String>, Option<u8>);

fn looked_up(alloc: Global, link: &Ifinfomsg) -> Result<Seen, Fail> {
    use neli::consts::rtnl::Ifla;
    use neli::short::Lookup;

    let mtu: Option<u32> = link.rtattrs().get(alloc, Ifla::Mtu)?;
    let name: Option<String> = link.rtattrs().get_with_len(alloc, Ifla::Ifname)?;
    // The state of a bridge's port: 1 in `IFLA_PROTINFO`, which the kernel marks as nested.
    let state: Option<u8> = link.rtattrs().get_path(alloc, &[12, 1])?;
    Ok((mtu, name, state))
}

#[test]
fn a_port_is_read(rt: HostRuntime) -> Result<(), Fail> {
    let alloc = rt.alloc();
    let message = Nlmsghdr::<u16, Ifinfomsg>::from_bytes(alloc, &mut Cursor::new(PORT))?;
    let (mtu, name, state) = looked_up(alloc, message.get_payload().expect(&rt, "a link"))?;
    assert_eq!(rt; (mtu, state), (Some(1500), Some(3)));
    assert_eq!(rt; name.expect(&rt, "a name").as_str(), "veth1");
    Ok(())
}

/// The same of a lent message.
fn lent(datagram: &[u8]) -> Result<(Option<u32>, Option<&str>, Option<u8>), Fail> {
    use neli::consts::rtnl::Ifla;
    use neli::short::LentLookup;

    let message = LentMessage::<u16>::lend(&mut Cursor::new(datagram))?;
    let attrs = message.get_attrs::<Ifinfomsg, Ifla>()?;
    let mtu: Option<u32> = attrs.get(Ifla::Mtu)?;
    let name: Option<&str> = attrs.get_str(Ifla::Ifname)?;
    let state: Option<u8> = attrs.get_path(&[12, 1])?;
    Ok((mtu, name, state))
}

#[test]
fn a_lent_port_is_read(rt: HostRuntime) -> Result<(), Fail> {
    assert_eq!(rt; lent(PORT)?, (Some(1500), Some("veth1"), Some(3)));
    Ok(())
}

/// A datagram of a dump for the first request of a router with port 7: a link with `IFLA_MASTER` (10), and one without
/// (`linux/if_link.h`).
const LINKS: &[u8] = b"\x28\0\0\0\x10\0\x02\0\0\0\0\0\x07\0\0\0\0\0\0\0\x02\0\0\0\0\0\0\0\0\0\0\0\
    \x08\0\x0a\0\x05\0\0\0\
    \x20\0\0\0\x10\0\x02\0\0\0\0\0\x07\0\0\0\0\0\0\0\x03\0\0\0\0\0\0\0\0\0\0\0";

/// How many of the links that wait belong to another, and what an owned read returns then.
fn ports_that_wait(
    alloc: Global,
    router: &mut NlRouter,
    mut handle: NlRouterReceiverHandle<Rtm, Ifinfomsg>,
) -> Result<(u32, Reply<Rtm, Ifinfomsg>), Fail> {
    use neli::consts::rtnl::{Ifla, Rtm};
    use neli::router::synchronous::LentReply;
    use neli::rtnl::Ifinfomsg;

    let mut ports = 0u32;
    while let LentReply::Item(Ok(message)) = router.lend_next(&handle) {
        let attrs = message.get_attrs::<Ifinfomsg, Ifla>()?;
        if attrs.get_attribute(Ifla::Master)?.is_some() {
            ports += 1;
        }
        router.pass(&mut handle);
    }
    // An error, the end, or a wait: an owned read returns it too.
    let reply = router.next_typed::<Rtm, Ifinfomsg, _, _>(alloc, &mut handle)?;
    Ok((ports, reply))
}

#[test]
fn ports_are_counted_where_they_wait(rt: HostRuntime) -> Result<(), Fail> {
    use neli::consts::nl::NlmF;
    use neli::consts::rtnl::RtAddrFamily;
    use neli::rtnl::IfinfomsgBuilder;
    use neli::short::Client;

    let alloc = rt.alloc();
    let (mut router, _multicast) = NlRouter::<Log>::new(alloc, 7);
    let all = IfinfomsgBuilder::default()
        .ifi_family(RtAddrFamily::Unspecified)
        .build(alloc)?;
    let request = router.request(alloc, Rtm::Getlink, NlmF::DUMP, all)?;
    router.receive_for(alloc, LINKS, &[])?;
    let (ports, reply) = ports_that_wait(alloc, &mut router, request.handle)?;
    assert_eq!(rt; ports, 1);
    assert!(rt; matches!(reply, Reply::Waits));
    Ok(())
}

/// The attributes of an extended acknowledgement.
fn words(alloc: Global) -> Result<Vec<u8>, Fail> {
    use neli::short::ExtAckBuilder;

    let attrs = ExtAckBuilder::default()
        .text("Invalid header length")
        .offset(16)
        .build(alloc)?;
    let mut bytes = Vec::new(alloc);
    attrs.to_bytes(&mut bytes)?;
    Ok(bytes)
}

#[test]
fn an_answer_has_words(rt: HostRuntime) -> Result<(), Fail> {
    let want = b"\x1a\0\x01\0Invalid header length\0\0\0\x08\0\x02\0\x10\0\0\0".as_slice();
    assert_eq!(rt; words(rt.alloc())?.as_slice(), want);
    Ok(())
}

/// Whether a table has what a message carries: a structure, and the set of its attributes.
fn found(alloc: Global, text: &'static [u8], body: &[u8]) -> Result<(bool, bool), Fail> {
    use neli::schema::{Table, Tables, Way};

    let mut tables = Tables::new(alloc);
    tables.add(Table::read(alloc, text)?)?;

    // RTM_NEWLINK, in the first table of NETLINK_ROUTE that has it.
    if let Some(found) = tables.message(0, Way::Reply, body.first().copied(), 16)
        && let Some(table) = tables.table(found.table)
        && let Some(message) = table.options(found.line)
    {
        // message.after: the structure at the front of the body; message.of: the set of its attributes
        return Ok((message.after.is_some(), message.of.is_some()));
    }
    Ok((false, false))
}

#[test]
fn a_table_has_links(rt: HostRuntime) -> Result<(), Fail> {
    let text = neli::schema::RoutingTable::RtLink.text();
    assert_eq!(rt; found(rt.alloc(), text, LINK)?, (true, true));
    Ok(())
}

/// How many attributes a walk over a body returns, and how many bytes that are none.
fn walked(body: &neli::schema::Body<'_, '_, '_>) -> (usize, usize) {
    let (mut attributes, mut bytes) = (0usize, 0usize);
    if let Some(walk) = body.walk() {
        for item in walk {
            match item.content {
                Ok(it) => { /* item.path.steps(), it.kind, it.payload, it.shape */
                    attributes = attributes.saturating_add(usize::from(!it.payload.is_empty()));
                }
                Err(rest) => { /* rest.bytes follow the attributes of the nest at item.path */
                    bytes = bytes.saturating_add(rest.bytes.len());
                }
            }
        }
    }
    (attributes, bytes)
}

/// The lines of a request that is checked, of the attribute at an offset, and of a refusal.
fn checked(
    alloc: Global,
    body: &neli::schema::Body<'_, '_, '_>,
    offset: usize,
    attributes: &[u8],
) -> Result<[Option<String>; 3], Fail> {
    use neli::schema::{Refusal, check, find};

    // IFLA_MTU: shorter than 4 bytes
    let violation = check(&body)
        .err()
        .map(|it| it.to_string(alloc))
        .transpose()?;
    // NLMSGERR_ATTR_OFFS of the answer: IFLA_LINKINFO.IFLA_INFO_KIND
    let place = find(&body, offset)
        .map(|it| it.to_string(alloc))
        .transpose()?;
    // ERANGE: Numerical result out of range: nope: IFLA_MTU
    let refusal = Refusal::of(&body, 34, attributes).to_string(alloc)?;
    Ok([violation, place, Some(refusal)])
}

#[test]
fn a_request_is_checked(rt: HostRuntime) -> Result<(), Fail> {
    use neli::schema::{Head, body_of, built_in};

    let alloc = rt.alloc();
    let tables = built_in(alloc)?;
    let head = Head {
        protocol: 0,
        message_type: 16,
        flags: neli::consts::nl::NlmF::REQUEST,
    };
    let body = body_of(&tables, head, LINK);
    assert_eq!(rt; walked(&body), (3, 1));
    let [violation, place, refusal] = checked(alloc, &body, 36, REFUSED)?;
    assert_eq!(rt;
        violation.as_deref(),
        Some("IFLA_MTU: shorter than 4 bytes")
    );
    assert_eq!(rt; place.as_deref(), Some("IFLA_LINKINFO.IFLA_INFO_KIND"));
    assert_eq!(rt;
        refusal.as_deref(),
        Some("ERANGE: Numerical result out of range: nope: IFLA_MTU")
    );
    Ok(())
}

/// Whether the built-in tables have a line of a message.
fn has_line(alloc: Global, message: &LentMessage<'_, u16>) -> Result<bool, Fail> {
    use neli::schema::{Head, body_of, built_in};

    let tables = built_in(alloc)?;
    let head = Head {
        protocol: 0,
        message_type: *message.nl_type(),
        flags: *message.nl_flags(),
    };
    let body = body_of(&tables, head, message.nl_payload());
    Ok(body.line.is_some())
}

/// Why a request was refused, by the answer.
fn reason(
    alloc: Global,
    tables: Tables<'_>,
    sent: &[u8],
    answer: &[u8],
) -> Result<Option<String>, Fail> {
    use neli::Cursor;
    use neli::lent::LentMessage;
    use neli::schema::{Head, Refusal, body_of, find};
    use neli::short::ExtAck;

    let protocol = 0;
    let mut answer = Nlmsghdr::<u16, Buffer>::from_bytes(alloc, &mut Cursor::new(answer))?;
    let Some(error) = answer.get_err() else {
        return Ok(None);
    };
    // `sent` is the request, `error` the answer, and `tables` those of its family.
    let request = LentMessage::<u16>::lend(&mut Cursor::new(sent))?;
    let head = Head {
        protocol,
        message_type: *request.nl_type(),
        flags: *request.nl_flags(),
    };
    let body = body_of(&tables, head, request.nl_payload());
    let refusal = Refusal {
        number: error.error().unsigned_abs(),
        text: error.text().map(|text| text.as_bytes()),
        place: error
            .offset()
            .and_then(|offset| find(&body, offset as usize)),
    };
    let line = refusal.to_string(alloc)?;
    Ok(Some(line))
}

#[test]
fn a_refusal_has_its_reason(rt: HostRuntime) -> Result<(), Fail> {
    let alloc = rt.alloc();
    assert_eq!(rt;
        has_line(alloc, &LentMessage::lend(&mut Cursor::new(PORT))?)?,
        true
    );
    // -22 (EINVAL), the request, and the attributes: NLMSG_ERROR with NLM_F_ACK_TLVS of `linux/netlink.h`.
    let mut answer = Vec::from_slice(
        alloc,
        b"\x68\0\0\0\x02\0\0\x02\x01\0\0\0\0\0\0\0\xea\xff\xff\xff",
    )?;
    answer.extend_from_slice(PORT)?;
    answer.extend_from_slice(REFUSED)?;
    let line = reason(alloc, neli::schema::built_in(alloc)?, PORT, &answer)?;
    assert_eq!(rt;
        line.as_deref(),
        Some("EINVAL: Invalid argument: nope: IFLA_MTU")
    );
    Ok(())
}

/// Replies of Linux 6.18 on netdev: the policy of NETDEV_CMD_QUEUE_GET (10), and its row of NETDEV_A_QUEUE_TYPE (3).
const POLICY: [&[u8]; 2] = [
    b"\x0a\x02\0\0\x18\0\x09\x80\x14\0\x0a\x80\x08\0\x01\0\x03\0\0\0\x08\0\x02\0\x04\0\0\0",
    b"\x0a\x02\0\0\x2c\0\x08\x80\x28\0\x03\x80\x24\0\x03\x80\x0c\0\x04\0\0\0\0\0\0\0\0\0\
    \x0c\0\x05\0\x01\0\0\0\0\0\0\0\x08\0\x01\0\x04\0\0\0",
];

/// What those policies do not allow of a request.
fn unmet(
    alloc: Global,
    command: u8,
    attributes: &[u8],
) -> Result<Option<neli::schema::Unmet>, Fail> {
    use neli::schema::Policies;

    let mut policies = Policies::new(alloc);
    for reply in POLICY {
        policies.take_in(alloc, reply)?; // the payload of each reply
    }
    let policy = policies.policy_of(command, false); // true: of a request that begins a dump
    let unmet = policy.and_then(|it| policies.check(it, attributes).err()); // offset 0: not from 0 to 1
    Ok(unmet)
}

#[test]
fn a_policy_of_the_kernel_is_met(rt: HostRuntime) -> Result<(), Fail> {
    let alloc = rt.alloc();
    assert_eq!(rt; unmet(alloc, 10, b"\x08\0\x03\0\x01\0\0\0")?, None);
    let found = unmet(alloc, 10, b"\x08\0\x03\0\x02\0\0\0")?.expect(&rt, "type 2 is none");
    assert_eq!(rt; found.offset, 0);
    assert_eq!(rt; found.wrong.to_string(alloc)?.as_str(), "not from 0 to 1");
    Ok(())
}
