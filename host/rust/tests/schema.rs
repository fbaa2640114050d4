//! Messages by name: what a schema says of a link that is to be made. Names and numbers are those of
//! `linux/rtnetlink.h` and `linux/if_link.h`.

use neli::ToBytes;
use neli::consts::nl::NlmF;
use neli::consts::rtnl::{Ifla, IflaInfo, RtAddrFamily, Rtm};
use neli::consts::socket::NlFamily;
use neli::err::{Refusal, RouterError, SerError};
use neli::nl::{NlPayload, NlmsghdrBuilder};
use neli::router::synchronous::NlRouter;
use neli::rtnl::{Ifinfomsg, IfinfomsgBuilder, RtattrBuilder};
use neli::schema::{Kind, Schema, SchemaError};
use neli::simulator::{Kernel, Request};
use neli::types::Buffer;
use std::error::Error;
use std::time::Instant;

/// An attribute with its padding.
fn attribute(number: u16, payload: &[u8]) -> Vec<u8> {
    let mut bytes = ((payload.len() + 4) as u16).to_ne_bytes().to_vec();
    bytes.extend(number.to_ne_bytes());
    bytes.extend(payload);
    bytes.resize(bytes.len().next_multiple_of(4), 0);
    bytes
}

/// The body of a link that is to be made, with an MTU of these bytes.
fn link(mtu: &[u8]) -> Vec<u8> {
    let mut body = vec![0; 16];
    body.extend(attribute(u16::from(Ifla::Ifname), b"one\0"));
    body.extend(attribute(u16::from(Ifla::Mtu), mtu));
    let kind = attribute(u16::from(IflaInfo::Kind), b"veth\0");
    body.extend(attribute(u16::from(Ifla::Linkinfo) | 0x8000, &kind));
    body
}

/// The request to make it.
fn request(mtu: &[u8]) -> Result<Vec<u8>, Box<dyn Error>> {
    let payload = NlPayload::Payload(Buffer::from(link(mtu)));
    let flags = NlmF::REQUEST | NlmF::ACK | NlmF::CREATE;
    let message = NlmsghdrBuilder::default().nl_type(Rtm::Newlink).nl_flags(flags).nl_payload(payload).build()?;
    let mut bytes = Vec::new();
    message.to_bytes(&mut bytes)?;
    Ok(bytes)
}

#[test]
fn each_attribute_has_its_path_its_place_and_its_value() -> Result<(), Box<dyn Error>> {
    let schema = Schema::built_in()?;
    let bytes = request(&1500u32.to_ne_bytes())?;
    let message = schema.message(NlFamily::Route, &bytes)?;
    let attributes: Vec<_> = message.attributes()?.collect();
    let paths: Vec<_> = attributes.iter().map(|it| (it.path(), it.name(), it.depth())).collect();
    let wanted = [
        ("IFLA_IFNAME", "IFLA_IFNAME", 1),
        ("IFLA_MTU", "IFLA_MTU", 1),
        ("IFLA_LINKINFO", "IFLA_LINKINFO", 1),
        ("IFLA_LINKINFO.IFLA_INFO_KIND", "IFLA_INFO_KIND", 2),
    ];
    assert_eq!(paths, wanted);
    let payloads: Vec<_> = attributes.iter().map(|it| it.payload()).collect();
    assert_eq!((payloads[0], payloads[1], payloads[3]), (&b"one\0"[..], &b"\xdc\x05\0\0"[..], &b"veth\0"[..]));
    assert_eq!((attributes[0].value(), attributes[1].value()), ("\"one\"", "1500"));
    assert_eq!((attributes[2].kind(), attributes[1].number()), (Kind::NEST, u16::from(Ifla::Mtu)));
    assert_eq!(message.check(), Ok(()));
    let json = message.to_json()?;
    assert!(json.contains("\"name\":\"RTM_NEWLINK\"") && json.contains("\"value\":1500"), "{json}");
    assert_eq!(schema.datagram_json(NlFamily::Route, &bytes)?, json + "\n");
    let text = message.to_string();
    assert!(text.starts_with("RTM_NEWLINK ") && text.contains("  IFLA_MTU 1500\n"), "{text}");
    assert_eq!(schema.datagram_text(NlFamily::Route, &bytes)?, text);
    Ok(())
}

/// The seconds that reading all attributes of a link takes, of which it has so many: the least of some runs.
fn time_of(schema: &Schema, attributes: usize) -> Result<f64, Box<dyn Error>> {
    let mut body = vec![0; 16];
    for _ in 0..attributes {
        body.extend(attribute(u16::from(Ifla::Mtu), &1500u32.to_ne_bytes()));
    }
    let payload = NlPayload::Payload(Buffer::from(body));
    let mut bytes = Vec::new();
    NlmsghdrBuilder::default().nl_type(Rtm::Newlink).nl_payload(payload).build()?.to_bytes(&mut bytes)?;
    let message = schema.message(NlFamily::Route, &bytes)?;
    let mut least = f64::MAX;
    for _ in 0..20 {
        let begin = Instant::now();
        let read = message.attributes()?.filter(|it| it.path() == "IFLA_MTU" && it.value() == "1500").count();
        least = least.min(begin.elapsed().as_secs_f64());
        assert_eq!(read, attributes);
    }
    Ok(least)
}

/// A hundred times the attributes take at most a thousand times the time: a walk anew for each takes ten thousand.
#[test]
fn a_long_message_is_walked_once() -> Result<(), Box<dyn Error>> {
    let schema = Schema::built_in()?;
    let (few, many) = (time_of(&schema, 100)?, time_of(&schema, 10000)?);
    println!("100 attributes: {few} s, 10000: {many} s");
    assert!(many <= 1000.0 * few, "{few} s, {many} s");
    Ok(())
}

#[test]
fn a_request_is_checked_before_it_is_sent() -> Result<(), Box<dyn Error>> {
    let schema = Schema::built_in()?;
    let bytes = request(b"\xdc\x05")?;
    let violation = schema.message(NlFamily::Route, &bytes)?.check().expect_err("an MTU has four bytes");
    assert!(violation.to_string().starts_with("IFLA_MTU: "), "{violation}");
    Ok(())
}

/// The kernel says at which byte a request is wrong, and the schema which attribute that is.
#[test]
fn a_refusal_names_the_attribute() -> Result<(), Box<dyn Error>> {
    let kernel = Kernel::new(7, |request: &Request<'_>| {
        let why = [attribute(1, b"Unknown device type\0"), attribute(2, &52u32.to_ne_bytes())].concat();
        Ok(vec![request.capped_error(-95, &why)?])
    });
    let schema = Schema::built_in()?;
    let sent = request(&1500u32.to_ne_bytes())?;
    let (router, _multicast) = NlRouter::over(kernel)?;
    let body = NlPayload::Payload(Buffer::from(link(&1500u32.to_ne_bytes())));
    let mut replies = router.send::<_, _, Rtm, Buffer>(Rtm::Newlink, NlmF::ACK | NlmF::CREATE, body)?;
    let Some(Err(RouterError::Nlmsgerr(answer))) = replies.next() else { panic!("it is refused") };
    let refusal = schema.message(NlFamily::Route, &sent)?.refusal(&answer);
    assert_eq!((answer.errno_name(), refusal.errno_name()), (Some("EOPNOTSUPP"), Some("EOPNOTSUPP")));
    assert_eq!((refusal.errno(), refusal.attribute()), (95, Some("IFLA_LINKINFO.IFLA_INFO_KIND")));
    let line = "EOPNOTSUPP: Operation not supported: Unknown device type: IFLA_LINKINFO.IFLA_INFO_KIND";
    assert_eq!(refusal.to_string(), line);
    Ok(())
}

#[test]
fn tables_of_a_programs_own_are_added() -> Result<(), Box<dyn Error>> {
    let schema = Schema::empty()?;
    let bytes = request(&1500u32.to_ne_bytes())?;
    assert_eq!(schema.message(NlFamily::Route, &bytes)?.attributes()?.len(), 0);
    schema
        .add("family own 0\nmessage OWN_NEW 16 nest=own after=head\nstruct head 16\nset own\nattr OWN_MTU 4 u32\n")?;
    let message = schema.message(NlFamily::Route, &bytes)?;
    let paths: Vec<_> = message.attributes()?.map(|it| it.path().to_owned()).collect();
    assert_eq!(paths, ["3", "OWN_MTU", "18"]);
    let bad = schema.add("set own\n").expect_err("a family comes first");
    assert!(matches!(bad, SchemaError::Line { number: 1, .. }), "{bad}");
    Ok(())
}

/// Threads share a schema.
#[test]
fn threads_share_a_schema() -> Result<(), Box<dyn Error>> {
    let schema = Schema::built_in()?;
    let bytes = request(&1500u32.to_ne_bytes())?;
    std::thread::scope(|scope| {
        for _ in 0..4 {
            scope.spawn(|| {
                for _ in 0..100 {
                    let message = schema.message(NlFamily::Route, &bytes).expect("is a message");
                    assert_eq!(message.attributes().expect("is walked").len(), 4);
                }
            });
        }
    });
    Ok(())
}

/// A link that a body is built for is read by the same names.
#[test]
fn a_body_is_read_by_name() -> Result<(), Box<dyn Error>> {
    let schema = Schema::built_in()?;
    let body: Ifinfomsg = IfinfomsgBuilder::default().ifi_family(RtAddrFamily::Unspecified).ifi_index(7).build()?;
    let request = schema.write_request(NlFamily::Route, Rtm::Newlink, NlmF::ACK, &body)?;
    let json = request.message().to_json()?;
    assert!(json.contains("\"ifi_index\":7"), "{json}");
    let message = NlmsghdrBuilder::default()
        .nl_type(Rtm::Newlink)
        .nl_flags(NlmF::ACK | NlmF::REQUEST)
        .nl_payload(NlPayload::Payload(body))
        .build()?;
    let mut bytes = Vec::new();
    message.to_bytes(&mut bytes)?;
    assert_eq!(schema.message(NlFamily::Route, &bytes)?.to_json()?, json);
    let written = schema.write(NlFamily::Route, &message)?;
    assert_eq!((written.as_bytes(), request.as_bytes()), (&bytes[..], &bytes[..]));
    assert_eq!(written.message().to_json()?, json);
    Ok(())
}

/// A body is written for its check; one that cannot be written is refused.
#[test]
fn a_body_is_checked_before_it_is_sent() -> Result<(), Box<dyn Error>> {
    let schema = Schema::built_in()?;
    let body = Buffer::from(link(b"\xdc\x05"));
    let request = schema.write_request(NlFamily::Route, Rtm::Newlink, NlmF::CREATE, &body)?;
    let violation = request.message().check().expect_err("an MTU has four bytes");
    assert!(violation.to_string().starts_with("IFLA_MTU: "), "{violation}");
    let long = RtattrBuilder::default().rta_type(Ifla::Linkinfo).rta_payload(vec![0; 65532]).build()?;
    let body = IfinfomsgBuilder::default().ifi_family(RtAddrFamily::Unspecified);
    let body = body.rtattrs([long].into_iter().collect()).build()?;
    let refusal = schema.write_request(NlFamily::Route, Rtm::Newlink, NlmF::CREATE, &body).err();
    assert_eq!(refusal, Some(SerError::Refused(Refusal::LENGTH)));
    Ok(())
}
