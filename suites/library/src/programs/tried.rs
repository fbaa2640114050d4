//! The programs, tried on recorded answers; the expected values are those that pyroute2 reads in them, or iproute2
//! wrote.

use super::recorded::{
    ALL_STATISTICS, FORWARDING, NAMESPACE, NEXT_HOP, NO_NEXT_HOP, POLICIES, QUEUES, SHORT_MTU,
};
use super::{forwarding, json, lint, next_hop, policies, queues, whole, wireguard};
use neli::Cursor;
use neli::consts::nl::NlmF;
use neli::consts::rtnl::{RtAddrFamily, RtScope, Rtm};
use neli::lent::LentMessage;
use neli::router::synchronous::{Log, NlRouter, Verdict};
use neli::rtnl::IfaddrmsgBuilder;
use neli::schema::built_in;
use neli::simulator::{ExtAck, Request};
use std::alloc::Global;
use std::process::Abort;
use std::test::Fail;

/// The bytes of each of these.
fn decoded(rt: &impl Abort, alloc: Global, digits: &[&str]) -> Vec<Vec<u8>> {
    let mut all = Vec::new(alloc);
    for it in digits {
        let bytes = hex::decode(alloc, *it).expect(rt, "digits");
        all.push(bytes).expect(rt, "memory");
    }
    all
}

/// A router with the port and the number of a recording.
fn router(alloc: Global, port: u32, number: u32) -> NlRouter {
    let (mut router, _multicast) = NlRouter::<Log>::new(alloc, port);
    router.set_next_seq(number);
    router
}

/// Asserts that a program wrote these lines.
fn assert_lines(rt: &impl Abort, got: &[String], want: &[&str]) {
    assert_eq!(rt; got.len(), want.len());
    for (got, want) in got.iter().zip(want) {
        assert_eq!(rt; got.as_str(), *want);
    }
}

#[test]
fn queueing_disciplines(rt: HostRuntime) -> Result<(), Fail> {
    let answer = decoded(&rt, rt.alloc(), &QUEUES);
    let lines = queues::list(
        rt.alloc(),
        &mut router(rt.alloc(), 2757004673, 1017),
        &answer,
    )?;
    let want = [
        "noqueue none below root, link 1, sent 0, 0 wait",
        "noqueue none below root, link 2, sent 0, 0 wait",
        "htb 1: below root, link 3, sent 0, 0 wait",
        "pfifo 10: below 1:10, link 3, sent 0, 0 wait",
        "ingress ffff: below ffff:fff1, link 3, sent 0, 0 wait",
        "tbf 8002: below root, link 4, sent 150, 0 wait",
        "clsact ffff: below ffff:fff1, link 4, sent 0, 0 wait",
        "noqueue none below root, link 5, sent 0, 0 wait",
        "noqueue none below root, link 7, sent 0, 0 wait",
    ];
    assert_lines(&rt, &lines, &want);
    Ok(())
}

#[test]
fn a_forwarding_table(rt: HostRuntime) -> Result<(), Fail> {
    let answer = decoded(&rt, rt.alloc(), &FORWARDING);
    let lines = forwarding::list(
        rt.alloc(),
        &mut router(rt.alloc(), 3770469766, 1072),
        &answer,
    )?;
    let want = [
        "02:00:00:00:00:aa link 2 bridge 5",
        "02:00:00:00:00:01 link 2 bridge 5",
        "02:00:00:00:00:02 link 2 bridge 5",
        "02:00:00:00:00:10 link 5 bridge 5",
    ];
    assert_lines(&rt, &lines, &want);
    Ok(())
}

#[test]
fn policies_of_a_family(rt: HostRuntime) -> Result<(), Fail> {
    let answer = decoded(&rt, rt.alloc(), &POLICIES);
    let lines = policies::list(
        rt.alloc(),
        &mut router(rt.alloc(), 17225, 1069),
        "nlctrl",
        &answer,
    )?;
    let want = [
        "command 3: do Some(0), dump Some(0)",
        "command 0: do None, dump Some(1)",
        "policy 0: 1 Some(U16) Some(65535)",
        "policy 0: 2 Some(NulString) None",
        "policy 1: 1 Some(U16) Some(65535)",
        "policy 1: 2 Some(NulString) None",
        "policy 1: 10 Some(U32) Some(4294967295)",
    ];
    assert_lines(&rt, &lines, &want);
    Ok(())
}

#[test]
fn a_next_hop(rt: HostRuntime) -> Result<(), Fail> {
    let alloc = rt.alloc();
    let mut router = router(alloc, 0, 0x6b02996c);
    let request = next_hop::ask(alloc, &mut router, 6)?;
    let want = decoded(&rt, alloc, &NEXT_HOP);
    assert_eq!(rt; request.bytes.as_slice(), want[0].as_slice());
    // An acknowledgement, as the kernel sends it: the header of the request is echoed.
    let made = decoded(
        &rt,
        alloc,
        &[
            "2400000002000001\
           6c99026b0000000000000000240000006800050\
           66c99026b00000000",
        ],
    );
    let said = next_hop::outcome(alloc, &mut router, request, &made[0])?;
    assert_eq!(rt; said.as_str(), "made");
    Ok(())
}

#[test]
fn no_next_hop(rt: HostRuntime) -> Result<(), Fail> {
    let alloc = rt.alloc();
    let mut router = router(alloc, 12587, 1160);
    let request = next_hop::ask(alloc, &mut router, 6)?;
    let refused = decoded(&rt, alloc, &NO_NEXT_HOP);
    let said = next_hop::outcome(alloc, &mut router, request, &refused[0])?;
    assert_eq!(rt;
        said.as_str(),
        "refused: -22 (Invalid values in ancillary header)"
    );
    Ok(())
}

#[test]
fn a_tunnel(rt: HostRuntime) -> Result<(), Fail> {
    let lines = wireguard::show(rt.alloc(), &mut router(rt.alloc(), 4711, 1))?;
    let want = [
        "wg0 port 51820",
        "peer aa..: received 1500, sent 92, prefix 24",
        "peer bb..: received 0, sent 148, prefix 32",
    ];
    assert_lines(&rt, &lines, &want);
    Ok(())
}

#[test]
fn requests_are_checked(rt: HostRuntime) -> Result<(), Fail> {
    let alloc = rt.alloc();
    let tables = built_in(alloc)?;
    let short = decoded(&rt, alloc, &SHORT_MTU);
    let found = lint::findings(alloc, &tables, 0, &short[0])?;
    assert_lines(&rt, &found, &["IFLA_MTU: shorter than 4 bytes"]);
    let all = decoded(&rt, alloc, &ALL_STATISTICS);
    let found = lint::findings(alloc, &tables, 0, &all[0])?;
    assert_lines(&rt, &found, &["ok"]);
    // The text and the offset are the kernel's; the rest is what `strerror` says of 34.
    let reason = lint::reason(alloc, &tables, 0, &short[0], &short[1])?;
    let want =
        "ERANGE: Numerical result out of range: Attribute failed policy validation: IFLA_MTU";
    assert_eq!(rt; reason.expect(&rt, "an error").as_str(), want);
    let none = lint::reason(alloc, &tables, 0, &short[0], &all[0])?;
    assert!(rt; none.is_none());
    Ok(())
}

#[test]
fn messages_are_json(rt: HostRuntime) -> Result<(), Fail> {
    let namespace = decoded(&rt, rt.alloc(), &NAMESPACE);
    let lines = json::lines(rt.alloc(), 0, &namespace[0])?;
    let want =
        "{\"protocol\":0,\"type\":88,\"name\":\"RTM_NEWNSID\",\"length\":28,\"flags\":[],\"seq\":0,\"port\":0,\
        \"structure\":\"rtgenmsg\",\"fields\":{\"rtgen_family\":0},\"attributes\":[{\"number\":1,\
        \"name\":\"NETNSA_NSID\",\"value\":0}]}\n";
    assert_eq!(rt; lines.as_str(), want);
    Ok(())
}

/// The kernel's answer to the request in these bytes: two addresses, whose messages have these flags, and the end with
/// this code.
fn dumped(alloc: Global, sent: &[u8], flags: NlmF, code: i32) -> Result<Vec<Vec<u8>>, Fail> {
    let request = Request::new(1, &LentMessage::lend(&mut Cursor::new(sent))?);
    let mut dump = request.dump(alloc, 8192);
    for index in [1, 2] {
        let address = IfaddrmsgBuilder::default()
            .ifa_family(RtAddrFamily::Inet)
            .ifa_prefixlen(24)
            .ifa_scope(RtScope::Universe)
            .ifa_index(index)
            .build(alloc)?;
        dump.push(alloc, Rtm::Newaddr, flags, address)?;
    }
    Ok(dump.finish(alloc, NlmF::empty(), code, ExtAck::new(alloc))?)
}

/// How each try is answered: whether the list changed meanwhile, and the code at its end; and what the program says.
const TRIES: [(&[(bool, i32)], Result<usize, Verdict>); 4] = [
    (&[(false, 0)], Ok(2)),
    (&[(true, 0), (false, 0)], Ok(2)),
    (
        &[(true, 0), (true, 0), (true, 0)],
        Err(Verdict::Interrupted),
    ),
    (&[(true, 0), (false, -19)], Err(Verdict::Failed(-19))),
];

#[test]
fn lists_are_whole(rt: HostRuntime) -> Result<(), Fail> {
    let alloc = rt.alloc();
    for (tries, want) in TRIES {
        let mut k = 0;
        let got = whole::count(alloc, &mut router(alloc, 1, 0), |sent: &[u8]| {
            let (changed, code) = tries[k];
            k += 1;
            let flags = if changed {
                NlmF::DUMP_INTR
            } else {
                NlmF::empty()
            };
            dumped(alloc, sent, flags, code)
        })?;
        assert_eq!(rt; (k, got), (tries.len(), want));
    }
    Ok(())
}
