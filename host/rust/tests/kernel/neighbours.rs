//! Neighbours.

use crate::links::{ask, make_pairs, router};
use crate::space::alone;
use neli::consts::nl::NlmF;
use neli::consts::rtnl::{Nda, Nud, RtAddrFamily, Rtm, Rtn};
use neli::nl::NlPayload;
use neli::router::synchronous::{NlRouter, Verdict};
use neli::rtnl::{Ndmsg, NdmsgBuilder, RtattrBuilder};
use std::process::Command;

const ADDRESS: [u8; 4] = [192, 0, 2, 7];
const HARDWARE: [u8; 6] = [2, 0, 0, 0, 0, 7];

/// A neighbour of IPv4 at a link, without attributes.
fn neighbour(index: i32) -> NdmsgBuilder {
    let made = NdmsgBuilder::default().ndm_family(RtAddrFamily::Inet).ndm_index(index);
    made.ndm_state(Nud::empty()).ndm_type(Rtn::Unspec)
}

fn neighbours(router: &NlRouter) -> Vec<Ndmsg> {
    let body = NlPayload::Payload(neighbour(0).build().expect("a body"));
    let dump = router.dump::<_, _, Rtm, Ndmsg>(Rtm::Getneigh, NlmF::empty(), body, 3).expect("a dump");
    assert_eq!(dump.verdict, Verdict::Complete);
    dump.messages.iter().filter_map(|it| it.get_payload().cloned()).collect()
}

#[test]
fn a_neighbour_that_ip_adds_is_listed_and_removed() {
    alone(|| {
        make_pairs(1);
        let words = "neigh add 192.0.2.7 lladdr 02:00:00:00:00:07 nud permanent dev pair0";
        for words in ["link set pair0 up", words] {
            match Command::new("ip").args(words.split(' ')).status() {
                Ok(status) => assert!(status.success(), "ip {words}"),
                Err(_) => return println!("not run: there is no ip"),
            }
        }
        let (router, _) = router(&[]);
        let found = neighbours(&router);
        let has = |it: &&Ndmsg| it.rtattrs().get_attr_handle().get_attr_payload_as(Nda::Dst) == Ok(ADDRESS);
        let added = found.iter().find(has).expect("it is listed");
        assert_eq!((*added.ndm_family(), *added.ndm_state()), (RtAddrFamily::Inet, Nud::PERMANENT));
        assert_eq!(added.rtattrs().get_attr_handle().get_attr_payload_as(Nda::Lladdr), Ok(HARDWARE));

        let address = RtattrBuilder::default().rta_type(Nda::Dst).rta_payload(ADDRESS).build().expect("an address");
        let body = neighbour(*added.ndm_index()).rtattrs([address].into_iter().collect()).build().expect("a body");
        ask(&router, Rtm::Delneigh, NlmF::empty(), body).expect("it is removed");
        assert_eq!(neighbours(&router).iter().filter(has).count(), 0);
    });
}
