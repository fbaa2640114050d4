//! Messages that JSON asks for. Their bytes are by `linux/netlink.h`, `linux/rtnetlink.h` and `linux/if_link.h`.

use neli_c_parts::code::{MEMORY, OK, ROOM, VIOLATION};
use neli_c_parts::families::Families;
use neli_c_parts::lookups::add_built_in;
use neli_c_parts::writing::write_json;
use std::alloc::Global;
use std::test::Fail;

/// `ip link set dev IFINDEX mtu 1500` for the link 3.
const MTU: &[u8] =
    b"{\"name\":\"RTM_NEWLINK\",\"flags\":[\"NLM_F_REQUEST\",\"NLM_F_ACK\"],\"seq\":7,\"port\":258,\"attributes\":{\"ifi_index\":3,\"IFLA_MTU\":1500}}";

/// Its bytes: a header, a `struct ifinfomsg`, and `IFLA_MTU` (4).
const MTU_BYTES: [u8; 40] = [
    40, 0, 0, 0, 16, 0, 5, 0, 7, 0, 0, 0, 2, 1, 0, 0, 0, 0, 0, 0, 3, 0, 0, 0, 0, 0, 0, 0, 0, 0, 0,
    0, 8, 0, 4, 0, 220, 5, 0, 0,
];

/// The table of links.
fn links(alloc: Global) -> Families {
    let mut families = Families::new(alloc);
    let _ = add_built_in(alloc, &mut families, b"rt_link");
    families
}

#[test]
fn a_message_is_written(rt: HostRuntime) -> Result<(), Fail> {
    let (alloc, mut out, mut size) = (rt.alloc(), [b'?'; 48], 4711);
    let families = links(alloc);
    let code = write_json(alloc, &families, 0, MTU, &mut out, &mut size);
    assert_eq!(rt; (code, size), (OK, 40));
    assert_eq!(rt; &out[..40], MTU_BYTES.as_slice());
    assert_eq!(rt; &out[40..], b"????????".as_slice());
    Ok(())
}

#[test]
fn a_message_without_room(rt: HostRuntime) -> Result<(), Fail> {
    let (alloc, mut out, mut size) = (rt.alloc(), [b'?'; 39], 4711);
    let families = links(alloc);
    let code = write_json(alloc, &families, 0, MTU, &mut out, &mut size);
    assert_eq!(rt; (code, size), (ROOM, 40));
    assert_eq!(rt; out, [b'?'; 39]);
    Ok(())
}

/// A name of four bytes and its zero are padded, and the length in the header does not count that.
#[test]
fn a_message_is_padded(rt: HostRuntime) -> Result<(), Fail> {
    let (alloc, mut out, mut size) = (rt.alloc(), [b'?'; 48], 4711);
    let families = links(alloc);
    let json = b"{\"name\":\"RTM_GETLINK\",\"attributes\":{\"IFLA_IFNAME\":\"eth0\"}}";
    let code = write_json(alloc, &families, 0, json, &mut out, &mut size);
    assert_eq!(rt; (code, size), (OK, 44));
    assert_eq!(rt;
        &out[32..44],
        b"\x09\x00\x03\x00eth0\x00\x00\x00\x00".as_slice()
    );
    Ok(())
}

#[test]
fn refusals_say_why(rt: HostRuntime) -> Result<(), Fail> {
    let alloc = rt.alloc();
    let families = links(alloc);
    let rows: [(&[u8], &[u8], usize); 6] = [
        (
            b"{\"name\":\"RTM_NEWLINK\",\"attributes\":{\"IFLA_MTUU\":1500}}",
            b"IFLA_MTUU: no such name, the nearest is IFLA_MTU",
            48,
        ),
        (
            b"{\"name\":\"RTM_NEWLIN\"}",
            b"RTM_NEWLIN: no such name",
            24,
        ),
        (b"{\"nam\":\"RTM_NEWLINK\"}", b"nam: no such name", 17),
        (b"[]", b"name: no such name", 18),
        (
            b"{\"name\":\n\"RTM_NEWLINK\",}",
            b"no JSON at line 2, column 15",
            28,
        ),
        (b"\xff", b"no JSON at line 1, column 1", 27),
    ];
    for (json, text, length) in rows {
        let (mut out, mut size) = ([b'?'; 64], 4711);
        let code = write_json(alloc, &families, 0, json, &mut out, &mut size);
        assert_eq!(rt; (code, &out[..text.len()], size), (VIOLATION, text, length));
        assert_eq!(rt; out[length], b'?');
    }
    Ok(())
}

#[test]
fn a_refusal_with_less_room_has_its_beginning(rt: HostRuntime) -> Result<(), Fail> {
    let (alloc, mut out, mut size) = (rt.alloc(), [b'?'; 10], 4711);
    let families = links(alloc);
    let json = b"{\"name\":\"RTM_NEWLIN\"}";
    let code = write_json(alloc, &families, 0, json, &mut out, &mut size);
    assert_eq!(rt; (code, out, size), (VIOLATION, *b"RTM_NEWLIN", 24));
    Ok(())
}

/// Where memory runs out nothing is written.
#[test]
fn a_message_is_written_or_out_of_memory(rt: HostRuntime) -> Result<(), Fail> {
    let (alloc, mut out, mut size) = (rt.alloc(), [b'?'; 28], 4711);
    let mut families = Families::new(alloc);
    let added = add_built_in(alloc, &mut families, b"rt_nsid");
    let json = b"{\"name\":\"RTM_GETNSID\",\"attributes\":{\"NETNSA_FD\":9}}";
    let code = write_json(alloc, &families, 0, json, &mut out, &mut size);
    match code {
        OK => assert_eq!(rt;
            (size, &out[20..]),
            (28, b"\x08\x00\x03\x00\x09\x00\x00\x00".as_slice())
        ),
        MEMORY => assert_eq!(rt; (size, out), (4711, [b'?'; 28])),
        _ => assert_eq!(rt; (added, code), (MEMORY, VIOLATION)),
    }
    Ok(())
}
