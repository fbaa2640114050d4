//! The tables that are built in.

use neli_tables::ReadError;
use neli_tables_walk::built_in;

#[test]
fn all_tables_are_read(rt: HostRuntime) -> Result<(), ReadError> {
    let tables = built_in(rt.alloc())?;
    assert_eq!(rt; tables.tables().len(), 44);
    // The first of each protocol: routing, sockets, IPsec, process events, netfilter, generic netlink.
    let rows: [(u64, Option<usize>); 7] = [
        (0, Some(0)),
        (4, Some(42)),
        (6, Some(43)),
        (11, Some(41)),
        (12, Some(35)),
        (16, Some(14)),
        (2, None),
    ];
    for (protocol, wanted) in rows {
        assert_eq!(rt; tables.of_protocol(protocol), wanted, "of {protocol}");
    }
    assert_eq!(rt; tables.generic_by_id(16), tables.generic(b"nlctrl"));
    assert_eq!(rt; tables.generic_by_id(21), None);
    Ok(())
}
