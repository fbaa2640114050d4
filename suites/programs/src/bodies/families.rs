//! Families of generic netlink, as the controller names them.

use super::support;
use neli_tables_walk::{built_in, learn_from};
use std::test::Fail;

/// 0821: the controller says that `tcp_metrics` is 27.
const METRICS: &[u8] =
    b"p\0\0\0\x10\0\0\0\xf1\x03\0\0IC\0\0\x01\x02\0\0\x10\0\x02\0tcp_metrics\0\x06\0\x01\0\
          \x1b\0\0\0\x08\0\x03\0\x01\0\0\0\x08\0\x04\0\0\0\0\0\x08\0\x05\0\x0d\0\0\0,\0\x06\0\
          \x14\0\x01\0\x08\0\x01\0\x01\0\0\0\x08\0\x02\0\x0e\0\0\0\x14\0\x02\0\x08\0\x01\0\x02\0\
          \0\0\x08\0\x02\0\x0b\0\0\0";

/// 0812: and that `SEG6` is 29, of which there is no table.
const SEG6: &[u8] =
    b"\x94\0\0\0\x10\0\0\0\xeb\x03\0\0IC\0\0\x01\x02\0\0\x09\0\x02\0SEG6\0\0\0\0\x06\0\x01\0\
          \x1d\0\0\0\x08\0\x03\0\x01\0\0\0\x08\0\x04\0\0\0\0\0\x08\0\x05\0\x07\0\0\0T\0\x06\0\
          \x14\0\x01\0\x08\0\x01\0\x01\0\0\0\x08\0\x02\0\x0b\0\0\0\x14\0\x02\0\x08\0\x01\0\x02\0\
          \0\0\x08\0\x02\0\x05\0\0\0\x14\0\x03\0\x08\0\x01\0\x03\0\0\0\x08\0\x02\0\x0b\0\0\0\x14\
          \0\x04\0\x08\0\x01\0\x04\0\0\0\x08\0\x02\0\x0b\0\0\0";

/// 0811: the request for that.
const REQUEST: &[u8] =
    b" \0\0\0\x10\0\x05\0\xeb\x03\0\0\0\0\0\0\x03\x01\0\0\x09\0\x02\0SEG6\0\0\0\0";

#[test]
fn families_are_learnt_from_the_controller(rt: HostRuntime) -> Result<(), Fail> {
    let mut tables = built_in(rt.alloc())?;
    let metrics = tables.generic(b"tcp_metrics");
    assert_eq!(rt; metrics.is_some(), true);
    // Of another protocol nothing is learnt.
    let (head, payload) = support::parts(0, METRICS);
    learn_from(&mut tables, head, payload)?;
    assert_eq!(rt; tables.generic_by_id(27), None);
    let (head, payload) = support::parts(16, METRICS);
    learn_from(&mut tables, head, payload)?;
    assert_eq!(rt; tables.generic_by_id(27), metrics);
    // Nor of a request, or where the number is missing.
    tables.learn(29, b"netdev")?;
    let netdev = tables.generic(b"netdev");
    for (message, end) in [(REQUEST, 16), (SEG6, 16)] {
        let (head, payload) = support::parts(16, message);
        learn_from(&mut tables, head, &payload[..end])?;
        assert_eq!(rt; tables.generic_by_id(29), netdev);
    }
    // A family takes its number from the one that had it, also one without a table.
    let (head, payload) = support::parts(16, SEG6);
    learn_from(&mut tables, head, payload)?;
    let segments = tables.generic(b"SEG6");
    assert_eq!(rt; segments.is_some(), true);
    assert_eq!(rt; tables.generic_by_id(29), segments);
    tables.learn(29, b"acme")?;
    assert_eq!(rt; tables.generic_by_id(29), None);
    Ok(())
}
