//! The texts that are built in: each is that of its file in `tables/`, by its digest, and is read whole.

use super::digests::{GENERIC, ROUTING, SYSTEM};
use md5::{Digest, Md5};
use neli_tables::read_table;
use neli_tables_generic::GenericTable;
use neli_tables_routing::RoutingTable;
use neli_tables_system::SystemTable;
use std::alloc::Global;
use std::process::Abort;
use std::test::Fail;

/// What is known of a text: its name, its MD5, and how many lines it has.
type Row = (&'static str, &'static str, usize);

/// Asserts that a table has this name, and its text this digest and so many lines.
fn assert_built_in(
    rt: &impl Abort,
    alloc: Global,
    name: &[u8],
    text: &[u8],
    row: &Row,
) -> Result<(), Fail> {
    let (wanted, digest, count) = *row;
    assert_eq!(rt; name, wanted.as_bytes(), "before {wanted}");
    let mut hasher = Md5::new();
    hasher.update(text);
    let found = hex::encode(alloc, hasher.finalize())?;
    assert_eq!(rt; found.as_str(), digest, "of {wanted}");
    let lines = read_table(alloc, text).map(|lines| lines.len());
    assert_eq!(rt; lines, Ok(count), "of {wanted}");
    Ok(())
}

#[test]
fn routing_tables_are_built_in(rt: HostRuntime) -> Result<(), Fail> {
    let tables = RoutingTable::all();
    assert_eq!(rt; tables.len(), ROUTING.len());
    for (table, row) in tables.iter().zip(&ROUTING) {
        assert_built_in(&rt, rt.alloc(), table.name(), table.text(), row)?;
        assert_eq!(rt;
            RoutingTable::named(row.0.as_bytes()),
            Some(*table),
            "{}",
            row.0
        );
    }
    assert_eq!(rt; RoutingTable::named(b"rt"), None);
    Ok(())
}

#[test]
fn generic_tables_are_built_in(rt: HostRuntime) -> Result<(), Fail> {
    let tables = GenericTable::all();
    assert_eq!(rt; tables.len(), GENERIC.len());
    for (table, row) in tables.iter().zip(&GENERIC) {
        assert_built_in(&rt, rt.alloc(), table.name(), table.text(), row)?;
        assert_eq!(rt;
            GenericTable::named(row.0.as_bytes()),
            Some(*table),
            "{}",
            row.0
        );
    }
    assert_eq!(rt; GenericTable::named(b"rt_link"), None);
    Ok(())
}

#[test]
fn system_tables_are_built_in(rt: HostRuntime) -> Result<(), Fail> {
    let tables = SystemTable::all();
    assert_eq!(rt; tables.len(), SYSTEM.len());
    for (table, row) in tables.iter().zip(&SYSTEM) {
        assert_built_in(&rt, rt.alloc(), table.name(), table.text(), row)?;
        assert_eq!(rt;
            SystemTable::named(row.0.as_bytes()),
            Some(*table),
            "{}",
            row.0
        );
    }
    assert_eq!(rt; SystemTable::named(b""), None);
    Ok(())
}
