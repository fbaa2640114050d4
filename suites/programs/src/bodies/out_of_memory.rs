//! Any one allocation may be refused in these tests: `suites/run` refuses each in turn.

use super::support;
use neli_tables::{Table, Tables};
use neli_tables_walk::learn_from;
use std::test::Fail;

/// A number is learnt, or memory ran out and it is not.
#[test]
fn a_number_or_out_of_memory(rt: HostRuntime) -> Result<(), Fail> {
    let alloc = rt.alloc();
    let mut tables = Tables::new(alloc);
    let text = b"family f 16\n";
    let table = Table::read(alloc, text).or_else(|_| Table::read(alloc, text))?;
    if tables.add(table).is_err() {
        tables.add(Table::read(alloc, text)?)?;
    }
    let message =
        b"\x24\0\0\0\x10\0\0\0\0\0\0\0\0\0\0\0\x01\x02\0\0\x06\0\x02\0f\0\0\0\x06\0\x01\0\x1b\0\0\0";
    let (head, payload) = support::parts(16, message);
    if learn_from(&mut tables, head, payload).is_err() {
        assert_eq!(rt; tables.generic_by_id(27), None);
        learn_from(&mut tables, head, payload)?;
    }
    assert_eq!(rt; tables.generic_by_id(27), Some(0));
    Ok(())
}
