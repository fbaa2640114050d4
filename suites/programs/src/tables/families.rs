//! Several families' tables: `Tables` of `neli_tables`.

use super::rows::{LINKS, SOCKETS};
use neli_tables::{MessagePlace, ReadError, Table, Tables, Way};
use std::alloc::Global;

/// Families of generic netlink, of routing and of every protocol.
pub const TEXTS: [&str; 6] = [
    LINKS,
    SOCKETS,
    "family nlctrl 16 version=2 id=16\nmessage CTRL_CMD_GETFAMILY 3\n",
    "family nl80211 16 version=1\nmessage NL80211_CMD_GET_WIPHY 1\n",
    "family rt-addr 0\nmessage RTM_NEWADDR 20 u8\nmessage RTM_NEWLINK_AGAIN 16 u8\n",
    "family nlmsg\nmessage NLMSG_ERROR 2 u8\nmessage NLMSG_OTHER 20 u8\n",
];

/// The tables of these texts.
pub fn tables_of(alloc: Global) -> Result<Tables<'static>, ReadError> {
    let mut tables = Tables::new(alloc);
    for text in TEXTS {
        tables.add(Table::read(alloc, text.as_bytes())?)?;
    }
    Ok(tables)
}

#[test]
fn messages_are_found_by_protocol(rt: HostRuntime) -> Result<(), ReadError> {
    let tables = tables_of(rt.alloc())?;
    let rows: [(u64, u64, Option<MessagePlace>); 6] = [
        (0, 16, Some(MessagePlace { table: 0, line: 2 })),
        (0, 20, Some(MessagePlace { table: 4, line: 1 })),
        (4, 20, Some(MessagePlace { table: 1, line: 3 })),
        (4, 2, Some(MessagePlace { table: 5, line: 1 })),
        (9, 20, Some(MessagePlace { table: 5, line: 2 })),
        (0, 99, None),
    ];
    for (protocol, number, wanted) in rows {
        let found = tables.message(protocol, Way::Request, None, number);
        assert_eq!(rt; found, wanted, "at {protocol} {number}");
    }
    Ok(())
}

#[test]
fn families_are_found_by_protocol_and_name(rt: HostRuntime) -> Result<(), ReadError> {
    let tables = tables_of(rt.alloc())?;
    assert_eq!(rt; tables.of_protocol(0), Some(0));
    assert_eq!(rt; tables.of_protocol(16), Some(2));
    assert_eq!(rt; tables.of_protocol(5), None);
    assert_eq!(rt; tables.generic(b"nl80211"), Some(3));
    assert_eq!(rt; tables.generic(b"rt-addr"), None);
    assert_eq!(rt; tables.tables().len(), 6);
    assert_eq!(rt; tables.table(6).is_none(), true);
    Ok(())
}

#[test]
fn numbers_of_families_are_learnt(rt: HostRuntime) -> Result<(), ReadError> {
    let mut tables = tables_of(rt.alloc())?;
    assert_eq!(rt; tables.generic_by_id(16), Some(2));
    assert_eq!(rt; tables.generic_by_id(28), None);
    tables.learn(28, b"nl80211")?;
    assert_eq!(rt; tables.generic_by_id(28), Some(3));
    assert_eq!(rt; tables.generic_by_id(27), None);
    // The number of a family without a table is none of one that has one.
    tables.learn(28, b"unknown")?;
    assert_eq!(rt; tables.generic_by_id(28), None);
    assert_eq!(rt; tables.generic_by_id(16), Some(2));
    Ok(())
}
