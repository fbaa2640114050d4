//! Messages by the tables of their families, by the paths of `neli::schema`.

use neli::consts::nl::NlmF;
use neli::lent::LentMessages;
use neli::schema::{
    Head, PathText, Payload, PayloadText, ReadError, RoutingTable, Shape, Step, Table, Tables,
    Walk, body_of, check, find,
};
use std::alloc::Global;
use std::fmt::Write;
use std::test::Fail;

/// A recorded datagram of `NETLINK_ROUTE`: the loopback link is set up.
const DATAGRAM: &[u8] =
    b"\x24\0\0\0\x50\0\0\0\0\0\0\0\0\0\0\0\x02\0\0\0\x08\0\x01\0\xfe\xff\xff\xff\
    \x08\0\x02\0\x01\0\0\0";

/// A body of `RTM_NEWLINK` with `IFLA_LINKINFO` (18) around `IFLA_INFO_KIND` (1), then `IFLA_MTU` (4) and a byte that is
/// no attribute (`linux/if_link.h`).
const LINK: &[u8] = b"\0\0\x01\0\x02\0\0\0\0\0\0\0\0\0\0\0\
    \x10\0\x12\0\x0a\0\x01\0dummy\0\0\0\x08\0\x04\0\xdc\x05\0\0\x07";

/// The table of its family alone.
fn tables(alloc: Global) -> Result<Tables<'static>, ReadError> {
    let mut tables = Tables::new(alloc);
    tables.add(Table::read(alloc, RoutingTable::RtNetconf.text())?)?;
    Ok(tables)
}

#[test]
fn attributes_have_names_and_values(rt: HostRuntime) -> Result<(), Fail> {
    let alloc = rt.alloc();
    let tables = tables(alloc)?;
    let mut text = String::new(alloc);
    for message in LentMessages::<u16>::new(DATAGRAM) {
        let message = message?;
        let head = Head {
            protocol: 0,
            message_type: *message.nl_type(),
            flags: *message.nl_flags(),
        };
        let body = body_of(&tables, head, message.nl_payload());
        assert_eq!(rt; check(&body).is_ok(), true);
        let Some(walk) = body.walk() else {
            continue;
        };
        let Some(table) = body.table else {
            continue;
        };
        for item in walk {
            let path = PathText {
                table,
                steps: item.path.steps(),
            };
            if let Ok(found) = &item.content
                && let Shape::Row(place) = found.shape
            {
                let value = PayloadText(Payload {
                    table,
                    place,
                    bytes: found.payload,
                });
                write!(text, "{path}{value};")?;
            }
        }
        if let Some(place) = find(&body, 30) {
            write!(text, " {place}")?;
        }
    }
    assert_eq!(rt;
        text.as_str(),
        "NETCONFA_IFINDEX -2;NETCONFA_FORWARDING 1; NETCONFA_FORWARDING"
    );
    Ok(())
}

/// What a walk visits: the number of each attribute behind that of the lists around it.
fn visited(alloc: Global, walk: Walk<'_, '_, '_>) -> Result<String, Fail> {
    let mut text = String::new(alloc);
    for visit in walk.visits() {
        let lists = visit.lists;
        match (visit.step, visit.content) {
            (
                Some(
                    Step {
                        number: Some(number),
                        ..
                    },
                ),
                Ok(_),
            ) => write!(text, "{lists}:{number} ")?,
            (None, Err(rest)) => {
                let bytes = rest.bytes.len();
                write!(text, "{lists}:rest of {bytes} ")?
            }
            _ => write!(text, "?")?,
        }
    }
    Ok(text)
}

#[test]
fn visits_count_the_lists_around(rt: HostRuntime) -> Result<(), Fail> {
    let alloc = rt.alloc();
    let mut tables = Tables::new(alloc);
    tables.add(Table::read(alloc, RoutingTable::RtLink.text())?)?;
    let head = Head {
        protocol: 0,
        message_type: 16,
        flags: NlmF::empty(),
    };
    let text = match body_of(&tables, head, LINK).walk() {
        Some(walk) => visited(alloc, walk)?,
        None => String::new(alloc),
    };
    assert_eq!(rt; text.as_str(), "1:18 2:1 1:4 1:rest of 1 ");
    Ok(())
}
