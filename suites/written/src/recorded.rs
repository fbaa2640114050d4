//! Recorded requests, printed as JSON and written again from it.

use crate::requests::REQUESTS;
use neli_lent::{LentMessage, LentMessages};
use neli_print::{Message as Printed, MessageJson};
use neli_tables::Tables;
use neli_tables_walk::{
    Body, GENERIC_HEADER_SIZE, Head, Item, Shape, body_of, built_in, without_zero,
};
use neli_tables_write::Message;
use serde_json::Value;
use std::alloc::Global;
use std::test::Fail;

/// The recordings of messages that no table has: of `fib_lookup`, and `TCPDIAG_GETSOCK`.
const WITHOUT_TABLE: [u16; 2] = [1196, 1202];

/// Those in which iproute2 sends a text without a zero at its end, which JSON does not say.
const UNENDED: [u16; 7] = [1089, 1090, 1092, 1093, 1094, 1095, 1103];

/// Those whose padding is not zero.
const PADDED: [u16; 3] = [1169, 1174, 1178];

/// The tables, with the numbers that the families had when the requests were recorded.
fn tables(alloc: Global) -> Result<Tables<'static>, Fail> {
    let mut tables = built_in(alloc)?;
    tables.learn(21, b"ethtool")?;
    tables.learn(28, b"mptcp_pm")?;
    tables.learn(29, b"SEG6")?;
    tables.learn(30, b"IOAM6")?;
    Ok(tables)
}

/// Whether two items say the same, but for a zero at the end of a payload.
fn is_same_item(one: &Item<'_>, other: &Item<'_>) -> bool {
    if one.path.steps() != other.path.steps() {
        return false;
    }
    match (&one.content, &other.content) {
        (Ok(one), Ok(other)) => {
            one.kind == other.kind
                && match one.shape {
                    Shape::Nest(_) | Shape::Hops(_) => true,
                    _ => without_zero(one.payload) == without_zero(other.payload),
                }
        }
        _ => false,
    }
}

/// Whether the attributes of two bodies say the same, but for zeros at the ends of payloads, and padding.
fn says_the_same(one: &Body<'_, '_, '_>, other: &Body<'_, '_, '_>) -> bool {
    let (Some(walk), Some(mut others)) = (one.walk(), other.walk()) else {
        return false;
    };
    for item in walk {
        match others.next() {
            Some(other) if is_same_item(&item, &other) => {}
            _ => return false,
        }
    }
    others.next().is_none()
}

/// How a request is written again.
#[derive(Clone, Copy, Debug, PartialEq, Eq)]
enum Outcome {
    /// With the same bytes.
    Same,
    /// With bytes that say the same, but for zeros at the ends of texts and for padding.
    Alike,
    /// Not: no table has the message.
    WithoutTable,
    /// As another message.
    Other,
}

/// Writes a request again from its JSON.
fn written_again(
    alloc: Global,
    tables: &Tables<'_>,
    protocol: u16,
    message: &LentMessage<'_, u16>,
) -> Result<Outcome, Fail> {
    let head = Head {
        protocol,
        message_type: *message.nl_type(),
        flags: *message.nl_flags(),
    };
    let printed = MessageJson(Printed::new(tables, protocol, message));
    let text = format!(in alloc; "{printed}")?;
    let value = Value::from_str(alloc, text.as_str())?;
    let body = body_of(tables, head, message.nl_payload());
    let (Some(table), Some(line)) = (body.table, body.line) else {
        return Ok(Outcome::WithoutTable);
    };
    let payload = Message::from_json(alloc, table, line, &value)?.payload()?;
    if payload[..] == message.nl_payload()[..] {
        return Ok(Outcome::Same);
    }
    let start = match body.generic {
        Some(_) => GENERIC_HEADER_SIZE,
        None => 0,
    };
    let again = Body {
        bytes: &payload[start..],
        ..body
    };
    if says_the_same(&body, &again) {
        Ok(Outcome::Alike)
    } else {
        Ok(Outcome::Other)
    }
}

/// What is known of a recording.
fn expected(number: u16) -> Outcome {
    if WITHOUT_TABLE.contains(&number) {
        Outcome::WithoutTable
    } else if UNENDED.contains(&number) || PADDED.contains(&number) {
        Outcome::Alike
    } else {
        Outcome::Same
    }
}

#[test]
fn recorded_requests_are_written_again(rt: HostRuntime) -> Result<(), Fail> {
    let alloc = rt.alloc();
    let tables = tables(alloc)?;
    let (mut count, mut same) = (0, 0);
    for (number, protocol, digits) in &REQUESTS {
        let bytes = hex::decode(alloc, *digits)?;
        for message in LentMessages::<u16>::new(&bytes) {
            // Behind the messages of two requests are bytes that are none.
            let Ok(message) = message else {
                continue;
            };
            count += 1;
            let outcome = written_again(alloc, &tables, *protocol, &message)?;
            if outcome == Outcome::Same {
                same += 1;
            } else {
                assert_eq!(rt; outcome, expected(*number));
            }
        }
    }
    assert_eq!(rt; (count, same), (154, 142));
    Ok(())
}
