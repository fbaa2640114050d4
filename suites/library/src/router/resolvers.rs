//! Lists of answers of the controller, and the resolvers' results for them.
//!
//! The messages are laid out as `struct nlmsghdr` and `struct nlattr` of linux/netlink.h and `struct genlmsghdr` of
//! linux/genetlink.h. Expected values are worked out by hand from these.

use super::controller::Cause::{DeInput, DeMsg, Found, Msg, NoAck};
use super::controller::Lookup::{Family, Group, Names};
use super::controller::{Cause, Lookup, answer, both_numbers, items, lent_answer};
use super::support::assert_is_at;
use neli::err::NoMemory;
use neli::router::synchronous::resolve_genl_family;
use std::alloc::Global;
use std::process::Abort;

/// The controller's answer for the family `nlctrl`: its number is 16, and its group 1 is `notify`, with
/// the number 5.
///
/// Its lines: the header: 68 bytes, type 16; a new family, version 2; FamilyName "nlctrl"; FamilyId 16;
/// McastGroups; its group 1; Name "notify"; Id 5.
const NLCTRL: &str = "44000000100000000000000000000000\
    01020000\
    0b0002006e6c6374726c0000\
    0600010010000000\
    1c000780\
    18000180\
    0b0001006e6f746966790000\
    0800020005000000";

/// An answer with the number 16 alone.
const NUMBER: &str = "1c000000100000000000000000000000010200000600010010000000";

/// An acknowledgement.
const ACK: &str = "240000000200000100000000000000000000000020000000100005000000000000000000";

/// An answer with the number 17 alone.
const OTHER_NUMBER: &str = "1c000000100000000000000000000000010200000600010011000000";

/// The family `a`, of which group 1 is `b`, with the number 5.
///
/// Its lines: the headers; FamilyName "a"; McastGroups and its group 1; Name "b", Id 5.
const OTHER_NAMES: &str = "3400000010000000000000000000000001020000\
    0600020061000000\
    1800078014000180\
    06000100620000000800020005000000";

/// The family `a`: its group 1 is two bytes that list no attributes, its groups 2 and 3 are both `b`,
/// with the numbers 5 and 6.
///
/// Its lines: the headers; FamilyName "a"; McastGroups and its group 1; "b", 5; "b", 6.
const THREE_GROUPS: &str = "5000000010000000000000000000000001020000\
    0600020061000000\
    340007800600018001020000\
    1400028006000100620000000800020005000000\
    1400038006000100620000000800020006000000";

/// The family `a`, of which group 1 has the number 5 and no name.
///
/// Its lines: the headers; FamilyName "a"; McastGroups and its group 1; Id 5.
const NAMELESS: &str = "2c00000010000000000000000000000001020000\
    0600020061000000\
    100007800c000180\
    0800020005000000";

/// The family `a`, of which group 1 is `b` without a number, and group 2 is `b` with the number 5.
///
/// Its lines: the headers; FamilyName "a"; McastGroups; its group 1; "b"; its group 2; "b", 5.
const UNNUMBERED: &str = "4000000010000000000000000000000001020000\
    0600020061000000\
    24000780\
    0c0001800600010062000000\
    1400028006000100620000000800020005000000";

/// The family `a`, of which groups 1 and 2, `b` and `c`, both have the number 5.
///
/// Its lines: the headers; FamilyName "a"; McastGroups; its group 1; "b", 5; its group 2; "c", 5.
const SAME_NUMBER: &str = "4800000010000000000000000000000001020000\
    0600020061000000\
    2c000780\
    1400018006000100620000000800020005000000\
    1400028006000100630000000800020005000000";

/// The family `a`, of which group 1 is `b`, with the number 6.
const NUMBER_6: &str = "3400000010000000000000000000000001020000\
    0600020061000000\
    1800078014000180\
    06000100620000000800020006000000";

/// The family `a` with a list of groups that has none.
const NO_GROUPS: &str = "2000000010000000000000000000000001020000060002006100000004000780";

/// A look-up: the answers and the number of errors after them; its outcome, and its text: a number, the names of a
/// family and a group, or the error.
type Row = (
    &'static str,
    Lookup,
    (&'static [&'static str], usize),
    (Cause, &'static str),
);

/// Lookups.
const LOOKUPS: [Row; 33] = [
    (
        "a family, by one answer",
        Family("nlctrl"),
        (&[NLCTRL], 0),
        (Found, "16"),
    ),
    (
        "a group, by one answer",
        Group("nlctrl", "notify"),
        (&[NLCTRL], 0),
        (Found, "5"),
    ),
    (
        "names, by one answer",
        Names(5),
        (&[NLCTRL], 0),
        (Found, "nlctrl notify"),
    ),
    (
        "the last number of a family wins",
        Family("nlctrl"),
        (&[NLCTRL, OTHER_NUMBER], 0),
        (Found, "17"),
    ),
    (
        "the last number of a family wins, beside an acknowledgement",
        Family("nlctrl"),
        (&[OTHER_NUMBER, ACK, NUMBER], 0),
        (Found, "16"),
    ),
    (
        "the last number of a family wins, before an answer without one",
        Family("nlctrl"),
        (&[OTHER_NUMBER, OTHER_NAMES], 0),
        (Found, "17"),
    ),
    (
        "the first match of a message wins",
        Group("a", "b"),
        (&[THREE_GROUPS], 0),
        (Found, "5"),
    ),
    (
        "the only match wins",
        Group("a", "notify"),
        (&[NLCTRL, THREE_GROUPS], 0),
        (Found, "5"),
    ),
    (
        "the only match wins, before an acknowledgement",
        Group("a", "b"),
        (&[THREE_GROUPS, ACK, NLCTRL], 0),
        (Found, "5"),
    ),
    (
        "the last message with the group wins",
        Group("a", "b"),
        (&[OTHER_NAMES, NUMBER_6], 0),
        (Found, "6"),
    ),
    (
        "a group without a number is passed over",
        Group("a", "b"),
        (&[UNNUMBERED], 0),
        (Found, "5"),
    ),
    (
        "a match before a group without a name",
        Group("a", "b"),
        (&[OTHER_NAMES, NAMELESS], 0),
        (Found, "5"),
    ),
    (
        "the last names win",
        Names(5),
        (&[NLCTRL, ACK, OTHER_NAMES], 0),
        (Found, "a b"),
    ),
    (
        "the last names of a message win",
        Names(5),
        (&[SAME_NUMBER], 0),
        (Found, "a c"),
    ),
    (
        "the last names win, the other way round",
        Names(5),
        (&[OTHER_NAMES, NLCTRL], 0),
        (Found, "nlctrl notify"),
    ),
    (
        "the first error item is the answer, for a group",
        Group("nlctrl", "notify"),
        (&[NLCTRL, NUMBER], 2),
        (NoAck, "No ACK received"),
    ),
    (
        "an error item is the answer, for a family",
        Family("nlctrl"),
        (&[NLCTRL], 1),
        (NoAck, "No ACK received"),
    ),
    (
        "an error item is the answer, for names",
        Names(5),
        (&[NLCTRL], 1),
        (NoAck, "No ACK received"),
    ),
    (
        "names are refused with the first failure: a group that lists no attributes",
        Names(5),
        (&[NLCTRL, THREE_GROUPS, NAMELESS], 1),
        (
            DeInput(2),
            "Deserialization failed: Invalid input was provided: 2",
        ),
    ),
    (
        "names are refused with the first failure: a group without a name",
        Names(5),
        (&[NAMELESS, THREE_GROUPS], 1),
        (
            DeMsg,
            "Deserialization failed: Failed to find specified attribute",
        ),
    ),
    (
        "names are refused with the first failure: an answer without names",
        Names(5),
        (&[NLCTRL, NUMBER], 1),
        (
            DeMsg,
            "Deserialization failed: Failed to find specified attribute",
        ),
    ),
    (
        "no family is found",
        Family("nlctrl"),
        (&[], 0),
        (Msg, "Generic netlink family nlctrl was not found"),
    ),
    (
        "no group is found: another name",
        Group("nlctrl", "x"),
        (&[NLCTRL], 0),
        (
            Msg,
            "Failed to resolve multicast group ID for family name nlctrl, multicast group name x",
        ),
    ),
    (
        "no group is found: the front of a name",
        Group("nlctrl", "not"),
        (&[NLCTRL], 0),
        (
            Msg,
            "Failed to resolve multicast group ID for family name nlctrl, multicast group name not",
        ),
    ),
    (
        "no group is found: a longer name",
        Group("nlctrl", "notify2"),
        (&[NLCTRL], 0),
        (
            Msg,
            "Failed to resolve multicast group ID for family name nlctrl, multicast group name notify2",
        ),
    ),
    (
        "no group is found: no name",
        Group("nlctrl", ""),
        (&[NLCTRL], 0),
        (
            Msg,
            "Failed to resolve multicast group ID for family name nlctrl, multicast group name ",
        ),
    ),
    (
        "no group has the number",
        Names(6),
        (&[NLCTRL], 0),
        (Msg, "ID does not correspond to a multicast group"),
    ),
    (
        "no group has the number: one has none",
        Names(6),
        (&[UNNUMBERED], 0),
        (Msg, "ID does not correspond to a multicast group"),
    ),
    (
        "no group is found: there is none",
        Group("a", "b"),
        (&[NO_GROUPS], 0),
        (
            Msg,
            "Failed to resolve multicast group ID for family name a, multicast group name b",
        ),
    ),
    (
        "no group has the number: there is none",
        Names(5),
        (&[NO_GROUPS], 0),
        (Msg, "ID does not correspond to a multicast group"),
    ),
    (
        "an answer without groups",
        Group("nlctrl", "notify"),
        (&[NUMBER, ACK], 0),
        (
            DeMsg,
            "Deserialization failed: Couldn't find specified attribute",
        ),
    ),
    (
        "an answer without groups, for another name",
        Group("nlctrl", "x"),
        (&[NUMBER], 0),
        (
            DeMsg,
            "Deserialization failed: Couldn't find specified attribute",
        ),
    ),
    (
        "an answer without a family's name",
        Names(5),
        (&[NUMBER], 0),
        (
            DeMsg,
            "Deserialization failed: Failed to find specified attribute",
        ),
    ),
];

/// Looks up, and asserts the answer.
fn look_up(rt: &impl Abort, alloc: Global, row: &Row) {
    let (name, lookup, (frames, errors), want) = *row;
    let list = items(alloc, frames, errors).expect(rt, "messages");
    if let Some((cause, text)) = lent_answer(alloc, lookup, &list).expect(rt, "memory") {
        assert_is_at(rt, name, (cause, text.as_str()), want);
    }
    let (cause, text) = answer(alloc, lookup, list).expect(rt, "memory");
    assert_is_at(rt, name, (cause, text.as_str()), want);
}

#[test]
fn lookups_are_answered(rt: HostRuntime) {
    for row in &LOOKUPS {
        look_up(&rt, rt.alloc(), row);
    }
}

/// Messages, how many errors come after them, and both numbers of the family and its group, or why there are none.
type Both = (
    &'static str,
    &'static [&'static str],
    usize,
    (&'static str, &'static str),
    Result<(u16, u32), Cause>,
);

#[test]
fn both_numbers_of_one_reply(rt: HostRuntime) {
    let rows: [Both; 4] = [
        ("both", &[NLCTRL, ACK], 0, ("nlctrl", "notify"), Ok((16, 5))),
        ("no family", &[OTHER_NAMES], 0, ("a", "b"), Err(Msg)),
        ("no group", &[NLCTRL], 0, ("nlctrl", "x"), Err(Msg)),
        ("an error", &[NLCTRL], 1, ("nlctrl", "notify"), Err(NoAck)),
    ];
    for (row, frames, errors, (family, group), want) in rows {
        let list = items(rt.alloc(), frames, errors).expect(&rt, "messages");
        let found = both_numbers(rt.alloc(), family, group, &list);
        assert_is_at(&rt, row, found, want);
    }
}

/// The result of a look-up. Refused if memory runs out.
fn answer_to(alloc: Global, row: &Row) -> Result<(Cause, String), NoMemory> {
    let (_, lookup, (frames, errors), _) = *row;
    match items(alloc, frames, errors) {
        Ok(list) => answer(alloc, lookup, list),
        Err(_) => Err(NoMemory),
    }
}

/// Looks up, once more if memory ran out, and asserts the result.
fn look_up_again(rt: &impl Abort, alloc: Global, row: &Row) {
    let (cause, text) = match answer_to(alloc, row) {
        Ok(found) => found,
        Err(_) => answer_to(alloc, row).expect(rt, "memory"),
    };
    assert_is_at(rt, row.0, (cause, text.as_str()), row.3);
}

// Any one allocation may be refused in the following tests: running out of memory is never taken for a missing
// attribute.
#[test]
fn lookups_or_out_of_memory(rt: HostRuntime) {
    for row in &LOOKUPS {
        look_up_again(&rt, rt.alloc(), row);
    }
}

#[test]
fn a_family_is_found_without_memory_or_out_of_memory(rt: HostRuntime) {
    let alloc = rt.alloc();
    if let Ok(list) = items(alloc, &[NLCTRL], 0) {
        let found = resolve_genl_family(alloc, "nlctrl", list).ok();
        assert_is_at(&rt, "nlctrl", found, Some(16));
    }
}
