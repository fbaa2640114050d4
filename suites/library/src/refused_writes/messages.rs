//! Messages and their attributes by the tables that are built in, and what these say of refused requests.
//!
//! Rows are recorded datagrams, by their file (suites/README.md), or made by hand where they have none. Headers,
//! codes and echoed headers are those that libmnl reads there, values those that pyroute2 reads; names are those of
//! the kernel's headers. The forms are those of docs/SHOW.md and docs/TABLES.md. Colours are those of
//! `console_codes(4)`, one for each part of a line, as `specs/Pieces.antt` of neli_print has them.

use super::assert_prints;
use hex::decode;
use neli::consts::nl::NlmF;
use neli::lent::LentMessages;
use neli::schema::{
    Head, Item, PathText, Refusal, RoutingTable, Table, Tables, Validation, body_of, built_in,
    check, check_as, find,
};
use neli::show::{
    Datagram, DatagramJson, DatagramText, ItemJson, ItemText, Message, MessageJson, MessageText,
    Open,
};
use std::alloc::Global;
use std::process::Abort;
use std::test::Fail;

/// A message, and bytes behind it that end within a header.
const FAULT: &str = "1c0000005800000023040000e9729683000000000800010000000000ffff";

/// The file of a recording, or what the bytes are; their protocol; they themselves; what is printed as text and JSON.
type Row = (&'static str, u16, &'static str, &'static str, &'static str);

const ROWS: [Row; 9] = [
    (
        "a header that ends too early after a message",
        0,
        FAULT,
        "RTM_NEWNSID length 28 flags 0 seq 1059 port 2207675113\n  \
        rtgenmsg rtgen_family 0\n  \
        NETNSA_NSID 0\n\
        fault: at 28: the bytes end too early\n",
        "{\"protocol\":0,\"type\":88,\"name\":\"RTM_NEWNSID\",\"length\":28,\"flags\":[],\"seq\":1059,\
        \"port\":2207675113,\"structure\":\"rtgenmsg\",\"fields\":{\"rtgen_family\":0},\"attributes\":[\
        {\"number\":1,\"name\":\"NETNSA_NSID\",\"value\":0}]}\n\
        {\"fault\":\"the bytes end too early\",\"at\":28}\n",
    ),
    (
        "0593-route-error",
        0,
        "9000000002000002680400002b310000deffffff2800000013000500680400000000000000000000030000000000000000000000\
        06000400dc05000027000100417474726962757465206661696c656420706f6c6963792076616c69646174696f6e0000\
        0800020020000000240004800c00040000000000000000000c000500ffffffff000000000800010004000000",
        "NLMSG_ERROR length 144 flags NLM_F_ACK_TLVS seq 1128 port 12587\n  \
        error -34 ERANGE Numerical result out of range\n  \
        of RTM_SETLINK length 40 flags NLM_F_REQUEST|NLM_F_ACK seq 1128 port 0\n    \
        ifinfomsg ifi_family 0 ifi_type netrom ifi_index 3 ifi_flags 0 ifi_change 0\n    \
        IFLA_MTU broken: shorter than 4 bytes: 0xdc05\n  \
        NLMSGERR_ATTR_MSG \"Attribute failed policy validation\"\n  \
        NLMSGERR_ATTR_OFFS 32\n  \
        NLMSGERR_ATTR_POLICY nested\n    \
        NL_POLICY_TYPE_ATTR_MIN_VALUE_U 0\n    \
        NL_POLICY_TYPE_ATTR_MAX_VALUE_U 4294967295\n    \
        NL_POLICY_TYPE_ATTR_TYPE u32\n",
        "{\"protocol\":0,\"type\":2,\"name\":\"NLMSG_ERROR\",\"length\":144,\"flags\":[\"NLM_F_ACK_TLVS\"],\
        \"seq\":1128,\"port\":12587,\"code\":-34,\"error\":\"ERANGE\",\
        \"meaning\":\"Numerical result out of range\",\"request\":{\"type\":19,\"name\":\"RTM_SETLINK\",\
        \"length\":40,\"flags\":[\"NLM_F_REQUEST\",\"NLM_F_ACK\"],\"seq\":1128,\"port\":0,\
        \"structure\":\"ifinfomsg\",\"fields\":{\"ifi_family\":0,\"ifi_type\":\"netrom\",\"ifi_index\":3,\
        \"ifi_flags\":[],\"ifi_change\":0},\"attributes\":[{\"number\":4,\"name\":\"IFLA_MTU\",\
        \"broken\":\"shorter than 4 bytes\",\"value\":{\"bytes\":\"dc05\"}}]},\"attributes\":[\
        {\"number\":1,\"name\":\"NLMSGERR_ATTR_MSG\",\"value\":\"Attribute failed policy validation\"},\
        {\"number\":2,\"name\":\"NLMSGERR_ATTR_OFFS\",\"value\":32},\
        {\"number\":4,\"name\":\"NLMSGERR_ATTR_POLICY\",\"nested\":true,\"attributes\":[\
        {\"number\":4,\"name\":\"NL_POLICY_TYPE_ATTR_MIN_VALUE_U\",\"value\":0},\
        {\"number\":5,\"name\":\"NL_POLICY_TYPE_ATTR_MAX_VALUE_U\",\"value\":4294967295},\
        {\"number\":1,\"name\":\"NL_POLICY_TYPE_ATTR_TYPE\",\"value\":\"u32\"}]}]}\n",
    ),
    (
        "0115-route-notify",
        0,
        "5000000018000006fc97026b9a31000002100000fe0300010000000008000f00fe000000080001000a070000\
        240009001000000203000000\
        08000500c0000209100000000400000008000500c6336409",
        "RTM_NEWROUTE length 80 flags NLM_F_EXCL|NLM_F_CREATE seq 1795332092 port 12698\n  \
        rtmsg rtm_family 2 rtm_dst_len 16 rtm_src_len 0 rtm_tos 0 rtm_table main rtm_protocol boot rtm_scope universe \
        rtm_type unicast rtm_flags 0\n  \
        RTA_TABLE main\n  \
        RTA_DST 10.7.0.0\n  \
        RTA_MULTIPATH\n    \
        hop rtnexthop rtnh_len 16 rtnh_flags 0 rtnh_hops 2 rtnh_ifindex 3\n      \
        RTA_GATEWAY 192.0.2.9\n    \
        hop rtnexthop rtnh_len 16 rtnh_flags 0 rtnh_hops 0 rtnh_ifindex 4\n      \
        RTA_GATEWAY 198.51.100.9\n",
        "{\"protocol\":0,\"type\":24,\"name\":\"RTM_NEWROUTE\",\"length\":80,\
        \"flags\":[\"NLM_F_EXCL\",\"NLM_F_CREATE\"],\"seq\":1795332092,\"port\":12698,\"structure\":\"rtmsg\",\
        \"fields\":{\"rtm_family\":2,\"rtm_dst_len\":16,\"rtm_src_len\":0,\"rtm_tos\":0,\"rtm_table\":\"main\",\
        \"rtm_protocol\":\"boot\",\"rtm_scope\":\"universe\",\"rtm_type\":\"unicast\",\"rtm_flags\":[]},\
        \"attributes\":[{\"number\":15,\"name\":\"RTA_TABLE\",\"value\":\"main\"},\
        {\"number\":1,\"name\":\"RTA_DST\",\"value\":\"10.7.0.0\"},\
        {\"number\":9,\"name\":\"RTA_MULTIPATH\",\"structures\":[{\"length\":16,\"structure\":\"rtnexthop\",\
        \"fields\":{\"rtnh_len\":16,\"rtnh_flags\":[],\"rtnh_hops\":2,\"rtnh_ifindex\":3},\"attributes\":[\
        {\"number\":5,\"name\":\"RTA_GATEWAY\",\"value\":\"192.0.2.9\"}]},\
        {\"length\":16,\"structure\":\"rtnexthop\",\
        \"fields\":{\"rtnh_len\":16,\"rtnh_flags\":[],\"rtnh_hops\":0,\"rtnh_ifindex\":4},\"attributes\":[\
        {\"number\":5,\"name\":\"RTA_GATEWAY\",\"value\":\"198.51.100.9\"}]}]}]}\n",
    ),
    (
        "0821-generic-generic-family",
        16,
        "7000000010000000f10300004943000001020000100002007463705f6d657472696373000600\
        01001b00000008000300010000000800040000000000080005000d0000002c00060014000100\
        0800010001000000080002000e000000140002000800010002000000080002000b000000",
        "CTRL_CMD_NEWFAMILY length 112 flags 0 seq 1009 port 17225\n  \
        command 1 version 2\n  \
        CTRL_ATTR_FAMILY_NAME \"tcp_metrics\"\n  \
        CTRL_ATTR_FAMILY_ID 27\n  \
        CTRL_ATTR_VERSION 1\n  \
        CTRL_ATTR_HDRSIZE 0\n  \
        CTRL_ATTR_MAXATTR 13\n  \
        CTRL_ATTR_OPS\n    \
        index[1]\n      \
        CTRL_ATTR_OP_ID 1\n      \
        CTRL_ATTR_OP_FLAGS cmd-cap-do|cmd-cap-dump|cmd-cap-haspol\n    \
        index[2]\n      \
        CTRL_ATTR_OP_ID 2\n      \
        CTRL_ATTR_OP_FLAGS admin-perm|cmd-cap-do|cmd-cap-haspol\n",
        "{\"protocol\":16,\"type\":16,\"name\":\"CTRL_CMD_NEWFAMILY\",\"length\":112,\"flags\":[],\"seq\":1009,\
        \"port\":17225,\"command\":1,\"version\":2,\"attributes\":[\
        {\"number\":2,\"name\":\"CTRL_ATTR_FAMILY_NAME\",\"value\":\"tcp_metrics\"},\
        {\"number\":1,\"name\":\"CTRL_ATTR_FAMILY_ID\",\"value\":27},\
        {\"number\":3,\"name\":\"CTRL_ATTR_VERSION\",\"value\":1},\
        {\"number\":4,\"name\":\"CTRL_ATTR_HDRSIZE\",\"value\":0},\
        {\"number\":5,\"name\":\"CTRL_ATTR_MAXATTR\",\"value\":13},\
        {\"number\":6,\"name\":\"CTRL_ATTR_OPS\",\"attributes\":[\
        {\"number\":1,\"name\":\"index\",\"attributes\":[{\"number\":1,\"name\":\"CTRL_ATTR_OP_ID\",\"value\":1},\
        {\"number\":2,\"name\":\"CTRL_ATTR_OP_FLAGS\",\
        \"value\":[\"cmd-cap-do\",\"cmd-cap-dump\",\"cmd-cap-haspol\"]}]},\
        {\"number\":2,\"name\":\"index\",\"attributes\":[{\"number\":1,\"name\":\"CTRL_ATTR_OP_ID\",\"value\":2},\
        {\"number\":2,\"name\":\"CTRL_ATTR_OP_FLAGS\",\
        \"value\":[\"admin-perm\",\"cmd-cap-do\",\"cmd-cap-haspol\"]}]}]}]}\n",
    ),
    (
        "a message of a family that is not known, with bits in its header that have no name",
        16,
        "1800000030004180000000000000000003010200ff00ff00",
        "type 48 length 24 flags NLM_F_REQUEST|0x8040 seq 0 port 0\n  \
        command 3 version 1 reserved 2\n  \
        payload 0xff00ff00\n",
        "{\"protocol\":16,\"type\":48,\"length\":24,\"flags\":[\"NLM_F_REQUEST\",\"0x8040\"],\"seq\":0,\"port\":0,\
        \"command\":3,\"version\":1,\"reserved\":2,\"payload\":{\"bytes\":\"ff00ff00\"}}\n",
    ),
    (
        "the end of a datagram of nfnetlink_log (`__nfulnl_send` of net/netfilter/nfnetlink_log.c): a header alone",
        12,
        "1400000003000000000000000000000002000000",
        "NLMSG_DONE length 20 flags 0 seq 0 port 0\n  payload 0x02000000\n",
        "{\"protocol\":12,\"type\":3,\"name\":\"NLMSG_DONE\",\"length\":20,\"flags\":[],\"seq\":0,\"port\":0,\
        \"payload\":{\"bytes\":\"02000000\"}}\n",
    ),
    (
        "1070-connector-process-event",
        11,
        "4c000000030000003300000000000000010000000100000033000000000000002800000000000080010000006b5778f637020000\
        894300008943000000030000110000004b4300004b430000",
        "PROC_EVENT_EXIT length 76 flags 0 seq 51 port 0\n  \
        proc_event_exit idx 1 val 1 seq 51 ack 0 len 40 flags 0 what 2147483648 cpu 1 timestamp_ns 2439381538667 \
        process_pid 17289 process_tgid 17289 exit_code 768 exit_signal 17 parent_pid 17227 parent_tgid 17227\n",
        "{\"protocol\":11,\"type\":3,\"name\":\"PROC_EVENT_EXIT\",\"length\":76,\"flags\":[],\"seq\":51,\"port\":0,\
        \"structure\":\"proc_event_exit\",\"fields\":{\"idx\":1,\"val\":1,\"seq\":51,\"ack\":0,\"len\":40,\"flags\":0,\
        \"what\":2147483648,\"cpu\":1,\"timestamp_ns\":2439381538667,\"process_pid\":17289,\"process_tgid\":17289,\
        \"exit_code\":768,\"exit_signal\":17,\"parent_pid\":17227,\"parent_tgid\":17227}}\n",
    ),
    (
        "a link with an attribute that no table has",
        0,
        "28000000100000000000000000000000000000000000000000000000000000000600a00f61620000",
        "RTM_NEWLINK length 40 flags 0 seq 0 port 0\n  \
        ifinfomsg ifi_family 0 ifi_type netrom ifi_index 0 ifi_flags 0 ifi_change 0\n  \
        4000 0x6162\n",
        "{\"protocol\":0,\"type\":16,\"name\":\"RTM_NEWLINK\",\"length\":40,\"flags\":[],\"seq\":0,\"port\":0,\
        \"structure\":\"ifinfomsg\",\"fields\":{\"ifi_family\":0,\"ifi_type\":\"netrom\",\"ifi_index\":0,\
        \"ifi_flags\":[],\"ifi_change\":0},\"attributes\":[{\"number\":4000,\"value\":{\"bytes\":\"6162\"}}]}\n",
    ),
    (
        "an error without a name: -4095, past which the kernel has none (`MAX_ERRNO` of `linux/err.h`)",
        0,
        "1400000002000000000000000000000001f0ffff",
        "NLMSG_ERROR length 20 flags 0 seq 0 port 0\n  code -4095\n",
        "{\"protocol\":0,\"type\":2,\"name\":\"NLMSG_ERROR\",\"length\":20,\"flags\":[],\"seq\":0,\
        \"port\":0,\"code\":-4095}\n",
    ),
];

/// A datagram that is printed by these tables.
fn datagram<'b, 'w, 't>(
    tables: &'w Tables<'t>,
    protocol: u16,
    bytes: &'b [u8],
) -> Datagram<'b, 'w, 't> {
    Datagram {
        tables,
        protocol,
        bytes,
    }
}

#[test]
fn datagrams(rt: HostRuntime) -> Result<(), Fail> {
    let alloc = rt.alloc();
    let tables = built_in(alloc)?;
    for (_, protocol, digits, lines, json) in ROWS {
        let bytes = decode(alloc, digits)?;
        let datagram = datagram(&tables, protocol, &bytes);
        let text = DatagramText {
            is_coloured: false,
            datagram,
        };
        assert_prints(&rt, alloc, &text, lines);
        assert_prints(&rt, alloc, &DatagramJson(datagram), json);
    }
    Ok(())
}

#[test]
fn colours(rt: HostRuntime) -> Result<(), Fail> {
    let alloc = rt.alloc();
    let tables = built_in(alloc)?;
    let bytes = decode(alloc, FAULT)?;
    let text = DatagramText {
        is_coloured: true,
        datagram: datagram(&tables, 0, &bytes),
    };
    let want = "\x1b[1;33mRTM_NEWNSID\x1b[0m length 28 flags 0 seq 1059 port 2207675113\n  \
        \x1b[32mrtgenmsg\x1b[0m rtgen_family 0\n  \
        \x1b[36mNETNSA_NSID\x1b[0m 0\n\
        \x1b[31mfault\x1b[0m: at 28: the bytes end too early\n";
    assert_prints(&rt, alloc, &text, want);
    Ok(())
}

/// `RTM_NEWLINK` (16) with `IFLA_LINKINFO` (18) around `IFLA_INFO_KIND` (1) and `IFLA_INFO_DATA` (2), in which is
/// `IFLA_VLAN_ID` (1), and `IFLA_MTU` (4). Behind the attributes of each list are bytes that are none; the last are
/// those of an attribute with 8 bytes of payload, of which 2 are there (docs/ATTRIBUTES.md).
const LINK: &[u8] = b"\x52\0\0\0\x10\0\0\0\x09\0\0\0\0\0\0\0\0\0\0\0\x07\0\0\0\0\0\0\0\0\0\0\0\
    \x22\0\x12\0\x09\0\x01\0vlan\0\0\0\0\x0f\0\x02\0\x06\0\x01\0\x05\0\0\0\x0c\0\x05\0\xaa\xbb\0\0\
    \x08\0\x04\0\xdc\x05\0\0\x0c\0\x03\0xy\0\0";

/// What is printed of its header and its structure, as lines and in JSON.
const LINK_LINES: &str = "RTM_NEWLINK length 82 flags 0 seq 9 port 0\n  \
    ifinfomsg ifi_family 0 ifi_type netrom ifi_index 7 ifi_flags 0 ifi_change 0\n";

const LINK_JSON: &str = "{\"protocol\":0,\"type\":16,\"name\":\"RTM_NEWLINK\",\"length\":82,\
    \"flags\":[],\"seq\":9,\"port\":0,\"structure\":\"ifinfomsg\",\"fields\":{\"ifi_family\":0,\
    \"ifi_type\":\"netrom\",\"ifi_index\":7,\"ifi_flags\":[],\"ifi_change\":0},\"attributes\":[";

/// What is printed of each item of that, as a line and in JSON.
const ITEMS: [(&str, &str); 8] = [
    (
        "  IFLA_LINKINFO\n",
        "{\"number\":18,\"name\":\"IFLA_LINKINFO\",\"attributes\":[",
    ),
    (
        "    IFLA_INFO_KIND \"vlan\"\n",
        "{\"number\":1,\"name\":\"IFLA_INFO_KIND\",\"value\":\"vlan\"}",
    ),
    (
        "    IFLA_INFO_DATA\n",
        ",{\"number\":2,\"name\":\"IFLA_INFO_DATA\",\"attributes\":[",
    ),
    (
        "      IFLA_VLAN_ID 5\n",
        "{\"number\":1,\"name\":\"IFLA_VLAN_ID\",\"value\":5}",
    ),
    (
        "      fault: the bytes end too early: 0x0c0005\n",
        ",{\"fault\":\"the bytes end too early\",\"rest\":\"0c0005\"}",
    ),
    (
        "    fault: the bytes end too early: 0xaabb\n",
        "]},{\"fault\":\"the bytes end too early\",\"rest\":\"aabb\"}",
    ),
    (
        "  IFLA_MTU 1500\n",
        "]},{\"number\":4,\"name\":\"IFLA_MTU\",\"value\":1500}",
    ),
    (
        "  fault: a wrong length, 8: 0x0c0003007879\n",
        ",{\"fault\":\"a wrong length, 8\",\"rest\":\"0c0003007879\"}",
    ),
];

/// Asserts what an item is printed as, after others.
fn assert_item(
    rt: &impl Abort,
    alloc: Global,
    table: &Table<'_>,
    open: Open,
    item: &Item<'_>,
    want: (&str, &str),
) {
    let text = ItemText {
        is_coloured: false,
        table,
        level: 1,
        item,
    };
    assert_prints(rt, alloc, &text, want.0);
    assert_prints(rt, alloc, &ItemJson { table, open, item }, want.1);
}

#[test]
fn messages_and_items(rt: HostRuntime) -> Result<(), Fail> {
    let alloc = rt.alloc();
    let mut tables = Tables::new(alloc);
    tables.add(Table::read(alloc, RoutingTable::RtLink.text())?)?;
    let lent = LentMessages::<u16>::new(LINK).next().unwrap()?;
    let message = Message::new(&tables, 0, &lent);
    let mut lines = String::new(alloc);
    let mut json = String::new(alloc);
    lines.push_str(LINK_LINES)?;
    json.push_str(LINK_JSON)?;
    for (line, part) in ITEMS {
        lines.push_str(line)?;
        json.push_str(part)?;
    }
    json.push_str("]}")?;
    let text = MessageText {
        is_coloured: false,
        message,
    };
    assert_prints(&rt, alloc, &text, &lines);
    assert_prints(&rt, alloc, &MessageJson(message), &json);

    let body = body_of(&tables, head_of(0, 16), lent.nl_payload());
    let (table, walk) = (body.table.unwrap(), body.walk().unwrap());
    let mut open = Open::BODY;
    for (item, want) in walk.zip(ITEMS) {
        assert_item(&rt, alloc, table, open, &item, want);
        open = open.after(&item);
    }
    Ok(())
}

/// The header of a request of this protocol and type.
fn head_of(protocol: u16, message_type: u16) -> Head {
    Head {
        protocol,
        message_type,
        flags: NlmF::REQUEST,
    }
}

/// The body of 0592: a link's MTU of 2 bytes, with the offset 32 (ERANGE).
const SHORT_MTU: &[u8] = b"\0\0\0\0\x03\0\0\0\0\0\0\0\0\0\0\0\x06\0\x04\0\xdc\x05\0\0";

/// The attributes of its answer, 0593: a text and that offset.
const ANSWER: &[u8] = b"'\0\x01\0Attribute failed policy validation\0\0\x08\0\x02\0 \0\0\0";

/// A text alone, with a control character.
const TEXT: &[u8] = b"\x07\0\x01\0a\x1b\0\0";

#[test]
fn refusals_by_tables(rt: HostRuntime) -> Result<(), Fail> {
    let alloc = rt.alloc();
    let mut tables = Tables::new(alloc);
    tables.add(Table::read(alloc, RoutingTable::RtLink.text())?)?;
    let body = body_of(&tables, head_of(0, 19), SHORT_MTU);
    let rows: [(u32, &[u8], &str); 3] = [
        (
            34,
            ANSWER,
            "ERANGE: Numerical result out of range: Attribute failed policy validation: IFLA_MTU",
        ),
        (22, TEXT, "EINVAL: Invalid argument: a\\u001b"),
        (4095, b"", "error 4095"),
    ];
    for (number, attributes, want) in rows {
        let refusal = Refusal::of(&body, number, attributes);
        assert_prints(&rt, alloc, &refusal, want);
    }
    let violation = check(&body).err().unwrap();
    assert_prints(&rt, alloc, &violation, "IFLA_MTU: shorter than 4 bytes");
    let table = body.table.unwrap();
    assert_prints(&rt, alloc, &PathText { table, steps: &[] }, "body");
    Ok(())
}

/// The offset 52 is that of the VLAN's number.
#[test]
fn places_by_tables(rt: HostRuntime) -> Result<(), Fail> {
    let alloc = rt.alloc();
    let mut tables = Tables::new(alloc);
    tables.add(Table::read(alloc, RoutingTable::RtLink.text())?)?;
    let nested = body_of(&tables, head_of(0, 16), &LINK[16..]);
    let place = find(&nested, 52).unwrap();
    let want = "IFLA_LINKINFO.IFLA_INFO_DATA.IFLA_VLAN_ID";
    assert_prints(&rt, alloc, &place, want);
    let path = PathText {
        table: place.table,
        steps: place.path.steps(),
    };
    assert_prints(&rt, alloc, &path, want);
    let violation = check_as(&nested, Validation::Strict).err().unwrap();
    assert_prints(
        &rt,
        alloc,
        &violation,
        "IFLA_LINKINFO: NLA_F_NESTED is missing",
    );
    Ok(())
}
