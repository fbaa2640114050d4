//! Messages by the tables, as text and as JSON: `neli_print`.
//!
//! Rows are recorded datagrams, by their file. Headers, codes, echoed headers and numbers of attributes are those that
//! libmnl reads there, values those that pyroute2 reads; names are those of the kernel's headers (`linux/netlink.h`,
//! `linux/neighbour.h`, `linux/rtnetlink.h`, `linux/if_link.h`, `linux/if_arp.h`, `linux/cn_proc.h`, `linux/genetlink.h`)
//! as the tables have them.

use hex::decode;
use neli_print::{Datagram, DatagramJson, DatagramText};
use neli_tables_walk::built_in;
use std::alloc::Global;
use std::fmt::Write;
use std::test::Fail;

/// The file of a recording, or what the bytes are; their protocol; they themselves, and what is to be printed.
type Row = (&'static str, u16, &'static str, &'static str);

/// A link whose name for people (`IFLA_IFALIAS`) has a direction of writing, U+202E, and the control characters U+001B,
/// U+0085 and U+007F.
const ALIAS: &str = "3400000010000000000000000000000000000000000000000000000000000000\
    1100140061e280ae621b5b324ac2857f00000000";

/// An answer with the code -4095, past which the kernel has none (`MAX_ERRNO` of `linux/err.h`): no error has it.
const NAMELESS: &str = "1400000002000000000000000000000001f0ffff";

/// An answer with `ENOTSUPP` of the kernel's own `include/linux/errno.h`, which no header for programs has.
const NOT_SUPPORTED: &str = "14000000020000000000000000000000f4fdffff";

const JSON: [Row; 12] = [
    (
        "0308-route-dump-neigh",
        0,
        "240000001c0002006a0400000b1ec88402000000030000000000080108000100c000024d\
        14000000030002006a0400000b1ec88400000000",
        "{\"protocol\":0,\"type\":28,\"name\":\"RTM_NEWNEIGH\",\"length\":36,\"flags\":[\"NLM_F_MULTI\"],\
        \"seq\":1130,\"port\":2227707403,\"structure\":\"ndmsg\",\"fields\":{\"ndm_family\":2,\"ndm_ifindex\":3,\
        \"ndm_state\":[],\"ndm_flags\":[\"proxy\"],\"ndm_type\":\"unicast\"},\"attributes\":[{\"number\":1,\
        \"name\":\"NDA_DST\",\"value\":\"192.0.2.77\"}]}\n\
        {\"protocol\":0,\"type\":3,\"name\":\"NLMSG_DONE\",\"length\":20,\"flags\":[\"NLM_F_MULTI\"],\"seq\":1130,\
        \"port\":2227707403,\"code\":0,\"attributes\":[]}\n",
    ),
    (
        "0414-route-echo",
        0,
        "3c00000019000000cc0400007011a5f202180000fe0400010000000008000f00fe000000080001000a320000\
        08000500c00002090800040003000000",
        "{\"protocol\":0,\"type\":25,\"name\":\"RTM_DELROUTE\",\"length\":60,\"flags\":[],\"seq\":1228,\
        \"port\":4070904176,\"structure\":\"rtmsg\",\"fields\":{\"rtm_family\":2,\"rtm_dst_len\":24,\"rtm_src_len\":0,\
        \"rtm_tos\":0,\"rtm_table\":\"main\",\"rtm_protocol\":\"static\",\"rtm_scope\":\"universe\",\
        \"rtm_type\":\"unicast\",\"rtm_flags\":[]},\"attributes\":[{\"number\":15,\"name\":\"RTA_TABLE\",\
        \"value\":\"main\"},{\"number\":1,\"name\":\"RTA_DST\",\"value\":\"10.50.0.0\"},{\"number\":5,\
        \"name\":\"RTA_GATEWAY\",\"value\":\"192.0.2.9\"},{\"number\":4,\"name\":\"RTA_OIF\",\"value\":3}]}\n",
    ),
    (
        "0651-route-error",
        0,
        "4800000002000003a30400002b310000eaffffff2800000013000500a304000000000000\
        210001006d7475206c657373207468616e20646576696365206d696e696d756d00000000",
        "{\"protocol\":0,\"type\":2,\"name\":\"NLMSG_ERROR\",\"length\":72,\
        \"flags\":[\"NLM_F_CAPPED\",\"NLM_F_ACK_TLVS\"],\"seq\":1187,\"port\":12587,\"code\":-22,\"error\":\"EINVAL\",\
        \"meaning\":\"Invalid argument\",\"request\":{\"type\":19,\"name\":\"RTM_SETLINK\",\"length\":40,\
        \"flags\":[\"NLM_F_REQUEST\",\"NLM_F_ACK\"],\"seq\":1187,\"port\":0},\"attributes\":[{\"number\":1,\
        \"name\":\"NLMSGERR_ATTR_MSG\",\"value\":\"mtu less than device minimum\"}]}\n",
    ),
    (
        "0519-route-acknowledgement",
        0,
        "24000000020000011e0400002b3100000000000020000000130005001e04000000000000",
        "{\"protocol\":0,\"type\":2,\"name\":\"NLMSG_ERROR\",\"length\":36,\"flags\":[\"NLM_F_CAPPED\"],\"seq\":1054,\
        \"port\":12587,\"code\":0,\"request\":{\"type\":19,\"name\":\"RTM_SETLINK\",\"length\":32,\
        \"flags\":[\"NLM_F_REQUEST\",\"NLM_F_ACK\"],\"seq\":1054,\"port\":0}}\n",
    ),
    (
        "that with a bit in its header that has no name",
        0,
        "24000000020000811e0400002b3100000000000020000000130005001e04000000000000",
        "{\"protocol\":0,\"type\":2,\"name\":\"NLMSG_ERROR\",\"length\":36,\"flags\":[\"NLM_F_CAPPED\",\"0x8000\"],\
        \"seq\":1054,\"port\":12587,\"code\":0,\"request\":{\"type\":19,\"name\":\"RTM_SETLINK\",\"length\":32,\
        \"flags\":[\"NLM_F_REQUEST\",\"NLM_F_ACK\"],\"seq\":1054,\"port\":0}}\n",
    ),
    (
        "0467-route-acknowledgement",
        0,
        "2800000002000000ea0300002b310000eaffffff1400000065000100ea0300000000000000000000",
        "{\"protocol\":0,\"type\":2,\"name\":\"NLMSG_ERROR\",\"length\":40,\"flags\":[],\"seq\":1002,\"port\":12587,\
        \"code\":-22,\"error\":\"EINVAL\",\"meaning\":\"Invalid argument\",\"request\":{\"type\":101,\
        \"name\":\"RTM_DELCHAIN\",\"length\":20,\"flags\":[\"NLM_F_REQUEST\"],\"seq\":1002,\"port\":0,\
        \"structure\":\"tcmsg\",\"fields\":{\"tcm_family\":0}},\"attributes\":[]}\n",
    ),
    (
        "1070-connector-process-event",
        11,
        "4c000000030000003300000000000000010000000100000033000000000000002800000000000080010000006b5778f637020000\
        894300008943000000030000110000004b4300004b430000",
        "{\"protocol\":11,\"type\":3,\"name\":\"PROC_EVENT_EXIT\",\"length\":76,\"flags\":[],\"seq\":51,\"port\":0,\
        \"structure\":\"proc_event_exit\",\"fields\":{\"idx\":1,\"val\":1,\"seq\":51,\"ack\":0,\"len\":40,\"flags\":0,\
        \"what\":2147483648,\"cpu\":1,\"timestamp_ns\":2439381538667,\"process_pid\":17289,\"process_tgid\":17289,\
        \"exit_code\":768,\"exit_signal\":17,\"parent_pid\":17227,\"parent_tgid\":17227}}\n",
    ),
    (
        "0875-generic-generic-family",
        16,
        "88000000100000002204000049430000010200000b0002006e6c6374726c00000600010010000000080003000200000008000400\
        00000000080005000000000\
        02c000600140001000800010003000000080002000e00000014000200080001000a000000080002000c0000001c000700180001\
        0008000200100000000b0001006e6f746966790000",
        "{\"protocol\":16,\"type\":16,\"name\":\"CTRL_CMD_NEWFAMILY\",\"length\":136,\"flags\":[],\"seq\":1058,\
        \"port\":17225,\"command\":1,\"version\":2,\"attributes\":[{\"number\":2,\"name\":\"CTRL_ATTR_FAMILY_NAME\",\
        \"value\":\"nlctrl\"},{\"number\":1,\"name\":\"CTRL_ATTR_FAMILY_ID\",\"value\":16},{\"number\":3,\
        \"name\":\"CTRL_ATTR_VERSION\",\"value\":2},{\"number\":4,\"name\":\"CTRL_ATTR_HDRSIZE\",\"value\":0},\
        {\"number\":5,\"name\":\"CTRL_ATTR_MAXATTR\",\"value\":0},{\"number\":6,\"name\":\"CTRL_ATTR_OPS\",\
        \"attributes\":[{\"number\":1,\"name\":\"index\",\"attributes\":[{\"number\":1,\"name\":\"CTRL_ATTR_OP_ID\",\
        \"value\":3},{\"number\":2,\"name\":\"CTRL_ATTR_OP_FLAGS\",\
        \"value\":[\"cmd-cap-do\",\"cmd-cap-dump\",\"cmd-cap-haspol\"]}]},{\"number\":2,\"name\":\"index\",\
        \"attributes\":[{\"number\":1,\"name\":\"CTRL_ATTR_OP_ID\",\"value\":10},{\"number\":2,\
        \"name\":\"CTRL_ATTR_OP_FLAGS\",\"value\":[\"cmd-cap-dump\",\"cmd-cap-haspol\"]}]}]},{\"number\":7,\
        \"name\":\"CTRL_ATTR_MCAST_GROUPS\",\"attributes\":[{\"number\":1,\"name\":\"index\",\
        \"attributes\":[{\"number\":2,\"name\":\"CTRL_ATTR_MCAST_GRP_ID\",\"value\":16},{\"number\":1,\
        \"name\":\"CTRL_ATTR_MCAST_GRP_NAME\",\"value\":\"notify\"}]}]}]}\n",
    ),
    (
        "0911-generic-generic-error",
        16,
        "54000000020000034004000049430000eaffffff20000000150005004004000000000000\
        1c0001004e4c415f465f4e4553544544206973206d697373696e670008000200140000000c000480080001000d000000",
        "{\"protocol\":16,\"type\":2,\"name\":\"NLMSG_ERROR\",\"length\":84,\
        \"flags\":[\"NLM_F_CAPPED\",\"NLM_F_ACK_TLVS\"],\"seq\":1088,\"port\":17225,\"code\":-22,\"error\":\"EINVAL\",\
        \"meaning\":\"Invalid argument\",\"request\":{\"type\":21,\"length\":32,\
        \"flags\":[\"NLM_F_REQUEST\",\"NLM_F_ACK\"],\"seq\":1088,\"port\":0},\"attributes\":[{\"number\":1,\
        \"name\":\"NLMSGERR_ATTR_MSG\",\"value\":\"NLA_F_NESTED is missing\"},{\"number\":2,\
        \"name\":\"NLMSGERR_ATTR_OFFS\",\"value\":20},{\"number\":4,\"name\":\"NLMSGERR_ATTR_POLICY\",\"nested\":true,\
        \"attributes\":[{\"number\":1,\"name\":\"NL_POLICY_TYPE_ATTR_TYPE\",\"value\":\"nested\"}]}]}\n",
    ),
    (
        "no control character, but the direction of writing",
        0,
        ALIAS,
        "{\"protocol\":0,\"type\":16,\"name\":\"RTM_NEWLINK\",\"length\":52,\"flags\":[],\"seq\":0,\
        \"port\":0,\"structure\":\"ifinfomsg\",\"fields\":{\"ifi_family\":0,\"ifi_type\":\"netrom\",\
        \"ifi_index\":0,\"ifi_flags\":[],\"ifi_change\":0},\"attributes\":[{\"number\":20,\
        \"name\":\"IFLA_IFALIAS\",\"value\":\"a\u{202e}b\\u001b[2J\\u0085\\u007f\"}]}\n",
    ),
    (
        "an error of the kernel alone",
        0,
        NOT_SUPPORTED,
        "{\"protocol\":0,\"type\":2,\"name\":\"NLMSG_ERROR\",\"length\":20,\"flags\":[],\"seq\":0,\
        \"port\":0,\"code\":-524,\"error\":\"ENOTSUPP\",\"meaning\":\"Operation is not supported\"}\n",
    ),
    (
        "an error without a name",
        0,
        NAMELESS,
        "{\"protocol\":0,\"type\":2,\"name\":\"NLMSG_ERROR\",\"length\":20,\"flags\":[],\"seq\":0,\
        \"port\":0,\"code\":-4095}\n",
    ),
];

const TEXT: [Row; 13] = [
    (
        "0821-generic-generic-family",
        16,
        "7000000010000000f10300004943000001020000100002007463705f6d657472696373000600\
        01001b00000008000300010000000800040000000000080005000d0000002c00060014000100\
        0800010001000000080002000e000000140002000800010002000000080002000b000000",
        "CTRL_CMD_NEWFAMILY length 112 flags 0 seq 1009 port 17225\n  \
        command 1 version 2\n  \
        CTRL_ATTR_FAMILY_NAME \"tcp_metrics\"\n  \
        CTRL_ATTR_FAMILY_ID 27\n  \
        CTRL_ATTR_VERSION 1\n  \
        CTRL_ATTR_HDRSIZE 0\n  \
        CTRL_ATTR_MAXATTR 13\n  \
        CTRL_ATTR_OPS\n    \
        index[1]\n      \
        CTRL_ATTR_OP_ID 1\n      \
        CTRL_ATTR_OP_FLAGS cmd-cap-do|cmd-cap-dump|cmd-cap-haspol\n    \
        index[2]\n      \
        CTRL_ATTR_OP_ID 2\n      \
        CTRL_ATTR_OP_FLAGS admin-perm|cmd-cap-do|cmd-cap-haspol\n",
    ),
    (
        "0115-route-notify",
        0,
        "5000000018000006fc97026b9a31000002100000fe0300010000000008000f00fe000000080001000a070000\
        240009001000000203000000\
        08000500c0000209100000000400000008000500c6336409",
        "RTM_NEWROUTE length 80 flags NLM_F_EXCL|NLM_F_CREATE seq 1795332092 port 12698\n  \
        rtmsg rtm_family 2 rtm_dst_len 16 rtm_src_len 0 rtm_tos 0 rtm_table main rtm_protocol boot rtm_scope universe \
        rtm_type unicast rtm_flags 0\n  \
        RTA_TABLE main\n  \
        RTA_DST 10.7.0.0\n  \
        RTA_MULTIPATH\n    \
        hop rtnexthop rtnh_len 16 rtnh_flags 0 rtnh_hops 2 rtnh_ifindex 3\n      \
        RTA_GATEWAY 192.0.2.9\n    \
        hop rtnexthop rtnh_len 16 rtnh_flags 0 rtnh_hops 0 rtnh_ifindex 4\n      \
        RTA_GATEWAY 198.51.100.9\n",
    ),
    (
        "0593-route-error",
        0,
        "9000000002000002680400002b310000deffffff2800000013000500680400000000000000000000030000000000000000000000\
        06000400dc05000027000100417474726962757465206661696c656420706f6c6963792076616c69646174696f6e0000\
        0800020020000000240004800c00040000000000000000000c000500ffffffff000000000800010004000000",
        "NLMSG_ERROR length 144 flags NLM_F_ACK_TLVS seq 1128 port 12587\n  \
        error -34 ERANGE Numerical result out of range\n  \
        of RTM_SETLINK length 40 flags NLM_F_REQUEST|NLM_F_ACK seq 1128 port 0\n    \
        ifinfomsg ifi_family 0 ifi_type netrom ifi_index 3 ifi_flags 0 ifi_change 0\n    \
        IFLA_MTU broken: shorter than 4 bytes: 0xdc05\n  \
        NLMSGERR_ATTR_MSG \"Attribute failed policy validation\"\n  \
        NLMSGERR_ATTR_OFFS 32\n  \
        NLMSGERR_ATTR_POLICY nested\n    \
        NL_POLICY_TYPE_ATTR_MIN_VALUE_U 0\n    \
        NL_POLICY_TYPE_ATTR_MAX_VALUE_U 4294967295\n    \
        NL_POLICY_TYPE_ATTR_TYPE u32\n",
    ),
    (
        "0964-generic-generic-error",
        16,
        "5c000000020000026e04000049430000edffffff20000000150005006e0400000000000002010000\
        0c000180080001000f2700001e0001006e6f20646576696365206d617463686573206966696e6465780000000800020018000000",
        "NLMSG_ERROR length 92 flags NLM_F_ACK_TLVS seq 1134 port 17225\n  \
        error -19 ENODEV No such device\n  \
        of type 21 length 32 flags NLM_F_REQUEST|NLM_F_ACK seq 1134 port 0\n    \
        command 2 version 1\n    \
        payload 0x0c000180080001000f270000\n  \
        NLMSGERR_ATTR_MSG \"no device matches ifindex\"\n  \
        NLMSGERR_ATTR_OFFS 24\n",
    ),
    (
        "the end of a datagram of nfnetlink_log (`__nfulnl_send` of net/netfilter/nfnetlink_log.c): a header alone",
        12,
        "1400000003000000000000000000000002000000",
        "NLMSG_DONE length 20 flags 0 seq 0 port 0\n  payload 0x02000000\n",
    ),
    (
        "a dump of a bridge's multicast groups, of Linux 6.18: its messages have the type of the request",
        0,
        "480000005600020007000000f74000000000000002000000300001002c00010028000100\
        0200000000000000ef010101000000000000000000000000080000000800010090650000",
        "RTM_GETMDB length 72 flags NLM_F_MULTI seq 7 port 16631\n  \
        br_port_msg family 0 ifindex 2\n  \
        MDBA_MDB\n    \
        MDBA_MDB_ENTRY\n      \
        MDBA_MDB_ENTRY_INFO br_mdb_entry ifindex 2 state 0 flags 0 vid 0 \
        addr.u 0xef010101000000000000000000000000 addr.proto 2048\n        \
        MDBA_MDB_EATTR_TIMER 26000\n",
    ),
    (
        "a request for statistics by a filter of links' 64-bit counters",
        0,
        "280000005e000100070000000000000000000000010000000800000\
        00c0001800800040001000000",
        "RTM_GETSTATS length 40 flags NLM_F_REQUEST seq 7 port 0\n  \
        if_stats_msg family 0 ifindex 1 filter_mask 8\n  \
        IFLA_STATS_GET_FILTERS nested\n    \
        statistics[4] 0x1\n",
    ),
    (
        "a header that ends too early after a message",
        0,
        "1c0000005800000023040000e9729683000000000800010000000000ffff",
        "RTM_NEWNSID length 28 flags 0 seq 1059 port 2207675113\n  \
        rtgenmsg rtgen_family 0\n  \
        NETNSA_NSID 0\n\
        fault: at 28: the bytes end too early\n",
    ),
    (
        "a message of a family that is not known, with bits in its header",
        16,
        "1800000030000103000000000000000003010200ff00ff00",
        "type 48 length 24 flags NLM_F_REQUEST|NLM_F_DUMP seq 0 port 0\n  \
        command 3 version 1 reserved 2\n  \
        payload 0xff00ff00\n",
    ),
    (
        "that with two bits in its header that have no name",
        16,
        "1800000030004180000000000000000003010200ff00ff00",
        "type 48 length 24 flags NLM_F_REQUEST|0x8040 seq 0 port 0\n  \
        command 3 version 1 reserved 2\n  \
        payload 0xff00ff00\n",
    ),
    (
        "no control character, but the direction of writing",
        0,
        ALIAS,
        "RTM_NEWLINK length 52 flags 0 seq 0 port 0\n  \
        ifinfomsg ifi_family 0 ifi_type netrom ifi_index 0 ifi_flags 0 ifi_change 0\n  \
        IFLA_IFALIAS \"a\u{202e}b\\u001b[2J\\u0085\\u007f\"\n",
    ),
    (
        "an error of the kernel alone",
        0,
        NOT_SUPPORTED,
        "NLMSG_ERROR length 20 flags 0 seq 0 port 0\n  error -524 ENOTSUPP Operation is not supported\n",
    ),
    (
        "an error without a name",
        0,
        NAMELESS,
        "NLMSG_ERROR length 20 flags 0 seq 0 port 0\n  code -4095\n",
    ),
];

/// Asserts what datagrams are printed as by the built-in tables.
fn assert_printed(
    rt: &impl std::process::Abort,
    alloc: Global,
    rows: &[Row],
    is_json: bool,
) -> Result<(), Fail> {
    let tables = built_in(alloc)?;
    for (what, protocol, digits, wanted) in rows {
        let bytes = decode(alloc, digits)?;
        let datagram = Datagram {
            tables: &tables,
            protocol: *protocol,
            bytes: &bytes,
        };
        let mut text = String::new(alloc);
        if is_json {
            let json = DatagramJson(datagram);
            write!(text, "{json}")?;
        } else {
            let lines = DatagramText {
                is_coloured: false,
                datagram,
            };
            write!(text, "{lines}")?;
        }
        assert_eq!(rt; text.as_str(), *wanted, "at {what}");
    }
    Ok(())
}

#[test]
fn messages_are_objects(rt: HostRuntime) -> Result<(), Fail> {
    assert_printed(&rt, rt.alloc(), &JSON, true)
}

#[test]
fn messages_are_lines(rt: HostRuntime) -> Result<(), Fail> {
    assert_printed(&rt, rt.alloc(), &TEXT, false)
}
