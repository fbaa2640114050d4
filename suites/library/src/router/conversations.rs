//! Conversations with a kernel, as recorded from Linux 6.18 on x86-64. libmnl read the contents of each datagram.

use super::script::Script;
use super::script::Step::{Come, Next, Read, Send};
use super::script::Told::{Ack, Done, DumpEnd, End, Message, Refused, Sent, Waits};

/// The request, and the script with the port of the socket.
pub const SCRIPTS: [Script; 4] = [
    (
        // Two datagrams of a strict dump; each message has the flag DUMP_FILTERED too.
        "IPv4 addresses of a link",
        4136408453,
        &[
            (Next(1179), Done),
            (Send(22, 0x300, "0200000003000000"), Sent(1179, 4136408453)),
            (
                Come(
                    "58000000140022009b04000085958cf6021880000300000008000100c0000201\
                    08000200c000020108000400c00002ff0a000300766574683000000008000800\
                    8000000014000600ffffffffffffffff44730300447303005000000014002200\
                    9b04000085958cf6021881000300000008000100c000020208000200c0000202\
                    0c00030076657468303a7800080008008100000014000600ffffffffffffffff\
                    5d7303005d730300",
                    0,
                ),
                Done,
            ),
            (Come("14000000030022009b04000085958cf600000000", 0), Done),
            (Read(1), Message(20, 1179, 72)),
            (Read(1), Message(20, 1179, 64)),
            (Read(1), DumpEnd(0)),
            (Read(1), End),
            (Read(0), Waits),
        ],
    ),
    (
        "a link set up, acknowledged",
        12587,
        &[
            (Next(1054), Done),
            (
                Send(19, 4, "00000000030000000100000001000000"),
                Sent(1054, 12587),
            ),
            (
                Come(
                    "24000000020000011e0400002b3100000000000020000000130005001e040000\
                    00000000",
                    0,
                ),
                Done,
            ),
            (Read(1), Ack(1054)),
            (Read(1), End),
        ],
    ),
    (
        "an unknown type, refused with EINVAL",
        12587,
        &[
            (Next(1001), Done),
            (Send(100, 4, "00000000"), Sent(1001, 12587)),
            (
                Come(
                    "2800000002000000e90300002b310000eaffffff1400000064000500e9030000\
                    0000000000000000",
                    0,
                ),
                Done,
            ),
            (Read(1), Refused(-22, 100)),
            (Read(1), End),
        ],
    ),
    (
        // Group 5, that of IPv4 addresses. No request caused it: the message has number 0 and port 0.
        "an address of the loopback, sent to a group",
        12586,
        &[
            (Send(22, 0x300, ""), Sent(0, 12586)),
            (
                Come(
                    "4c000000140000000000000000000000020880fe01000000080001007f000001\
                    080002007f000001070003006c6f0000080008008000000014000600ffffffff\
                    ffffffff8671030086710300",
                    16,
                ),
                Done,
            ),
            (Read(1), Waits),
            (Read(0), Message(20, 0, 60)),
            (Read(0), Waits),
        ],
    ),
];
