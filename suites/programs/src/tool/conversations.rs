//! Conversations: several requests, and the messages for each of them.

use super::scripts::{Row, answers};

/// Dumps and acknowledgements, and how they end.
pub const ENDS: [Row; 5] = [
    (
        "a capped error",
        "send 16 4 -\n\
            data 0 24000000020000010000000000000000eaffffff20000000100005000000000000000000\n\
            read 1\nread 1\n",
        "sent 1 10000000100005000000000000000000\nok\nerror capped -22\nend\n",
    ),
    (
        "a dump of two messages, and its end",
        "send 16 768 -\n\
            data 0 10000000100002000000000000000000100000001000020000000000000000001400000003000200000000000000000000000000\n\
            read 1\nread 1\nread 1\nread 1\n",
        "sent 1 10000000100001030000000000000000\nok\n\
            item type 16 flags 0x0002 number 0 port 0 payload 0\n\
            item type 16 flags 0x0002 number 0 port 0 payload 0\n\
            item type 3 flags 0x0002 number 0 port 0 done 0 attributes 0\n\
            end\n",
    ),
    (
        "a dump that ends with a code",
        "send 16 768 -\n\
            data 0 100000001000020000000000000000001000000010000200000000000000000014000000030002000000000000000000eaffffff\n\
            read 1\nread 1\nread 1\nread 1\n",
        "sent 1 10000000100001030000000000000000\nok\n\
            item type 16 flags 0x0002 number 0 port 0 payload 0\n\
            item type 16 flags 0x0002 number 0 port 0 payload 0\n\
            item type 3 flags 0x0002 number 0 port 0 done -22 attributes 0\n\
            end\n",
    ),
    (
        "a reply, and the acknowledgement that was asked for",
        "send 16 4 -\n\
            data 0 10000000100000000000000000000000\n\
            data 0 240000000200000100000000000000000000000020000000100005000000000000000000\n\
            read 1\nread 1\nread 1\n",
        "sent 1 10000000100005000000000000000000\nok\nok\n\
            item type 16 flags 0x0000 number 0 port 0 payload 0\n\
            item type 2 flags 0x0100 number 0 port 0 ack\n\
            end\n",
    ),
    (
        "an acknowledgement that was not asked for",
        "send 16 772 -\n\
            data 0 240000000200000100000000000000000000000020000000100005000000000000000000\n\
            read 1\nread 1\n",
        "sent 1 10000000100005030000000000000000\nok\nerror unexpectedack\nend\n",
    ),
];

/// Datagrams, and their receivers.
pub const RECEIVERS: [Row; 5] = [
    (
        "an empty datagram, and one of 15 bytes",
        "send 16 0 -\nsend 16 0 -\ndata 0 -\nread 1\n\
            data 0 000000000000000000000000000000\nread 1\nread 2\nread 0\nread 1\n",
        "sent 1 10000000100001000000000000000000\nsent 2 10000000100001000100000000000000\nok\nwaits\n\
            ok\nerror short\nerror short\nwaits\nend\n",
    ),
    (
        "15 bytes that came to a group",
        "send 16 0 -\ndata 1 000000000000000000000000000000\nread 1\nread 0\n",
        "sent 1 10000000100001000000000000000000\nok\nerror short\nwaits\n",
    ),
    (
        "a message with a number that nobody has",
        "send 16 0 -\nsend 16 0 -\ndata 0 10000000100000000900000000000000\n\
            read 1\nread 1\nread 2\nread 2\nread 0\n",
        "sent 1 10000000100001000000000000000000\nsent 2 10000000100001000100000000000000\nok\n\
            error stray number 9 port 0\nend\nerror stray number 9 port 0\nend\nwaits\n",
    ),
    (
        "a message with the number of a closed handle",
        "send 16 0 -\nsend 16 0 -\nclose 1\ndata 0 10000000100000000000000000000000\n\
            read 1\nread 2\nread 2\n",
        "sent 1 10000000100001000000000000000000\nsent 2 10000000100001000100000000000000\nok\nok\n\
            no handle\nerror stray number 0 port 0\nend\n",
    ),
    (
        "a message that came to group 32",
        "send 16 0 -\ndata 2147483648 10000000100000000000000000000000\nread 1\nread 0\nread 0\n",
        "sent 1 10000000100001000000000000000000\nok\nwaits\n\
            item type 16 flags 0x0000 number 0 port 0 payload 0\nwaits\n",
    ),
];

/// Requests, and their numbers.
pub const NUMBERS: [Row; 4] = [
    (
        "a body of five bytes",
        "send 1024 0 6162636465\n",
        "sent 1 180000000004010000000000000000006162636465000000\n",
    ),
    (
        "numbers that wrap, and one that is in use until it is closed",
        "seq 4294967295\nsend 16 0 -\nsend 16 0 -\nsend 16 0 -\n\
            seq 0\nsend 16 0 -\nclose 2\nsend 16 0 -\n",
        "ok\nsent 1 1000000010000100ffffffff00000000\n\
            sent 2 10000000100001000000000000000000\n\
            sent 3 10000000100001000100000000000000\n\
            ok\nrefused in use 0\nok\nsent 4 10000000100001000000000000000000\n",
    ),
    (
        "a port, a stray, and a number that is used again",
        "pid 7\nsend 16 0 -\nsend 16 0 -\n\
            data 0 1000000010000200000000000700000010000000100000000100000000000000\n\
            read 1\nclose 1\nread 2\nread 2\nread 1\nseq 0\nsend 16 0 -\nread 3\nsend 16 0 -\n\
            data 0 10000000100000000000000007000000\nread 3\nread 3\n\
            close 0\ndata 1 10000000100000000000000007000000\nread 0\n",
        "sent 1 10000000100001000000000007000000\nsent 2 10000000100001000100000007000000\nok\n\
            item type 16 flags 0x0002 number 0 port 7 payload 0\nok\n\
            error stray number 1 port 0\nend\nno handle\nok\n\
            sent 3 10000000100001000000000007000000\nwaits\nrefused in use 1\nok\n\
            item type 16 flags 0x0000 number 0 port 7 payload 0\nend\nok\nok\nno handle\n",
    ),
    (
        "a link that would block, and one that is reset",
        "send 16 0 -\nread 1\nfault wouldblock\nread 1\nfault reset\nread 1\nread 1\nread 0\n",
        "sent 1 10000000100001000000000000000000\nwaits\nok\nwaits\nok\nerror link reset\nend\nwaits\n",
    ),
];

#[test]
fn conversations_are_answered(rt: HostRuntime) {
    for row in ENDS {
        answers(&rt, rt.alloc(), row);
    }
    for row in RECEIVERS {
        answers(&rt, rt.alloc(), row);
    }
    for row in NUMBERS {
        answers(&rt, rt.alloc(), row);
    }
}
