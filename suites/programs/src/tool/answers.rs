//! Scripts and their output.

use super::scripts::{Row, answers};

/// The second worked script, without the line feed at its end.
pub const ACKNOWLEDGED: &str = "send 16 4 -\n\
    read 1\n\
    data 0 1000000010000000000000000000000010000000100000000000000000000000\n\
    read 1\n\
    read 1\n\
    read 1\n\
    close 1\n\
    close 1\n\
    data 1 10000000100000000000000000000000\n\
    read 0\n\
    read 0";

/// The output: an acknowledgement is missing, and a handle is closed.
pub const ANSWERED: &str = "sent 1 10000000100005000000000000000000\n\
    waits\n\
    ok\n\
    item type 16 flags 0x0000 number 0 port 0 payload 0\n\
    error noack\n\
    end\n\
    ok\n\
    no handle\n\
    ok\n\
    item type 16 flags 0x0000 number 0 port 0 payload 0\n\
    waits\n";

/// The worked scripts: a request with a body and its one answer, and an acknowledgement.
pub const WORKED: [Row; 2] = [
    (
        "a request",
        "send 1024 0 616263646A\n\
            read 1\n\
            data 0 10000000000400000000000000000000\n\
            read 1\n\
            read 1\n\
            read 2\n",
        "sent 1 18000000000401000000000000000000616263646a000000\n\
            waits\n\
            ok\n\
            item type 1024 flags 0x0000 number 0 port 0 payload 0\n\
            end\n\
            no handle\n",
    ),
    ("an acknowledgement", ACKNOWLEDGED, ANSWERED),
];

/// Scripts that need no request.
const WITHOUT_REQUEST: [Row; 14] = [
    ("nothing", "", ""),
    ("a line feed", "\n", ""),
    ("empty lines", "\n\n\n", ""),
    ("a port", "pid 7", ""),
    ("a port after empty lines", "\n\npid 7\n\nseq 1\n", "ok\n"),
    ("no line feed at the end", "seq 1\nseq 2", "ok\nok\n"),
    ("zeros before a number", "seq 007\n", "ok\n"),
    ("the greatest port", "pid 4294967295\n", ""),
    ("the greatest sequence number", "seq 4294967295\n", "ok\n"),
    (
        "the greatest handle",
        "read 18446744073709551615\n",
        "no handle\n",
    ),
    (
        "a handle that is not given",
        "close 18446744073709551615\n",
        "no handle\n",
    ),
    (
        "the handle for multicast",
        "read 0\nclose 0\nread 0\n",
        "waits\nok\nno handle\n",
    ),
    (
        "faults without a handle",
        "fault wouldblock\nfault reset\nfault other\n",
        "ok\nok\nok\n",
    ),
    (
        "a datagram without bytes",
        "data 4294967295 -\nread 0\n",
        "ok\nwaits\n",
    ),
];

/// A request without an acknowledgement, which is sent with number 0 and port 0, and the messages after it.
pub const ONE_REQUEST: [Row; 8] = [
    (
        "nothing for now",
        "send 16 0 -\nfault wouldblock\nread 1\n",
        "sent 1 10000000100001000000000000000000\nok\nwaits\n",
    ),
    (
        "a reset",
        "send 16 0 -\nfault reset\nread 1\n",
        "sent 1 10000000100001000000000000000000\nok\nerror link reset\n",
    ),
    (
        "another fault",
        "send 16 0 -\nfault other\nread 1\n",
        "sent 1 10000000100001000000000000000000\nok\nerror link other\n",
    ),
    (
        "a part of a header",
        "send 16 0 -\ndata 0 00\nread 1\n",
        "sent 1 10000000100001000000000000000000\nok\nerror short\n",
    ),
    (
        "a length below the header",
        "send 16 0 -\ndata 0 0f000000000400000000000000000000\nread 1\n",
        "sent 1 10000000100001000000000000000000\nok\nerror input 15\n",
    ),
    (
        "another port",
        "send 16 0 -\ndata 0 10000000100000000000000009000000\nread 1\n",
        "sent 1 10000000100001000000000000000000\nok\nerror stray number 0 port 9\n",
    ),
    (
        "an error, its code -1",
        "send 16 0 -\ndata 0 24000000020000000000000000000000ffffffff10000000100001000000000000000000\nread 1\n",
        "sent 1 10000000100001000000000000000000\nok\nerror netlink -1\n",
    ),
    (
        "its number again",
        "send 16 0 -\nseq 0\nsend 16 0 -\n",
        "sent 1 10000000100001000000000000000000\nok\nrefused in use 0\n",
    ),
];

#[test]
fn scripts_are_answered(rt: HostRuntime) {
    for row in WORKED {
        answers(&rt, rt.alloc(), row);
    }
    for row in WITHOUT_REQUEST {
        answers(&rt, rt.alloc(), row);
    }
    for row in ONE_REQUEST {
        answers(&rt, rt.alloc(), row);
    }
}
