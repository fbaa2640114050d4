//! The error numbers of Linux. Names are those of errno.h, and meanings those of strerror(3).

use super::support::assert_is;
use neli::err::Errno;

/// Numbers, each with its name, its meaning, and its printed text.
const NAMED: [(u32, &str, &str, &str); 8] = [
    (
        1,
        "EPERM",
        "Operation not permitted",
        "EPERM: Operation not permitted",
    ),
    (
        11,
        "EAGAIN",
        "Resource temporarily unavailable",
        "EAGAIN: Resource temporarily unavailable",
    ),
    (19, "ENODEV", "No such device", "ENODEV: No such device"),
    (22, "EINVAL", "Invalid argument", "EINVAL: Invalid argument"),
    (
        35,
        "EDEADLK",
        "Resource deadlock avoided",
        "EDEADLK: Resource deadlock avoided",
    ),
    (
        42,
        "ENOMSG",
        "No message of desired type",
        "ENOMSG: No message of desired type",
    ),
    (
        105,
        "ENOBUFS",
        "No buffer space available",
        "ENOBUFS: No buffer space available",
    ),
    (
        133,
        "EHWPOISON",
        "Memory page has hardware error",
        "EHWPOISON: Memory page has hardware error",
    ),
];

/// Numbers that no error has.
const UNNAMED: [u32; 5] = [0, 41, 58, 134, 4294967295];

#[test]
fn an_error_has_a_name_and_a_meaning(rt: HostRuntime) {
    for (number, name, meaning, text) in &NAMED {
        let errno = Errno::from_number(*number).expect(&rt, "an error of this number");
        assert_is(&rt, errno.number(), *number);
        assert_is(&rt, errno.name(), *name);
        assert_is(&rt, errno.meaning(), *meaning);
        let printed = errno.to_string(rt.alloc()).expect(&rt, "memory");
        assert_is(&rt, printed.as_str(), *text);
    }
}

#[test]
fn other_numbers_have_none(rt: HostRuntime) {
    for number in &UNNAMED {
        assert!(rt; Errno::from_number(*number).is_none());
    }
}
