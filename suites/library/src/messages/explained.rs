//! Answers as texts for people. Names are those of errno.h, and meanings those of strerror(3).

use super::kinds::{CAPPED, ERROR};
use super::support::{assert_prints, raw_message};
use neli::err::Nlmsgerr;
use neli::{Cursor, FromBytesWithInput};
use std::alloc::Global;
use std::process::Abort;

/// A code and attributes, as the end of a dump has them, and their printed text.
const ANSWERS: [(&[u8], &str); 18] = [
    (&[0, 0, 0, 0], "0"),
    (
        &[0xff, 0xff, 0xff, 0xff],
        "-1 EPERM: Operation not permitted",
    ),
    (
        &[0xfe, 0xff, 0xff, 0xff],
        "-2 ENOENT: No such file or directory",
    ),
    (
        &[0xa1, 0xff, 0xff, 0xff],
        "-95 EOPNOTSUPP: Operation not supported",
    ),
    (
        &[0x7b, 0xff, 0xff, 0xff],
        "-133 EHWPOISON: Memory page has hardware error",
    ),
    // No error has 41, 134 or 2147483648, and 22 is not the number of an error with its sign turned.
    (&[0xd7, 0xff, 0xff, 0xff], "-41"),
    (&[0x7a, 0xff, 0xff, 0xff], "-134"),
    (&[0, 0, 0, 0x80], "-2147483648"),
    (&[22, 0, 0, 0], "22"),
    // A text; an offset; an offset and then a text.
    (
        &[0xea, 0xff, 0xff, 0xff, 8, 0, 1, 0, 0x62, 0x61, 0x64, 0],
        "-22 EINVAL: Invalid argument; bad",
    ),
    (
        &[0xea, 0xff, 0xff, 0xff, 8, 0, 2, 0, 0x2c, 0, 0, 0],
        "-22 EINVAL: Invalid argument; offset 44",
    ),
    (
        &[
            0xea, 0xff, 0xff, 0xff, 8, 0, 2, 0, 0x2c, 0, 0, 0, 8, 0, 1, 0, 0x62, 0x61, 0x64, 0,
        ],
        "-22 EINVAL: Invalid argument; bad; offset 44",
    ),
    // The recorded error of a listing with a header that is too short (docs/FRAMES.md), without its echo.
    (
        b"\xea\xff\xff\xff\x1a\x00\x01\x00Invalid header length\x00\x00\x00",
        "-22 EINVAL: Invalid argument; Invalid header length",
    ),
    // Of two texts the first.
    (
        &[
            0, 0, 0, 0, 7, 0, 1, 0, 0x6f, 0x6e, 0, 0, 8, 0, 1, 0, 0x62, 0x61, 0x64, 0,
        ],
        "0; on",
    ),
    // A text without a character.
    (&[0, 0, 0, 0, 5, 0, 1, 0, 0, 0, 0, 0], "0; "),
    // No text without a byte, none that is not UTF-8, and no offset of two bytes.
    (&[0, 0, 0, 0, 4, 0, 1, 0], "0"),
    (&[0, 0, 0, 0, 6, 0, 1, 0, 0xff, 0, 0, 0], "0"),
    (&[0, 0, 0, 0, 6, 0, 2, 0, 0x2c, 0, 0, 0], "0"),
];

/// The answer that these bytes are.
fn answer_in(rt: &impl Abort, alloc: Global, bytes: &[u8]) -> Nlmsgerr<()> {
    Nlmsgerr::from_bytes_with_input(alloc, &mut Cursor::new(bytes), bytes.len()).expect(
        rt,
        "an answer",
    )
}

#[test]
fn an_answer_is_explained(rt: HostRuntime) {
    let alloc = rt.alloc();
    for (bytes, text) in &ANSWERS {
        let answer = answer_in(&rt, alloc, bytes);
        assert_prints(&rt, alloc, &answer.explained(), text);
    }
}

#[test]
fn an_error_and_a_capped_error_are_explained(rt: HostRuntime) {
    let alloc = rt.alloc();
    let text = "-22 EINVAL: Invalid argument; bad";
    let error = raw_message(&rt, alloc, &ERROR)
        .get_err()
        .expect(&rt, "an error");
    assert_prints(&rt, alloc, &error.explained(), text);
    let capped = raw_message(&rt, alloc, &CAPPED)
        .get_capped()
        .expect(&rt, "a capped error");
    assert_prints(&rt, alloc, &capped.explained(), text);
}
