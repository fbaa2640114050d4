//! Texts, borrowed and owned. An owned text is read without its last byte, whatever that is.

use super::support::{
    Refusal, assert_is_at, assert_lent, assert_sizes, assert_text, assert_written,
};
use neli::{Cursor, FromBytesWithInput};

// Five letters and a zero, as neli's own test has them. The byte ff is in no text (RFC 3629 section 3).
#[test]
fn owned_texts(rt: HostRuntime) {
    let rows: [(&[u8], usize, Result<&str, Refusal>, usize); 6] = [
        (b"AAAAA\0", 6, Ok("AAAAA"), 6),
        (b"AAAAA\0", 3, Ok("AA"), 3),
        (b"AAAAA\0", 1, Ok(""), 1),
        (b"AAAAA\0", 0, Err(Refusal::Input(0)), 0),
        (b"AAAAA\0", 7, Err(Refusal::Input(7)), 0),
        (b"A\xffB\0", 4, Err(Refusal::Owned(1)), 0),
    ];
    for (bytes, n, want, place) in rows {
        let mut cursor = Cursor::new(bytes);
        assert_text(
            &rt,
            &String::from_bytes_with_input(rt.alloc(), &mut cursor, n),
            want,
        );
        assert_is_at(&rt, (bytes, n), cursor.position(), place);
    }
}

// A borrowed text keeps its last byte.
#[test]
fn lent_texts(rt: HostRuntime) {
    let rows: [(&[u8], usize, Result<&str, Refusal>); 5] = [
        (b"AAAAA\0", 6, Ok("AAAAA\0")),
        (b"AAAAA\0", 2, Ok("AA")),
        (b"AAAAA\0", 0, Ok("")),
        (b"AAAAA\0", 7, Err(Refusal::Input(7))),
        (b"A\xffB\0", 4, Err(Refusal::Lent(1))),
    ];
    for (bytes, n, want) in rows {
        assert_lent(&rt, bytes, n, want);
    }
}

#[test]
fn written_texts(rt: HostRuntime) {
    let rows: [(&str, &[u8], (usize, usize, usize)); 3] = [
        ("", b"\0", (1, 4, 1)),
        ("AAAA", b"AAAA\0", (5, 8, 5)),
        ("AAAAA", b"AAAAA\0", (6, 8, 6)),
    ];
    for (text, want, sizes) in rows {
        assert_written(&rt, rt.alloc(), &text, want);
        assert_sizes(&rt, &text, sizes);
        let owned = String::from_str(rt.alloc(), text).expect(&rt, "memory");
        assert_written(&rt, rt.alloc(), &owned, want);
        assert_sizes(&rt, &owned, sizes);
    }
}
