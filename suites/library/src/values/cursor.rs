//! The place in bytes that reads go through.

use super::support::{Refusal, SHORT, assert_is, assert_is_at, cursor_at, outcome_of};
use neli::Cursor;

const BYTES: [u8; 5] = [1, 2, 3, 4, 5];

// A second cursor moves by itself.
#[test]
fn places(rt: HostRuntime) {
    assert_is(&rt, Cursor::new(&BYTES).position(), 0);
    let rows: [(usize, &[u8]); 4] = [
        (0, &[1, 2, 3, 4, 5]),
        (1, &[2, 3, 4, 5]),
        (4, &[5]),
        (5, &[]),
    ];
    for (place, rest) in rows {
        let cursor = cursor_at(&rt, &BYTES, place);
        let got = (cursor.position(), cursor.rest(), cursor.get_ref());
        assert_is(&rt, got, (place, rest, BYTES.as_slice()));
    }
    let mut cursor = Cursor::new(&BYTES);
    cursor.advance(1);
    let mut ahead = cursor.ahead();
    ahead.advance(2);
    assert_is(&rt, ahead.rest(), [4u8, 5].as_slice());
    assert_is(&rt, cursor.rest(), [2u8, 3, 4, 5].as_slice());
}

// A read moves past the bytes, an input only shows them; what is not there is refused by each in its way.
#[test]
fn next_bytes(rt: HostRuntime) {
    let rows: [(usize, Result<&[u8], Refusal>, Result<&[u8], Refusal>, usize); 4] = [
        (0, Ok(&[]), Ok(&[]), 2),
        (2, Ok(&[3, 4]), Ok(&[3, 4]), 4),
        (3, Ok(&[3, 4, 5]), Ok(&[3, 4, 5]), 5),
        (4, Err(SHORT), Err(Refusal::Input(4)), 2),
    ];
    for (n, read, shown, place) in rows {
        let mut cursor = cursor_at(&rt, &BYTES, 2);
        let input = outcome_of(cursor.input(n));
        assert_is_at(&rt, n, (input, cursor.position()), (shown, 2));
        let bytes = outcome_of(cursor.bytes(n));
        assert_is_at(&rt, n, (bytes, cursor.position()), (read, place));
    }
}
