//! Lists of values, one after the other.

ghost use Rattle.std.specs.Prelude.{[], ◌∷◌, Err, Ok, nat_eq, if◌then◌else◌};
ghost use Rattle.std.specs.declared.io.ErrorKind.TheVariants.{UnexpectedEof};
ghost use Rattle.neli_wire.specs.declared.errors.SerError.TheVariants as ser;
ghost use Rattle.neli_wire.specs.laws.Sizes.{unpadded-rounded};

use super::support::{
    Refusal, assert_behind_dots, assert_is, assert_is_at, assert_list, assert_sizes,
    assert_written, dots,
};
use neli::err::{DeError, SerError};
use neli::implementing::{read_all, size_of_all, write_all};
use neli::{Cursor, FromBytesWithInput, Size, ToBytes};
use std::io::ErrorKind;

/// The numbers 1 and 2, and half of another.
const BYTES: [u8; 5] = [1, 0, 2, 0, 3];

#[test]
fn lists_with_an_input(rt: HostRuntime) {
    let rows: [(usize, Result<&[u16], Refusal>, usize); 5] = [
        (0, Ok(&[]), 0),
        (2, Ok(&[1]), 2),
        (4, Ok(&[1, 2]), 4),
        (5, Err(Refusal::Input(5)), 0),
        (6, Err(Refusal::Input(6)), 0),
    ];
    for (n, want, place) in rows {
        let mut cursor = Cursor::new(&BYTES);
        assert_list(
            &rt,
            &Vec::from_bytes_with_input(rt.alloc(), &mut cursor, n),
            want,
        );
        assert_is_at(&rt, n, cursor.position(), place);
    }
}

#[test]
fn whole_byte_lists(rt: HostRuntime) {
    let rows: [(&[u8], Result<&[u16], Refusal>); 5] = [
        (&[], Ok(&[])),
        (&[1, 0, 2, 0], Ok(&[1, 2])),
        (&[1, 0, 2], Err(Refusal::Input(3))),
        // Numbers that could be the lengths of frames.
        (&[4, 0, 0, 0, 4, 0, 0, 0], Ok(&[4, 0, 4, 0])),
        (&[4, 0, 0, 0, 5, 0, 0], Err(Refusal::Input(7))),
    ];
    for (bytes, want) in rows {
        assert_list(&rt, &read_all(rt.alloc(), bytes), want);
    }
}

// An element that takes no byte would be read for ever.
#[test]
fn elements_of_no_bytes(rt: HostRuntime) {
    let rows: [(&[u8], Result<&[()], Refusal>); 2] = [
        (b"", Ok(&[])),
        (b"7", Err(Refusal::Input(1))),
    ];
    for (bytes, want) in rows {
        assert_list(&rt, &read_all(rt.alloc(), bytes), want);
    }
}

// The nine bytes are a list of neli's own tests.
#[test]
fn written_lists(rt: HostRuntime) {
    let bytes = [1u8, 2, 3, 4, 5, 6, 7, 8, 9];
    let list = Vec::from_slice(rt.alloc(), &bytes).expect(&rt, "memory");
    assert_written(&rt, rt.alloc(), &list, &bytes);
    assert_sizes(&rt, &list, (9, 12, 9));
}

#[test]
fn written_slices_of_values(rt: HostRuntime) {
    let rows: [(&[u16], &[u8]); 3] = [
        (&[], b""),
        (&[0x0102], b"\x02\x01"),
        (&[1, 2, 3], b"\x01\0\x02\0\x03\0"),
    ];
    for (items, want) in rows {
        assert_is(&rt, size_of_all(items), want.len());
        let mut buffer = dots(&rt, rt.alloc());
        write_all(items, &mut buffer).expect(&rt, "memory");
        assert_behind_dots(&rt, &buffer, want);
    }
}

/// A byte that refuses to be written where it is 0.
#[derive(Clone, Copy, Debug)]
struct Count(u8);

impl Size for Count {
    ghost unpadded_length = { λ _. 1 };

    ghost wire_length = { λ _. 1 };

    ghost rounded = { unpadded-rounded (λ _. 1) };

    fn unpadded_size(&self) -> usize {
        1
    }

    fn written_size(&self) -> usize {
        1
    }
}

impl ToBytes for Count {
    ghost wire = { λ n. if nat_eq n.0 0 then Err (ser.Io UnexpectedEof) else Ok (n.0 ∷ []) };

    ghost length_is = { λ n bytes e. Prim.cc };

    ghost zeros_after = { λ n bytes e. Prim.cc };

    ghost no_memory = { λ n e. Prim.cc };

    fn to_bytes(&self, buffer: &mut Vec<u8>) -> Result<(), SerError> {
        if self.0 == 0 {
            return Err(SerError::Io(ErrorKind::UnexpectedEof));
        }
        Ok(buffer.push(self.0)?)
    }
}

// What stands before it was written already, and is taken back.
#[test]
fn a_refused_value_leaves_nothing_of_its_list(rt: HostRuntime) {
    let mut buffer = dots(&rt, rt.alloc());
    let written = write_all(&[Count(1), Count(0)], &mut buffer);
    assert!(rt; matches!(written, Err(SerError::Io(ErrorKind::UnexpectedEof))));
    assert_behind_dots(&rt, &buffer, b"");
}
