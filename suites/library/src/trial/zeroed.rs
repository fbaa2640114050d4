//! A datagram without a fault, with zeros for its padding, by a walk over its lengths.

/// The bytes at a place as a number, the lowest first; 0 for bytes that are not there.
fn number(bytes: &[u8], at: usize, size: usize) -> usize {
    let mut number = 0usize;
    for byte in bytes.iter().skip(at).take(size).rev() {
        number = number
            .saturating_mul(256)
            .saturating_add(usize::from(*byte));
    }
    number
}

/// Zeros for the bytes after `length` ones at a place, up to a multiple of four; the place after them.
fn pad(bytes: &mut [u8], at: usize, length: usize) -> usize {
    let end = at.saturating_add(length);
    let next = at.saturating_add(length.saturating_add(3) / 4 * 4);
    for byte in bytes.iter_mut().take(next).skip(end) {
        *byte = 0;
    }
    next
}

/// Zeros for the padding inside the message at a place: in an error (type 2) after the echo, unless it is capped; in an
/// error, an acknowledgement (CAPPED and ACK_TLVS) and the end of a dump (type 3 with MULTI) after each attribute.
fn pad_answer(bytes: &mut [u8], at: usize) {
    let end = at.saturating_add(number(bytes, at, 4));
    let kind = number(bytes, at.saturating_add(4), 2);
    let flags = number(bytes, at.saturating_add(6), 2);
    let echo = at.saturating_add(20);
    let attributes = match (kind, flags & 0x300, number(bytes, at.saturating_add(16), 4)) {
        (2, 0x300, _) => echo.saturating_add(16),
        (2, 0 | 0x200, 1..) => {
            let length = number(bytes, echo, 4);
            pad(bytes, echo, length)
        }
        (3, _, _) if flags & 2 == 2 => echo,
        _ => end,
    };
    pad_attributes(bytes, attributes, end);
}

/// Zeros for the padding of the attributes from one place to another.
fn pad_attributes(bytes: &mut [u8], from: usize, to: usize) {
    let mut at = from;
    for _ in from..to {
        if at >= to {
            break;
        }
        let length = number(bytes, at, 2);
        at = pad(bytes, at, length);
    }
}

/// Zeros for all the padding of a datagram.
pub fn clear_padding(bytes: &mut [u8]) {
    let all = bytes.len();
    let mut at = 0;
    for _ in 0..all {
        if at >= all {
            break;
        }
        pad_answer(bytes, at);
        let length = number(bytes, at, 4);
        at = pad(bytes, at, length);
    }
}
