//! A body that is refused as the caller's types is an item of its own, and is never reported as out of memory: a caller
//! who repeats the read after that would do so without end. Over both stores.

ghost use Rattle.std.specs.Prelude.{◌≡◌, [], Err, Ok};
ghost use Rattle.neli_wire.specs.declared.errors.DeError.TheVariants as de;
ghost use Rattle.neli_wire.specs.laws.Sizes.{unpadded-rounded};

use super::script::{Step, bytes_of};
use super::steps::Asker;
use super::support::assert_is_at;
use neli::consts::nl::NlmF;
use neli::consts::rtnl::Rtm;
use neli::err::{DeError, MsgError, NoMemory, RouterError, SocketError};
use neli::router::synchronous::{Deliveries, Log, Queues, Reply};
use neli::rtnl::Ifinfomsg;
use neli::{Cursor, FromBytesWithInput, Size};
use std::alloc::Global;
use std::process::Abort;

/// What is read.
#[derive(Clone, Copy, Debug, PartialEq, Eq)]
enum Came {
    /// A link, with so many attributes.
    Link(usize),
    /// The body is refused, with this count.
    Refused(usize),
    /// As a stray.
    Stray,
    End,
    Memory,
    Other,
}

/// A datagram of type 16 (`RTM_NEWLINK` of `linux/rtnetlink.h`) with a body, in hexadecimal, and its reading. A `struct
/// ifinfomsg` has 16 bytes, and an attribute states its length in its first two.
const ROWS: [(&str, &str, Came); 5] = [
    (
        "a whole link",
        "20000000100000000000000000000000\
         00000000000000000000000000000000",
        Came::Link(0),
    ),
    (
        "a link with an attribute",
        "28000000100000000000000000000000\
         00000000000000000000000000000000\
         0800040005dc0000",
        Came::Link(1),
    ),
    (
        "no body",
        "10000000100000000000000000000000",
        Came::Refused(0),
    ),
    (
        "four bytes of a link",
        "14000000100000000000000000000000\
         00000000",
        Came::Refused(4),
    ),
    (
        "an attribute of eight bytes of which four are there",
        "24000000100000000000000000000000\
         00000000000000000000000000000000\
         08000400",
        Came::Refused(4),
    ),
];

/// The result of a handle's next read, as a link.
fn read<D: Deliveries>(asker: &mut Asker<D>, alloc: Global, k: usize) -> Came {
    let Some(Some(handle)) = asker.handles.get_mut(k) else {
        return Came::Other;
    };
    match asker
        .router
        .next_typed::<Rtm, Ifinfomsg, _, _>(alloc, handle)
    {
        Ok(Reply::Item(Ok(message))) => match message.get_payload() {
            Some(link) => Came::Link(link.rtattrs().as_ref().len()),
            None => Came::Other,
        },
        Ok(Reply::Item(Err(RouterError::De(DeError::InvalidInput(count))))) => Came::Refused(count),
        Ok(Reply::Item(Err(RouterError::BadSeqOrPid(_)))) => Came::Stray,
        Ok(Reply::End) => Came::End,
        Err(NoMemory) => Came::Memory,
        _ => Came::Other,
    }
}

/// Hands in each row to a group, as an answer and as a stray, and reads it.
fn check<D: Deliveries>(rt: &impl Abort, alloc: Global) {
    for (name, text, want) in ROWS {
        let mut asker = Asker::<D>::new(rt, alloc, 0);
        let flags = u16::from(NlmF::REQUEST);
        asker.send(alloc, 18, flags, "").expect(rt, "memory");
        let bytes = bytes_of(alloc, text).expect(rt, "memory");
        asker.hand_in(alloc, &bytes, 1).expect(rt, "memory");
        assert_is_at(rt, name, read(&mut asker, alloc, 0), want);
        asker.hand_in(alloc, &bytes, 0).expect(rt, "memory");
        assert_is_at(rt, name, read(&mut asker, alloc, 1), want);
        assert_is_at(rt, name, read(&mut asker, alloc, 1), Came::End);
        // A message with a number that is not open is a stray.
        let closed = asker.step(alloc, Step::Close(1));
        closed.expect(rt, "memory");
        let stray = if matches!(want, Came::Link(_)) {
            Came::Stray
        } else {
            want
        };
        asker.send(alloc, 18, flags, "").expect(rt, "memory");
        asker.hand_in(alloc, &bytes, 0).expect(rt, "memory");
        assert_is_at(rt, name, read(&mut asker, alloc, 2), stray);
    }
}

#[test]
fn refused_bodies_are_items(rt: HostRuntime) {
    check::<Log>(&rt, rt.alloc());
    check::<Queues>(&rt, rt.alloc());
}

/// A body of the caller's that is refused in words.
#[derive(Clone, Copy, Debug)]
struct Wordy;

impl Size for Wordy {
    ghost unpadded_length = { λ _. 0 };

    ghost wire_length = { λ _. 0 };

    ghost rounded = { unpadded-rounded (λ _. 0) };

    fn unpadded_size(&self) -> usize {
        0
    }

    fn written_size(&self) -> usize {
        0
    }
}

impl FromBytesWithInput for Wordy {
    ghost Value = { Wordy };

    ghost view = { λ body. body };

    ghost read = { λ _. Err (de.Msg []) };

    ghost takes_memory = { λ _. ⊥ };

    ghost no_memory = { λ s e. Prim.cc };

    ghost never_short = { λ s e. Prim.cc };

    fn from_bytes_with_input(
        _alloc: Global,
        _cursor: &mut Cursor<'_>,
        _n: usize,
    ) -> Result<Wordy, DeError> {
        Err(DeError::Msg(MsgError::from_static("")))
    }
}

/// A body of the caller's that is read from any bytes, and has so many.
#[derive(Clone, Copy, Debug)]
struct Long<const N: usize>;

impl<const N: usize> Size for Long<N> {
    ghost unpadded_length = { λ _. N };

    ghost wire_length = { λ _. N };

    ghost rounded = { unpadded-rounded (λ _. N) };

    fn unpadded_size(&self) -> usize {
        N
    }

    fn written_size(&self) -> usize {
        N
    }
}

impl<const N: usize> FromBytesWithInput for Long<N> {
    ghost Value = { Long N };

    ghost view = { λ body. body };

    ghost read = { λ _. Ok Prim.cc };

    ghost takes_memory = { λ _. ⊥ };

    ghost no_memory = { λ s e. Prim.cc };

    ghost never_short = { λ s e. Prim.cc };

    fn from_bytes_with_input(
        _alloc: Global,
        cursor: &mut Cursor<'_>,
        n: usize,
    ) -> Result<Long<N>, DeError> {
        cursor.input(n)?;
        cursor.advance(n);
        Ok(Long)
    }
}

/// The result of a handle's next read, as this body, in words.
fn read_as<P: FromBytesWithInput + Size, D: Deliveries>(
    asker: &mut Asker<D>,
    alloc: Global,
    k: usize,
) -> &'static str {
    let Some(Some(handle)) = asker.handles.get_mut(k) else {
        return "no handle";
    };
    match asker.router.next_typed::<Rtm, P, _, _>(alloc, handle) {
        Ok(Reply::Item(Ok(_))) => "a message",
        Ok(Reply::Item(Err(RouterError::De(DeError::Msg(_))))) => "refused in words",
        Ok(Reply::Item(Err(RouterError::Msg(_)))) => "too long",
        Ok(Reply::Item(Err(RouterError::Socket(SocketError::Msg(_))))) => "a fault in words",
        Err(NoMemory) => "out of memory",
        _ => "another answer",
    }
}

/// Hands in a message of four bytes, to a group and as an answer, and reads it as this body.
fn check_body<P: FromBytesWithInput + Size, D: Deliveries>(
    rt: &impl Abort,
    alloc: Global,
    want: &'static str,
) {
    let mut asker = Asker::<D>::new(rt, alloc, 0);
    let sent = asker.send(alloc, 18, u16::from(NlmF::REQUEST), "");
    sent.expect(rt, "memory");
    for (k, mask) in [(0, 1), (1, 0)] {
        let bytes = bytes_of(
            alloc,
            "14000000100000000000000000000000\
            01020304",
        )
        .expect(rt, "memory");
        asker.hand_in(alloc, &bytes, mask).expect(rt, "memory");
        assert_is_at(rt, k, read_as::<P, D>(&mut asker, alloc, k), want);
    }
}

/// Hands in a fault in words, and reads it.
fn check_fault<D: Deliveries>(rt: &impl Abort, alloc: Global) {
    let mut asker = Asker::<D>::new(rt, alloc, 0);
    let sent = asker.send(alloc, 18, u16::from(NlmF::REQUEST), "");
    sent.expect(rt, "memory");
    let words = SocketError::Msg(MsgError::from_static("the link is down"));
    asker.router.error_handling(words).expect(rt, "memory");
    let came = read_as::<Wordy, D>(&mut asker, alloc, 1);
    assert_is_at(rt, "a fault", came, "a fault in words");
}

// With the 16 bytes of a header the longer body passes 32 bits by one.
#[test]
fn what_is_refused_in_words_is_an_item(rt: HostRuntime) {
    let alloc = rt.alloc();
    check_body::<Wordy, Log>(&rt, alloc, "refused in words");
    check_body::<Wordy, Queues>(&rt, alloc, "refused in words");
    check_body::<Long<4294967276>, Log>(&rt, alloc, "a message");
    check_body::<Long<4294967276>, Queues>(&rt, alloc, "a message");
    check_body::<Long<4294967280>, Log>(&rt, alloc, "too long");
    check_body::<Long<4294967280>, Queues>(&rt, alloc, "too long");
    check_fault::<Log>(&rt, alloc);
    check_fault::<Queues>(&rt, alloc);
}
