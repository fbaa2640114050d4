//! Refusals. Their texts are those of the Rust crate neli 0.7.5 where it has the refusal, else those of the pages
//! `specs/` of their crates; texts of causes are those of Rust's standard library, names of errors those of errno.h,
//! and their meanings those of strerror(3).

use super::assert_prints;
use neli::err::{
    BuildError, BuilderError, DeError, Errno, MsgError, NoMemory, RouterError, SerError,
    SocketError, UninitializedFieldError, Utf8,
};
use neli::nl::Nlmsghdr;
use neli::rtnl::HardwareAddressError;
use neli::schema::{Breach, ReadError, Span, Why, Wrong};
use neli::session::{Loss, SendError, Untaken};
use neli::short::AttrError;
use neli::show::Fault;
use neli::types::Buffer;
use neli::{Cursor, FromBytes};
use neli_inputs::Refusal;
use std::alloc::Global;
use std::fmt::Display;
use std::io::ErrorKind;
use std::process::Abort;

/// Where bytes stop being a text: the byte ff is in none (RFC 3629 section 3).
fn no_text(rt: &impl Abort) -> Utf8 {
    Utf8::Str(str::from_utf8(b"abc\xff").err().expect(rt, "no text"))
}

const NO_TEXT: &str = "invalid utf-8 sequence of 1 bytes from index 3";

/// Asserts that an error prints these words, and then this text.
fn assert_link<D: Display>(rt: &impl Abort, alloc: Global, value: &D, words: &str, text: &str) {
    let want = format!(in alloc; "{words}{text}").expect(rt, "memory");
    assert_prints(rt, alloc, value, &want);
}

/// Asserts what refusals of writing print behind these words.
fn assert_ser<D: Display + Drop>(
    rt: &impl Abort,
    alloc: Global,
    words: &str,
    made: impl Fn(SerError) -> D,
) {
    let text = MsgError::from_static("too long");
    assert_link(rt, alloc, &made(SerError::Msg(text)), words, "too long");
    let failed = made(SerError::Io(ErrorKind::WouldBlock));
    assert_link(rt, alloc, &failed, words, "IO error: operation would block");
    let failed = made(SerError::Utf8(no_text(rt)));
    let text = format!(in alloc; "UTF error: {NO_TEXT}").expect(rt, "memory");
    assert_link(rt, alloc, &failed, words, &text);
    assert_link(rt, alloc, &made(SerError::Memory), words, "Out of memory");
}

/// Asserts what refusals of reading print behind these words.
fn assert_de<D: Display + Drop>(
    rt: &impl Abort,
    alloc: Global,
    words: &str,
    made: impl Fn(DeError) -> D,
) {
    let text = MsgError::from_static("no family");
    assert_link(rt, alloc, &made(DeError::Msg(text)), words, "no family");
    let failed = made(DeError::Io(ErrorKind::UnexpectedEof));
    assert_link(
        rt,
        alloc,
        &failed,
        words,
        "IO error: unexpected end of file",
    );
    let failed = made(DeError::Utf8(no_text(rt)));
    let text = format!(in alloc; "UTF8 error: {NO_TEXT}").expect(rt, "memory");
    assert_link(rt, alloc, &failed, words, &text);
    let text = "Invalid input was provided: 20";
    assert_link(rt, alloc, &made(DeError::InvalidInput(20)), words, text);
    assert_link(rt, alloc, &made(DeError::Memory), words, "Out of memory");
}

#[test]
fn refusals_of_values(rt: HostRuntime) {
    let alloc = rt.alloc();
    assert_prints(&rt, alloc, &NoMemory, "Out of memory");
    assert_prints(&rt, alloc, &no_text(&rt), NO_TEXT);
    let cause = str::from_utf8(b"abc\xff").err().expect(&rt, "no text");
    assert_prints(&rt, alloc, &Utf8::String(cause), NO_TEXT);
    assert_prints(&rt, alloc, &MsgError::from_static("too long"), "too long");
    let made = MsgError::new(alloc, 7u8).expect(&rt, "memory");
    assert_prints(&rt, alloc, &made, "7");
    let missing = UninitializedFieldError::new("nla_type");
    let want = "`nla_type` must be initialized";
    assert_prints(&rt, alloc, &missing, want);
    assert_prints(&rt, alloc, &MsgError::from(missing), want);
    assert_ser(&rt, alloc, "", |error| error);
    assert_de(&rt, alloc, "", |error| error);
    assert_de(
        &rt,
        alloc,
        "attribute 4: ",
        |error| AttrError::new(4, error),
    );
}

#[test]
fn refusals_of_a_link(rt: HostRuntime) {
    let alloc = rt.alloc();
    assert_ser(
        &rt,
        alloc,
        "Serialization error: ",
        |error| SocketError::Ser(error),
    );
    assert_de(
        &rt,
        alloc,
        "Deserialization error: ",
        |error| SocketError::De(error),
    );
    let words = SocketError::Msg(MsgError::from_static("no link"));
    assert_prints(&rt, alloc, &words, "no link");
    let reset = SocketError::Io(ErrorKind::ConnectionReset);
    assert_prints(&rt, alloc, &reset, "IO error: connection reset");
    assert_prints(&rt, alloc, &SocketError::Memory, "Out of memory");
}

/// A router's error of these tests.
type Error = RouterError<u16, Buffer>;

/// The error -22 to a request of type 16 with number 3 and port 9, which is echoed as its header alone.
const CAPPED: [u8; 36] = [
    36, 0, 0, 0, 2, 0, 0, 1, 3, 0, 0, 0, 9, 0, 0, 0, 0xea, 0xff, 0xff, 0xff, 32, 0, 0, 0, 16, 0, 5,
    0, 3, 0, 0, 0, 0, 0, 0, 0,
];

/// The same with the whole request, which has no body.
const WHOLE: [u8; 36] = [
    36, 0, 0, 0, 2, 0, 0, 0, 3, 0, 0, 0, 9, 0, 0, 0, 0xea, 0xff, 0xff, 0xff, 16, 0, 0, 0, 16, 0, 5,
    0, 3, 0, 0, 0, 0, 0, 0, 0,
];

/// The message that these bytes are.
fn message_in(rt: &impl Abort, alloc: Global, bytes: &[u8]) -> Nlmsghdr<u16, Buffer> {
    Nlmsghdr::from_bytes(alloc, &mut Cursor::new(bytes)).expect(rt, "a message")
}

#[test]
fn refusals_of_a_router(rt: HostRuntime) {
    let alloc = rt.alloc();
    assert_de(
        &rt,
        alloc,
        "Deserialization failed: ",
        |error| Error::De(error),
    );
    assert_ser(&rt, alloc, "Socket error: Serialization error: ", |error| {
        Error::Socket(SocketError::Ser(error))
    });
    let rows: [(Error, &str); 7] = [
        (
            RouterError::Msg(MsgError::from_static("no link")),
            "no link",
        ),
        (RouterError::Io(ErrorKind::Other), "IO error: other error"),
        (RouterError::NoAck, "No ACK received"),
        (
            RouterError::UnexpectedAck,
            "ACK received when none was expected",
        ),
        (
            RouterError::ClosedChannel,
            "A channel required for message processing closed",
        ),
        (RouterError::SeqInUse(3), "Sequence number 3 is in use"),
        (RouterError::Memory, "Out of memory"),
    ];
    for (error, want) in &rows {
        assert_prints(&rt, alloc, error, want);
    }
}

#[test]
fn refusals_by_the_other_side(rt: HostRuntime) {
    let alloc = rt.alloc();
    let want = "Application error was returned by netlink: netlink error -22";
    let explained = "-22 EINVAL: Invalid argument";
    let mut whole = message_in(&rt, alloc, &WHOLE);
    let answer = whole.get_err().expect(&rt, "an error");
    assert_prints(&rt, alloc, &answer, "netlink error -22");
    assert_prints(&rt, alloc, &answer.explained(), explained);
    assert_prints(&rt, alloc, &Error::Nlmsgerr(answer), want);
    let mut capped = message_in(&rt, alloc, &CAPPED);
    let answer = capped.get_capped().expect(&rt, "a capped error");
    assert_prints(&rt, alloc, &answer, "netlink error -22");
    assert_prints(&rt, alloc, &answer.explained(), explained);
    assert_prints(&rt, alloc, &Error::Capped(answer), want);
    let want = "A bad sequence number or PID was received: number 3, port 9";
    let stray = Error::BadSeqOrPid(message_in(&rt, alloc, &CAPPED));
    assert_prints(&rt, alloc, &stray, want);
    for (number, want) in [
        (1, "EPERM: Operation not permitted"),
        (133, "EHWPOISON: Memory page has hardware error"),
    ] {
        let errno = Errno::from_number(number).expect(&rt, want);
        assert_prints(&rt, alloc, &errno, want);
    }
}

#[test]
fn refusals_of_builders(rt: HostRuntime) {
    let alloc = rt.alloc();
    let want = "`nla_type` must be initialized";
    let error: BuildError<1> = BuildError::UninitializedField("nla_type");
    assert_prints(&rt, alloc, &error, want);
    let error: BuildError<1> = BuildError::ValidationError("too long");
    assert_prints(&rt, alloc, &error, "too long");
    let error: BuildError<1> = BuildError::Memory;
    assert_prints(&rt, alloc, &error, "Out of memory");
    for error in [
        BuilderError::Nlmsghdr(BuildError::UninitializedField("nla_type")),
        BuilderError::Nlmsgerr(BuildError::UninitializedField("nla_type")),
        BuilderError::NlmsghdrErr(BuildError::UninitializedField("nla_type")),
        BuilderError::NlmsghdrAck(BuildError::UninitializedField("nla_type")),
        BuilderError::AttrType(BuildError::UninitializedField("nla_type")),
        BuilderError::Nlattr(BuildError::UninitializedField("nla_type")),
        BuilderError::Rtattr(BuildError::UninitializedField("nla_type")),
        BuilderError::Genlmsghdr(BuildError::UninitializedField("nla_type")),
        BuilderError::Ifinfomsg(BuildError::UninitializedField("nla_type")),
        BuilderError::Ifaddrmsg(BuildError::UninitializedField("nla_type")),
        BuilderError::Rtgenmsg(BuildError::UninitializedField("nla_type")),
        BuilderError::Rtmsg(BuildError::UninitializedField("nla_type")),
        BuilderError::Ndmsg(BuildError::UninitializedField("nla_type")),
        BuilderError::NdaCacheinfo(BuildError::UninitializedField("nla_type")),
        BuilderError::Tcmsg(BuildError::UninitializedField("nla_type")),
    ] {
        assert_prints(&rt, alloc, &error, want);
    }
}

#[test]
fn refusals_of_tables(rt: HostRuntime) {
    let alloc = rt.alloc();
    for (why, want) in [
        (Why::UnknownWord, "no line begins with this word"),
        (Why::NameMissing, "a name is missing"),
        (Why::NumberMissing, "a number is missing"),
        (Why::NumberElsewhere, "such a line has no number"),
        (
            Why::NotANumber,
            "no number of 64 bits, or a range out of order",
        ),
        (Why::UnknownOption, "no such option"),
        (
            Why::Value,
            "an option without its value, or with one that it does not take",
        ),
        (Why::Twice, "an option that stands twice"),
        (Why::OptionElsewhere, "an option that does not belong here"),
        (Why::FamilyFirst, "the family comes first, and once"),
        (Why::RowElsewhere, "a row that does not belong here"),
        (Why::NothingNamed, "a name that no such line has"),
    ] {
        assert_prints(&rt, alloc, &why, want);
        assert_link(&rt, alloc, &ReadError::Line(12, why), "line 12: ", want);
    }
    assert_prints(&rt, alloc, &ReadError::Memory, "out of memory");
}

#[test]
fn refusals_of_payloads(rt: HostRuntime) {
    let alloc = rt.alloc();
    for (breach, want) in [
        (Breach::Shorter(4), "shorter than 4 bytes"),
        (Breach::Longer(16), "longer than 16 bytes"),
        (Breach::Uneven(8), "no whole parts of 8 bytes"),
        (Breach::NotText, "not UTF-8"),
        (Breach::NoZero, "no zero at the end"),
        (Breach::NoAddress, "no address of 4 or 16 bytes"),
        (Breach::NoSocket, "no address of a socket"),
    ] {
        assert_prints(&rt, alloc, &breach, want);
        assert_prints(&rt, alloc, &Wrong::Kind(breach), want);
    }
    let span = Span {
        first: 1,
        last: 65535,
    };
    for (wrong, want) in [
        (Wrong::Length(span), "not of 1 to 65535 bytes"),
        (Wrong::Range(span), "not from 1 to 65535"),
        (Wrong::Mask(255), "bits that are not in 0xff"),
        (Wrong::Deep, "a nest in too many"),
        (Wrong::Rest(3), "3 bytes after the attributes"),
    ] {
        assert_prints(&rt, alloc, &wrong, want);
    }
    assert_prints(&rt, alloc, &HardwareAddressError, "no hardware address");
}

#[test]
fn refusals_of_inputs(rt: HostRuntime) {
    let alloc = rt.alloc();
    for (refusal, want) in [
        (Refusal::FileHeader, "the input ends inside a file's header"),
        (Refusal::LinkType(1), "a file of link type 1"),
        (
            Refusal::RecordHeader,
            "the input ends inside a record's header",
        ),
        (
            Refusal::RecordBytes(52),
            "the input ends after 52 bytes of a record",
        ),
        (Refusal::Snapped(96), "a packet cut short from 96 bytes"),
        (Refusal::NotNetlink, "a packet that is not of netlink"),
        (
            Refusal::Gap,
            "an offset that is not the number of bytes before it",
        ),
        (Refusal::NotHex, "a line that is not hexadecimal"),
    ] {
        assert_prints(&rt, alloc, &refusal, want);
    }
    let words = MsgError::from_static("no family");
    for (error, want) in [
        (DeError::InvalidInput(3), "a wrong length, 3"),
        (
            DeError::Io(ErrorKind::UnexpectedEof),
            "the bytes end too early",
        ),
        (DeError::Memory, "out of memory"),
        (DeError::Msg(words), "unreadable"),
        (DeError::Utf8(no_text(&rt)), "unreadable"),
    ] {
        assert_prints(&rt, alloc, &Fault(&error), want);
    }
}

#[test]
fn refusals_of_a_session(rt: HostRuntime) {
    let alloc = rt.alloc();
    for (error, want) in [
        (SendError::Unreadable, "Not one or more whole messages"),
        (
            SendError::TwoDumps,
            "Several requests of a datagram are answered by dumps",
        ),
        (
            SendError::InUse(4294967295),
            "Sequence number 4294967295 is in use",
        ),
        (SendError::NoNumber, "No sequence number is free"),
        (SendError::Length, "Length does not fit its field"),
        (SendError::Memory, "Out of memory"),
    ] {
        assert_prints(&rt, alloc, &error, want);
    }
    for (loss, want) in [
        (Loss::Link(105), "The link failed: errno 105"),
        (Loss::Datagram, "A datagram could not be read to its end"),
        (Loss::Unsent(-1), "The request was not sent: errno -1"),
    ] {
        assert_prints(&rt, alloc, &loss, want);
    }
    assert_prints(&rt, alloc, &Untaken { taken: 3 }, "Out of memory");
}
