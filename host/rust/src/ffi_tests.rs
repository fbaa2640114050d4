//! What `ffi.rs` declares is what `include/neli.h` declares.

use super::kernel::Request;
use super::tables::Named;
use super::{Answer, Attribute, Bytes, Message, Opaque, RawLent, Verdict, Walk, Writer};
use std::io::Write;
use std::mem::offset_of;
use std::process::{Command, Stdio};

const HEADER: &str = include_str!(env!("NELI_FILE_NELI_H"));
const DECLARED: &str = concat!(include_str!("ffi.rs"), include_str!("ffi/kernel.rs"), include_str!("ffi/tables.rs"));

/// What `ffi.rs` takes of the C library, and what it has there, as a C program prints both: a number's value, a
/// struct's size, or a field's place.
const SYSTEM: [(&str, usize); 30] = [
    ("AF_NETLINK", super::AF_NETLINK as usize),
    ("SOCK_RAW", super::SOCK_RAW as usize),
    ("SOCK_CLOEXEC", super::SOCK_CLOEXEC as usize),
    ("SOL_NETLINK", super::SOL_NETLINK as usize),
    ("NETLINK_PKTINFO", super::NETLINK_PKTINFO as usize),
    ("NETLINK_LIST_MEMBERSHIPS", super::NETLINK_LIST_MEMBERSHIPS as usize),
    ("MSG_TRUNC", super::MSG_TRUNC as usize),
    ("MSG_DONTWAIT", super::MSG_DONTWAIT as usize),
    ("POLLIN", super::POLLIN as usize),
    ("EFD_CLOEXEC", super::EFD_CLOEXEC as usize),
    ("EFD_NONBLOCK", super::EFD_NONBLOCK as usize),
    ("sizeof(struct sockaddr_nl)", size_of::<super::Address>()),
    ("offsetof(struct sockaddr_nl, nl_pid)", offset_of!(super::Address, port)),
    ("offsetof(struct sockaddr_nl, nl_groups)", offset_of!(super::Address, groups)),
    ("sizeof(struct iovec)", size_of::<super::Slice>()),
    ("offsetof(struct iovec, iov_len)", offset_of!(super::Slice, length)),
    ("sizeof(struct msghdr)", size_of::<super::Header>()),
    ("offsetof(struct msghdr, msg_namelen)", offset_of!(super::Header, name_size)),
    ("offsetof(struct msghdr, msg_iov)", offset_of!(super::Header, slices)),
    ("offsetof(struct msghdr, msg_iovlen)", offset_of!(super::Header, slice_count)),
    ("offsetof(struct msghdr, msg_control)", offset_of!(super::Header, control)),
    ("offsetof(struct msghdr, msg_controllen)", offset_of!(super::Header, control_size)),
    ("offsetof(struct msghdr, msg_flags)", offset_of!(super::Header, flags)),
    ("CMSG_SPACE(sizeof(struct nl_pktinfo))", size_of::<super::Control>()),
    ("CMSG_LEN(sizeof(struct nl_pktinfo))", super::CONTROL_SIZE),
    ("offsetof(struct cmsghdr, cmsg_type)", offset_of!(super::Control, kind)),
    ("CMSG_LEN(0)", offset_of!(super::Control, group)),
    ("sizeof(struct pollfd)", size_of::<super::Watched>()),
    ("offsetof(struct pollfd, events)", offset_of!(super::Watched, events)),
    ("offsetof(struct pollfd, revents)", offset_of!(super::Watched, found)),
];

#[test]
fn the_system_has_these_structs_and_numbers() {
    let shown: String = SYSTEM.iter().map(|(it, _)| format!("printf(\"%zu\\n\", (size_t)({it}));")).collect();
    let headers = ["linux/netlink.h", "poll.h", "stddef.h", "stdio.h", "sys/eventfd.h", "sys/socket.h", "sys/uio.h"];
    let headers: String = headers.iter().map(|it| format!("#include <{it}>\n")).collect();
    let program = std::env::temp_dir().join(format!("neli_system_{}", std::process::id()));
    let mut cc = Command::new("cc");
    cc.args(["-x", "c", "-", "-o"]).arg(&program).stdin(Stdio::piped());
    let Ok(mut compiler) = cc.spawn() else { return println!("not run: there is no C compiler") };
    let text = format!("#define _GNU_SOURCE\n{headers}int main(void) {{ {shown} return 0; }}\n");
    compiler.stdin.take().expect("a pipe").write_all(text.as_bytes()).expect("it is written");
    assert!(compiler.wait().is_ok_and(|it| it.success()));
    let said = Command::new(&program).output().expect("it runs").stdout;
    std::fs::remove_file(&program).expect("it is removed");
    let said = String::from_utf8(said).expect("numbers");
    let found: Vec<(&str, usize)> =
        SYSTEM.iter().zip(said.lines()).map(|((name, _), it)| (*name, it.parse().expect("a number"))).collect();
    assert_eq!(found, SYSTEM);
}

/// The codes that this crate names.
const CODES: [(&str, i32); 17] = [
    ("NELI_ITEM", super::ITEM),
    ("NELI_END", super::END),
    ("NELI_WAITS", super::WAITS),
    ("NELI_KERNEL_ERROR", super::KERNEL_ERROR),
    ("NELI_INTERRUPTED", super::INTERRUPTED),
    ("NELI_VIOLATION", super::VIOLATION),
    ("NELI_SHORT", super::SHORT),
    ("NELI_LENGTH", super::LENGTH),
    ("NELI_MEMORY", super::MEMORY),
    ("NELI_ROOM", super::ROOM),
    ("NELI_HANDLE", super::HANDLE),
    ("NELI_IN_USE", super::IN_USE),
    ("NELI_LINK", super::LINK),
    ("NELI_BYTES", super::BYTES),
    ("NELI_KIND", super::KIND),
    ("NELI_TABLE", super::TABLE),
    ("NELI_UNENDED", super::UNENDED),
];

/// A type of the header, as this crate writes it.
fn rust_type(c: &str) -> String {
    let (is_const, plain) = c.strip_prefix("const ").map_or((false, c), |it| (true, it));
    let (is_pointer, plain) = plain.strip_suffix('*').map_or((false, plain), |it| (true, it));
    let name = match plain.trim() {
        "uint8_t" => "u8",
        "uint16_t" => "u16",
        "uint32_t" => "u32",
        "int32_t" => "i32",
        "size_t" => "usize",
        "struct neli_walk" => "Walk",
        "struct neli_message" => "Message",
        "struct neli_attribute" => "Attribute",
        "struct neli_answer" => "Answer",
        "struct neli_writer" => "Writer",
        "struct neli_lent" => "RawLent",
        "struct neli_verdict" => "Verdict",
        "struct neli_session" | "struct neli_kernel_dump" | "struct neli_tables" => "Opaque",
        "struct neli_bytes" => "Bytes",
        "struct neli_request" => "Request",
        "struct neli_named" => "Named",
        other => panic!("{other}"),
    };
    let pointer = if is_const { "*const " } else { "*mut " };
    format!("{}{name}", if is_pointer { pointer } else { "" })
}

/// The types of the parameters of a declaration of C.
fn types_in_c(parameters: &str) -> Vec<String> {
    let without_name = |it: &str| {
        let end = it.trim_end_matches(|c: char| c.is_ascii_alphanumeric() || c == '_').len();
        rust_type(it[..end].trim())
    };
    parameters.split(',').map(|it| without_name(it.trim())).collect()
}

/// The types of the parameters of a declaration of Rust.
fn types_in_rust(parameters: &str) -> Vec<&str> {
    parameters.split(',').filter_map(|it| it.split_once(": ")).map(|(_, kind)| kind.trim()).collect()
}

#[test]
fn calls_are_declared_as_in_the_header() {
    let mut count = 0;
    for call in DECLARED.split("fn neli_c_").skip(1) {
        let (name, rest) = call.split_once('(').expect("a call has parameters");
        let (parameters, rest) = rest.split_once(')').expect("which end");
        let (result, _) = rest.split_once(';').expect("and a result");
        let in_c = match result {
            " -> i32" => "int32_t",
            " -> u32" => "uint32_t",
            other => panic!("{name}{other}"),
        };
        let declaration = format!("\n{in_c} neli_c_{name}(");
        let (_, rest) = HEADER.split_once(&declaration).expect("the header has the call");
        let (in_header, _) = rest.split_once(')').expect("whose parameters end");
        assert_eq!(types_in_rust(parameters), types_in_c(in_header), "{name}");
        count += 1;
    }
    assert!(count > 10, "{count} calls");
}

#[test]
fn codes_are_those_of_the_header() {
    for (name, code) in CODES {
        let line = format!("    {name} = {code}");
        assert!(HEADER.contains(&format!("{line},")) || HEADER.contains(&format!("{line} ")), "{name}");
    }
    let readers = [
        ("REQUEST", super::READER_REQUEST),
        ("MULTICAST", super::READER_MULTICAST),
        ("UNASKED", super::READER_UNASKED),
    ];
    for (name, number) in readers {
        assert!(HEADER.contains(&format!("NELI_READER_{name} = {number}")), "{name}");
    }
    let attributes =
        [("NELI_ANSWER_MISSING", super::ANSWER_MISSING), ("NELI_ANSWER_MISSING_NEST", super::ANSWER_MISSING_NEST)];
    for (name, number) in attributes {
        assert!(HEADER.contains(&format!("#define {name} {number}\n")), "{name}");
    }
}

/// Sizes and places are those of a C compiler for x86-64.
#[test]
fn structs_are_laid_out_as_in_c() {
    let sizes = [
        (size_of::<Walk>(), 16),
        (size_of::<Message>(), 32),
        (size_of::<Attribute>(), 24),
        (size_of::<Answer>(), 40),
        (size_of::<Writer>(), 16),
        (size_of::<RawLent>(), 56),
        (size_of::<Verdict>(), 8),
        (size_of::<Opaque>(), 16),
        (size_of::<Bytes>(), 16),
        (size_of::<Request>(), 48),
        (size_of::<Named>(), 56),
    ];
    for (found, wanted) in sizes {
        assert_eq!(found, wanted);
    }
    assert_eq!((offset_of!(Message, number), offset_of!(Message, payload)), (8, 16));
    assert_eq!((offset_of!(Attribute, number), offset_of!(Attribute, payload)), (4, 8));
    assert_eq!((offset_of!(Answer, echo_number), offset_of!(Answer, attributes)), (12, 24));
    assert_eq!((offset_of!(RawLent, bytes), offset_of!(RawLent, length), offset_of!(RawLent, error)), (32, 40, 48));
    assert_eq!(offset_of!(Verdict, filtered), 4);
    assert_eq!((offset_of!(Opaque, state), offset_of!(Bytes, length)), (8, 8));
    assert_eq!((offset_of!(Request, port), offset_of!(Request, wants_echo)), (32, 40));
    assert_eq!((offset_of!(Named, depth), offset_of!(Named, payload)), (3, 8));
}
