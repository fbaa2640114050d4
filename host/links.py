"""How example_links ends, run as a program: its exit status reports whether the list of links is complete."""

import struct
from errno import ENODEV

from shown import TOP, ended

PROGRAM = f"{TOP}/crates/example_links/out/example_links"
# The types and the flags of linux/netlink.h.
NLMSG_ERROR, NLMSG_DONE = 2, 3
MULTI, DUMP_INTR, DUMP_FILTERED, CAPPED = 0x2, 0x10, 0x20, 0x100


def message(kind, flags, code, rest=b""):
    """An end of a dump or an error, of request 7 and port 9."""
    return struct.pack("<IHHIIi", 20 + len(rest), kind, flags, 7, 9, code) + rest


def end(flags, code):
    return message(NLMSG_DONE, MULTI | flags, code)


# The answer of Linux 6.18 to a dump of a table that is not there, recording 0372: an end with ENOENT and a text.
NO_TABLE = bytes.fromhex("3800000003002200a7040000ebd2b981feffffff23000100") + b"ipv4: FIB table does not exist\0\0"
REFUSED = message(NLMSG_ERROR, CAPPED, -ENODEV, struct.pack("<IHHII", 20, 18, 0x301, 7, 9))
CHANGED = b"what is listed changed meanwhile: ask again"
# What the program is given, its exit status, and its reason on standard error: None is any.
ROWS = (
    ("an end", end(0, 0), 0, b""),
    ("an end of what a request chose", end(DUMP_FILTERED, 0), 0, b""),
    ("an end of a list that changed", end(DUMP_INTR, 0), 2, CHANGED),
    ("an end with a code", end(0, -ENODEV), 3, b"the kernel ended the list with the code -19"),
    ("an end with a code, of a list that changed", end(DUMP_INTR, -ENODEV), 2, CHANGED),
    ("a table that is not there", NO_TABLE, 3, b"the kernel ended the list with the code -2"),
    ("a refusal", REFUSED, 3, None),
    ("an end without its last byte", end(0, 0)[:-1], 4, None),
    ("no answer", b"", 4, None),
)


def line_of(reason):
    return b"example_links: " + reason + b"\n" if reason else b""


def compare(count):
    """Counts each row."""
    for what, given, status, reason in ROWS:
        ended_with, printed, said = ended(PROGRAM, [], {"input": given})
        is_said = said.startswith(b"example_links: ") if reason is None else said == line_of(reason)
        count(f"example_links of {what}", is_said and (ended_with, printed) == (status, b""), f"{ended_with} {said}")
