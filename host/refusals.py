#!/usr/bin/env python3
"""host/refusals.py [-v]: what a check says of thousands of requests, beside what this machine's kernel does with them.

In a network namespace of its own (`unshare -Urn`). Of each message of MESSAGES, by its table, each attribute is sent
with other widths, ranges and flags, with unknown ones and with bytes behind the last; NELI_LIBRARY names the library.
It prints how often each outcome came (host/README.md), with -v the requests of those that differ. A test fails where
the kernel's parser refuses one of SURE that passed before it was sent. The last line is 'N passed, M failed'.
"""

import collections
import os
import re
import socket
import struct
import sys

TOP = os.path.dirname(os.path.dirname(os.path.abspath(__file__)))
sys.path[:0] = [f"{TOP}/tables", f"{TOP}/host/python"]
sys.dont_write_bytecode = True
import form  # noqa: E402

NESTED = 0x8000
SOL_NETLINK, EXT_ACK = 270, 11
REQUEST, ACK, DUMP = 1, 4, 0x300

# What the kernel's parsers say (lib/nlattr.c); any other text is of what reads the attributes later.
PARSER = {
    "Attribute failed policy validation", "NLA_F_NESTED is missing", "NLA_F_NESTED not expected",
    "Unknown attribute type", "Unsupported attribute", "invalid attribute length", "integer out of range",
    "binary attribute size out of range", "reserved bit set", "bytes leftover after parsing attributes",
    "allowed policy recursion depth exceeded", "Array element too short"}

# The texts of refusals that a check foresees of each attribute that a request may have; the others are also of
# attributes that only answers have, of newer kernels, and of limits that no row states.
SURE = {"invalid attribute length", "NLA_F_NESTED is missing"}
# But of these rows not, and why.
OTHERWISE = {"NHA_ENCAP": "a choice whose attribute is missing, so that nothing says that it is a nest"}

Request = collections.namedtuple("Request", "what protocol data path")
Answer = collections.namedtuple("Answer", "error text offset")


def attribute(number, payload, flags=0):
    data = struct.pack("<HH", 4 + len(payload), number | flags) + payload
    return data + bytes(-len(data) % 4)


# ---- the messages: a table, a message of it, the header of its body, attributes that it needs, and its flags

Case = collections.namedtuple("Case", "table message header needs flags")


def link_header(family=0, index=1):
    return struct.pack("<BxHiII", family, 0, index, 0, 0)


def route_header(family):
    return struct.pack("<BBBBBBBBI", family, 0, 0, 0, 254, 4, 0, 1, 0)


MESSAGES = [
    Case("rt_link", "RTM_SETLINK", link_header(), b"", 0),
    Case("rt_link", "RTM_NEWLINK", link_header(), b"", 0),
    Case("rt_link", "RTM_GETLINK", link_header(), b"", 0),
    Case("rt_link", "RTM_GETSTATS", struct.pack("<BBHIi", 0, 0, 0, 1, 1)[:12], b"", 0),
    Case("rt_link", "RTM_NEWLINKPROP", link_header(), b"", 0),
    Case("rt_addr", "RTM_NEWADDR", struct.pack("<BBBBi", 2, 32, 0, 0, 1), b"", 0),
    Case("rt_addr", "RTM_NEWADDR", struct.pack("<BBBBi", 10, 128, 0, 0, 1), b"", 0),
    Case("rt_addr", "RTM_DELADDR", struct.pack("<BBBBi", 2, 32, 0, 0, 1), b"", 0),
    Case("rt_route", "RTM_NEWROUTE", route_header(2), b"", 0),
    Case("rt_route", "RTM_NEWROUTE", route_header(10), b"", 0),
    Case("rt_route", "RTM_NEWNEXTHOP", struct.pack("<BBBBI", 2, 0, 0, 0, 0), b"", 0),
    Case("rt_neigh", "RTM_NEWNEIGH", struct.pack("<BxxxiHBB", 2, 1, 0, 0, 0), b"", 0),
    Case("rt_neigh", "RTM_DELNEIGH", struct.pack("<BxxxiHBB", 10, 1, 0, 0, 0), b"", 0),
    Case("rt_rule", "RTM_NEWRULE", struct.pack("<BBBBBxxBI", 2, 0, 0, 0, 254, 1, 0), b"", 0x400),
    Case("rt_rule", "RTM_DELRULE", struct.pack("<BBBBBxxBI", 10, 0, 0, 0, 254, 1, 0), b"", 0),
    Case("tc", "RTM_NEWQDISC", struct.pack("<BxxxiIII", 0, 1, 0, 0xffffffff, 0), b"", 0),
    Case("nlctrl", "CTRL_CMD_GETFAMILY", b"", b"", 0),
    Case("nlctrl", "CTRL_CMD_GETPOLICY", b"", b"", DUMP),
    Case("netdev", "NETDEV_CMD_DEV_GET", b"", b"", 0),
    Case("netdev", "NETDEV_CMD_QUEUE_GET", b"", b"", 0),
    Case("netdev", "NETDEV_CMD_QSTATS_GET", b"", b"", DUMP),
    Case("mptcp_pm", "MPTCP_PM_CMD_ADD_ADDR", b"", b"", 0),
    Case("mptcp_pm", "MPTCP_PM_CMD_SET_LIMITS", b"", b"", 0),
    Case("fou", "FOU_CMD_ADD", b"", b"", 0),
    Case("tcp_metrics", "TCP_METRICS_CMD_GET", b"", b"", 0),
    Case("devlink", "DEVLINK_CMD_GET", b"", b"", 0),
    Case("devlink", "DEVLINK_CMD_PORT_GET", b"", b"", 0),
    Case("seg6", "SEG6_CMD_SETHMAC", b"", b"", 0),
    Case("ioam6", "IOAM6_CMD_ADD_NAMESPACE", b"", b"", 0),
    Case("nl80211", "NL80211_CMD_GET_WIPHY", b"", b"", 0),
    Case("wireguard", "WG_CMD_SET_DEVICE", b"", b"", 0),
    Case("nftables", "NFT_MSG_NEWTABLE", struct.pack(">BBH", 1, 0, 0), b"", 0x400),
    Case("nftables", "NFT_MSG_GETRULE", struct.pack(">BBH", 1, 0, 0), b"", 0),
] + [Case("ethtool", f"ETHTOOL_MSG_{name}", b"", b"", 0) for name in (
    "LINKINFO_GET", "LINKMODES_SET", "STRSET_GET", "DEBUG_SET", "WOL_SET", "FEATURES_SET", "RINGS_SET",
    "CHANNELS_SET", "COALESCE_SET", "PAUSE_SET", "EEE_SET", "CABLE_TEST_TDR_ACT", "FEC_SET", "MODULE_SET",
    "STATS_GET", "RSS_GET", "PLCA_SET_CFG", "MM_SET")]

WIDTHS = {**form.NUMBERS, "uint": 4, "sint": 4, "ipv4": 4, "ipv6": 16, "bits": 8, "uuid": 16}


class Table:
    """A table's lines by word and name."""

    def __init__(self, name):
        with open(f"{TOP}/tables/{name}.table", encoding="ascii") as text:
            self.sections = form.read_whole(text.read())
        self.by_name = {}
        for section in self.sections:
            self.by_name.setdefault((section.word, section.name), section)
        self.family = self.sections[0]

    def message(self, name):
        return next(s for s in self.sections if (s.word, s.name) == ("message", name) and not s.option("reply"))

    def rows(self, name):
        return [row for row in self.by_name["set", name].rows if row.word == "attr"]


def good(row, family):
    """A payload that a row allows, of kinds that are easily made."""
    kind, length = row.kind, row.option("length")
    least = length[0] if length else 0
    if kind == "address":
        return bytes({2: 4, 10: 16}.get(family, 4))
    if kind in WIDTHS and not row.option("array"):
        first = (row.option("range") or (0, 0))[0]
        order = "big" if kind.startswith(("be", "sbe")) else "little"
        return first.to_bytes(WIDTHS[kind], order) if kind in form.NUMBERS else bytes(WIDTHS[kind])
    return {"text": b"x" * max(1, least), "ztext": b"x" * max(1, least - 1) + b"\0"}.get(kind, bytes(least))


def changed(row, family):
    """What is wrong with a payload, the payload, and the flags of its type."""
    kind, payload = row.kind, good(row, family)
    flag = NESTED if kind == "nest" else 0
    yield "as it is", payload, flag
    if kind in ("nest", "hops", "choice"):
        if kind == "nest":
            yield "not marked as a nest", payload, 0
            yield "a nest of 3 bytes", b"\0\0\0", NESTED
            yield "an unknown attribute in a nest", attribute(0x1fff, b"\0\0\0\0"), NESTED
            yield "bytes after the attributes of a nest", attribute(0x1fff, b"")[:4] + b"\1\2", NESTED
        return
    yield "marked as a nest", payload, NESTED
    if kind == "flag":
        yield "a flag with a byte", b"\1", 0
        return
    if payload:
        yield "a byte less", payload[:-1], 0
        yield "nothing", b"", 0
    yield "a byte more", payload + b"\0", 0
    yield "four bytes more", payload + b"\0\0\0\0", 0
    if kind in ("text", "ztext"):
        yield "no UTF-8", b"\xff\xfe\0", 0
        yield "a long text", b"x" * 300 + b"\0", 0
        yield "no zero", b"x" * max(1, len(payload) - 1), 0
    if kind in form.NUMBERS and not row.option("array"):
        width, order = WIDTHS[kind], "big" if kind.startswith(("be", "sbe")) else "little"
        yield "all bits", b"\xff" * width, 0
        span = row.option("range")
        if span:
            yield "above its range", ((span[1] + 1) % 256**width).to_bytes(width, order), 0
        if span and span[0]:
            yield "below its range", (span[0] - 1).to_bytes(width, order), 0
    if kind == "bits":
        yield "bits that are not selected", b"\1\0\0\0\0\0\0\0", 0


def bodies(table, case, family):
    """What is wrong with a body, its attributes, and the paths of the changed one."""
    line = table.message(case.message)
    rows = table.rows(line.option("nest")) if line.option("nest") else []
    for row in rows:
        for what, payload, flags in changed(row, family):
            yield f"{row.name}: {what}", attribute(row.span[0], payload, flags), row.name
        if row.kind == "nest" and not row.option("after"):
            inside = (r for r in table.by_name["set", row.option("nest")].rows if r.word == "attr")
            for inner in list(inside)[:6]:
                for what, payload, flags in changed(inner, family):
                    yield (f"{row.name}.{inner.name}: {what}",
                           attribute(row.span[0], attribute(inner.span[0], payload, flags), NESTED), row.name)
    yield "an unknown attribute", attribute(0x1fff, b"\0\0\0\0"), ""
    yield "bytes after the attributes", b"\1\2\3\4\5"[:3], ""
    if rows:
        name = next((row for row in rows if row.kind == "text"), None)
        if name is not None:
            yield f"{name.name}: a last attribute without its padding", attribute(name.span[0], b"x")[:5], name.name


class Kernel:
    """Sockets of routing, generic netlink and netfilter, and the numbers of families."""

    def __init__(self):
        self.sockets, self.sequence, self.families = {}, 1, {}

    def socket(self, protocol):
        if protocol not in self.sockets:
            link = socket.socket(socket.AF_NETLINK, socket.SOCK_RAW, protocol)
            link.setsockopt(SOL_NETLINK, EXT_ACK, 1)
            link.settimeout(5)
            link.bind((0, 0))
            self.sockets[protocol] = link
        return self.sockets[protocol]

    def family(self, name):
        """The number of a family of generic netlink, or None."""
        if name == "nlctrl":
            return 16
        if name not in self.families:
            body = struct.pack("<BBH", 3, 1, 0) + attribute(2, name.encode() + b"\0")
            data, answer = self.exchanged(16, self.message(16, body, 0))
            found = re.search(rb"\x06\x00\x01\x00(..)\x00\x00", data, re.S) if answer.error == 0 else None
            self.families[name] = struct.unpack("<H", found[1])[0] if found else None
        return self.families[name]

    def message(self, kind, body, flags):
        self.sequence += 1
        return struct.pack("<IHHII", 16 + len(body), kind, REQUEST | ACK | flags, self.sequence, 0) + body

    def exchanged(self, protocol, data):
        """What is received for a request, and how it ends."""
        link, all_of = self.socket(protocol), b""
        link.send(data)
        while True:
            part = link.recv(1 << 17)
            all_of += part
            at = 0
            while at + 16 <= len(part):
                size, kind, flags, sequence, _ = struct.unpack_from("<IHHII", part, at)
                if sequence == struct.unpack_from("<I", data, 8)[0] and kind in (2, 3):
                    return all_of, answer_of(part[at:at + size], kind, flags, len(data))
                at += size + -size % 4


def answer_of(message, kind, flags, length):
    """The error, the text and the offset of an answer."""
    error = struct.unpack_from("<i", message, 16)[0] if len(message) >= 20 else 0
    echo = 20 + (16 if flags & 0x100 or error == 0 else length + -length % 4) if kind == 2 else 20
    text, offset, at = None, None, echo
    while flags & 0x200 and at + 4 <= len(message):
        size, number = struct.unpack_from("<HH", message, at)
        payload = message[at + 4:at + size]
        if number == 1:
            text = payload.rstrip(b"\0").decode()
        if number == 2:
            offset = struct.unpack("<I", payload)[0]
        at += max(4, size + -size % 4)
    return Answer(-error, text, offset)


def requests(kernel):
    """All requests of the messages whose family this kernel has."""
    for case in MESSAGES:
        table = Table(case.table)
        line, protocol = table.message(case.message), table.family.span[0]
        kind, header, family = line.span[0], case.header, case.header[0] if case.header else 0
        if protocol == 16:
            kind, header, family = kernel.family(table.family.name), struct.pack("<BBH", line.span[0], 1, 0), 0
            if kind is None:
                continue
        header += bytes(-len(header) % 4)
        for what, attributes, path in bodies(table, case, family):
            data = kernel.message(kind, header + attributes + case.needs, case.flags)
            yield Request(f"{case.message}{f' {family}' if family else ''} {what}", protocol, data, path)


def said_by(schema, request):
    """What the check of the library says of a request: nothing where it passes. A frame ends with its padding."""
    import neli
    (message,) = neli.messages(request.data + bytes(-len(request.data) % 4), request.protocol)
    return schema.check(message) or ""


def outcome(said, answer):
    """What the check and the kernel made of a request."""
    by_parser = answer.error != 0 and answer.text in PARSER
    kernel = "the parser refuses it" if by_parser else "refused later" if answer.error else "taken"
    return ("refused" if said else "passes"), kernel


def compare(kernel, said_of, count, verbose):
    """Sends all requests, counts the outcomes and prints them; `said_of` is what a check says of a request."""
    outcomes, texts = collections.Counter(), collections.Counter()
    for request in requests(kernel):
        said, (_, answer) = said_of(request), kernel.exchanged(request.protocol, request.data)
        found = outcome(said, answer)
        outcomes[found] += 1
        differs = found in (("passes", "the parser refuses it"), ("refused", "taken"))
        if differs:
            texts[answer.text if found[0] == "passes" else said.partition(": ")[2]] += 1
        if differs and verbose:
            print(f"{request.what}: check: {said or 'passes'}; kernel: {answer.error} {answer.text or ''}")
        if found == ("passes", "the parser refuses it") and answer.text in SURE and request.path not in OTHERWISE:
            count(request.what, False, f"the kernel: {answer.text}")
    for (check, kernel_does), number in sorted(outcomes.items()):
        print(f"check: {check}; kernel: {kernel_does}: {number}")
    for text, number in texts.most_common():
        print(f"  differs: {text}: {number}")
    both = outcomes["refused", "the parser refuses it"]
    count("most refusals of the parser are foreseen", both > 3 * outcomes["passes", "the parser refuses it"])
    count("most requests that are taken pass", outcomes["passes", "taken"] > 3 * outcomes["refused", "taken"])


def main():
    import neli_schema
    results = collections.Counter()

    def count(what, is_well, said=""):
        results[bool(is_well)] += 1
        if not is_well:
            print(f"FAILED {what} {said}")

    kernel = Kernel()
    with neli_schema.Schema() as schema:
        for name in {case.table for case in MESSAGES}:
            family = Table(name).family
            number = kernel.family(family.name) if family.span[0] == 16 else None
            if number:
                schema.learn(number, family.name)
        compare(kernel, lambda request: said_by(schema, request), count, "-v" in sys.argv)
    print(f"{results[True]} passed, {results[False]} failed")
    sys.exit(results[False] != 0)


if __name__ == "__main__":
    main()
