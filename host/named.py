"""Requests by name: host/test runs these in network namespaces, and gives each the folder of the programs.

`try_do` asks `ip` what `do` has made. `try_named` sends the same requests by `do` and by NamedSocket of neli_schema,
and wants that a refusal names the attribute that the kernel's acknowledgement names. Where NELI_YNL names a folder with
the kernel's own reader in Python (tools/net/ynl, Documentation/netlink/specs), it sends them by that too: the bytes of
the requests are the same, and so are the replies and the refusals, name by name. `try_writing` runs the examples of
docs/WRITING.md in C, Python and the shell.
"""

import copy
import json
import os
import re
import subprocess
import sys
import tempfile

from inside import HERE, TOP, ip, ip_json, not_run, well
from limit import run

CREATE, EXCL = 0x400, 0x200  # linux/netlink.h
OPTIONS = {CREATE: "--create", EXCL: "--excl"}
PEER = {"IFLA_INFO_KIND": "veth", "IFLA_INFO_DATA": {"VETH_INFO_PEER": {"IFLA_IFNAME": "vb"}}}
BRIDGE = {"IFLA_INFO_KIND": "bridge", "IFLA_INFO_DATA": {"IFLA_BR_PRIORITY": 5, "IFLA_BR_STP_STATE": 1}}
OF_VA = {"ETHTOOL_A_HEADER_DEV_NAME": "va"}
ETHTOOL = "LINKINFO", "LINKMODES", "LINKSTATE", "FEATURES", "CHANNELS", "TSINFO"
# A request by name, its flags, and the same by the kernel's reader: the specification, the operation, what is in it.
ASKED = [
    ("do", "RTM_NEWLINK", {"IFLA_IFNAME": "va", "IFLA_MTU": 1400, "IFLA_LINKINFO": PEER}, [CREATE, EXCL], None),
    ("do", "RTM_NEWLINK", {"IFLA_IFNAME": "br", "IFLA_LINKINFO": BRIDGE}, [CREATE],
     ("rt_link", "newlink", {"ifname": "br", "linkinfo": {"kind": "bridge", "data": {"priority": 5, "stp-state": 1}}})),
    ("do", "RTM_SETLINK", {"ifi_index": 1, "ifi_flags": 1, "ifi_change": 1, "IFLA_MTU": 9000}, [],
     ("rt_link", "setlink", {"ifi-index": 1, "ifi-flags": 1, "ifi-change": 1, "mtu": 9000})),
    ("do", "RTM_NEWADDR", {"ifa_family": 2, "ifa_prefixlen": 25, "ifa_index": 1, "IFA_ADDRESS": "203.0.113.7",
                           "IFA_LOCAL": "203.0.113.7"}, [CREATE],
     ("rt_addr", "newaddr", {"ifa-family": 2, "ifa-prefixlen": 25, "ifa-index": 1, "ifa-address": "cb007107",
                             "ifa-local": "cb007107"})),
    ("do", "RTM_GETLINK", {"IFLA_IFNAME": "va"}, [], ("rt_link", "getlink", {"ifname": "va"})),
    ("do", "RTM_GETLINK", {"IFLA_IFNAME": "br"}, [], ("rt_link", "getlink", {"ifname": "br"})),
    ("dump", "RTM_GETLINK", {}, [], ("rt_link", "getlink", {})),
    ("dump", "RTM_GETADDR", {}, [], ("rt_addr", "getaddr", {})),
    ("dump", "RTM_GETROUTE", {}, [], ("rt_route", "getroute", {})),
    ("dump", "RTM_GETQDISC", {}, [], ("tc", "getqdisc", {})),
    ("do", "CTRL_CMD_GETFAMILY", {"CTRL_ATTR_FAMILY_NAME": "nlctrl"}, [],
     ("nlctrl", "getfamily", {"family-name": "nlctrl"})),
    ("dump", "NETDEV_CMD_DEV_GET", {}, [], ("netdev", "dev-get", {})),
    ("do", "NETDEV_CMD_DEV_GET", {"NETDEV_A_DEV_IFINDEX": 1}, [], ("netdev", "dev-get", {"ifindex": 1})),
    *(("do", f"ETHTOOL_MSG_{it}_GET", {f"ETHTOOL_A_{it}_HEADER": OF_VA}, [],
       ("ethtool", f"{it.lower()}-get", {"header": {"dev-name": "va"}})) for it in ETHTOOL),
    ("dump", "ETHTOOL_MSG_LINKSTATE_GET", {}, [], ("ethtool", "linkstate-get", {})),
]
# Requests that the kernel refuses.
REFUSED = [
    ("do", "RTM_NEWLINK", {"IFLA_IFNAME": "a_name_of_16_byte"}, [CREATE],
     ("rt_link", "newlink", {"ifname": "a_name_of_16_byte"})),
    ("do", "RTM_GETLINK", {"ifi_index": 4711}, [], ("rt_link", "getlink", {"ifi-index": 4711})),
    ("do", "RTM_NEWLINK", {"IFLA_IFNAME": "x", "IFLA_LINKINFO": {"IFLA_INFO_KIND": "nope"}}, [CREATE],
     ("rt_link", "newlink", {"ifname": "x", "linkinfo": {"kind": "nope"}})),
    ("do", "RTM_NEWADDR", {"ifa_family": 2, "ifa_prefixlen": 33, "ifa_index": 1, "IFA_LOCAL": "192.0.2.1"}, [CREATE],
     ("rt_addr", "newaddr", {"ifa-family": 2, "ifa-prefixlen": 33, "ifa-index": 1, "ifa-local": "c0000201"})),
    ("do", "NETDEV_CMD_DEV_GET", {}, [], ("netdev", "dev-get", {})),
    ("do", "NETDEV_CMD_DEV_GET", {"NETDEV_A_DEV_IFINDEX": 4711}, [], ("netdev", "dev-get", {"ifindex": 4711})),
    ("do", "ETHTOOL_MSG_LINKINFO_GET", {}, [], ("ethtool", "linkinfo-get", {})),
    ("do", "ETHTOOL_MSG_LINKINFO_GET", {"ETHTOOL_A_LINKINFO_HEADER": {"ETHTOOL_A_HEADER_DEV_NAME": "nope"}}, [],
     ("ethtool", "linkinfo-get", {"header": {"dev-name": "nope"}})),
    ("do", "ETHTOOL_MSG_RINGS_SET", {"ETHTOOL_A_RINGS_HEADER": OF_VA, "ETHTOOL_A_RINGS_CQE_SIZE": 0}, [],
     ("ethtool", "rings-set", {"cqe-size": 0, "header": {"dev-name": "va"}})),
    ("do", "CTRL_CMD_GETFAMILY", {"CTRL_ATTR_FAMILY_NAME": "nope"}, [],
     ("nlctrl", "getfamily", {"family-name": "nope"})),
]


# ---- By `do`


def words_of(members, front=""):
    """An object of names as the words of a command line."""
    for name, value in members.items():
        if isinstance(value, dict):
            yield from words_of(value, f"{front}{name}.")
        else:
            yield f"{front}{name}={value}"


def do_words(at, way, name, members, flags):
    options = [*(["--dump"] if way == "dump" else []), *(OPTIONS[it] for it in flags)]
    return [f"{at}/do", *options, name, *words_of(members)]


def done(*words, given=""):
    """The status, the replies and the standard error of `do`."""
    ran = subprocess.run(words, input=given, stdout=subprocess.PIPE, stderr=subprocess.PIPE, text=True, timeout=60)
    return ran.returncode, [json.loads(it) for it in ran.stdout.splitlines()], ran.stderr


def want_refused(status, wanted, *words, given=""):
    found = done(*words, given=given)
    assert found[0] == status and found[2] == f"do: {wanted}\n", (words, found)
    return found[1]


def try_do(at):
    """What is made, changed and listed by name is what `ip` says; each refusal has its status."""
    made = "IFLA_IFNAME=va", "IFLA_LINKINFO.IFLA_INFO_KIND=veth", "IFLA_MTU=1400"
    peer = "IFLA_LINKINFO.IFLA_INFO_DATA.VETH_INFO_PEER.IFLA_IFNAME=7"
    new = f"{at}/do", "--create", "--excl", "RTM_NEWLINK"
    assert done(*new, *made, peer) == (0, [], "")
    links = {it["ifname"]: it for it in ip_json("link")}
    assert links["va"]["mtu"] == 1400 and links["va"]["link"] == "7" and set(links) == {"lo", "va", "7"}, links
    index = links["va"]["ifindex"]
    status, listed, _ = done(f"{at}/do", "--dump", "RTM_GETLINK")
    assert status == 0 and [it["fields"]["ifi_index"] for it in listed] == [it["ifindex"] for it in links.values()]
    want_refused(3, "EEXIST: File exists", *new, *made)
    want_refused(3, "ENODEV: No such device", f"{at}/do", "RTM_GETLINK", "ifi_index=4711")
    want_refused(1, "IFLA_MTUU: no such name, the nearest is IFLA_MTU", f"{at}/do", "RTM_NEWLINK", "IFLA_MTUU=1")
    want_refused(1, "RTM_NEWLUNK: no such name", f"{at}/do", "RTM_NEWLUNK")
    want_refused(1, "IFLA_LINKINFO: a value, and a nest", f"{at}/do", "RTM_NEWLINK", "IFLA_LINKINFO=1", made[1])
    want_refused(3, "nope: No such file or directory", f"{at}/do", "--family", "nope", "RTM_GETLINK")
    try_do_lists(at, index)
    try_do_batch(at, index)
    try_do_dry(at)
    assert "usage: " in well(f"{at}/do", "--help") and well(f"{at}/do", "--version") == f"neli_do {version()}\n"
    for words in ([], ["--jsonn", "{}"], ["--json", "{}", "RTM_GETLINK"], ["-p", "rout", "RTM_GETLINK"]):
        assert done(f"{at}/do", *words)[0] == 1, words
    with open("/dev/full", "w", encoding="utf-8") as full:
        assert run(f"{at}/do", "RTM_GETLINK", "ifi_index=1", stdout=full).returncode == 4


def version():
    with open(f"{TOP}/include/neli.h", encoding="utf-8") as header:
        return re.search('#define NELI_VERSION "(.*)"', header.read())[1]


def try_do_lists(at, index):
    """Several attributes of a name, hexadecimal digits, and JSON as a value."""
    names = "IFLA_PROP_LIST.IFLA_ALT_IFNAME=a_longer_name", "IFLA_PROP_LIST.IFLA_ALT_IFNAME=another_one"
    assert done(f"{at}/do", "--create", "--append", "RTM_NEWLINKPROP", f"ifi_index={index:#x}", *names)[0] == 0
    (link,) = ip_json("link", "show", "va")
    assert link["altnames"] == ["a_longer_name", "another_one"], link
    assert done(f"{at}/do", "RTM_SETLINK", f"ifi_index={index}", 'ifi_flags=["up"]', "ifi_change=1",
                'IFLA_IFALIAS="1"')[0] == 0
    (link,) = ip_json("link", "show", "va")
    assert link["ifalias"] == "1" and "UP" in link["flags"], link


def try_do_batch(at, index):
    """Requests of a file are done up to the first that is refused, whose line is named."""
    up = {"name": "RTM_SETLINK", "attributes": {"ifi_index": 1, "ifi_flags": ["up"], "ifi_change": 1}}
    get = {"name": "RTM_GETLINK", "attributes": {"ifi_index": index}}
    bad = {"name": "RTM_GETLINK", "attributes": {"ifi_index": 4711}}
    listed = {"name": "RTM_GETADDR", "flags": ["NLM_F_REQUEST", "NLM_F_DUMP"], "attributes": {"ifa_family": 2}}
    down = {"name": "RTM_SETLINK", "attributes": {"ifi_index": 1, "ifi_flags": 0, "ifi_change": 1}}
    given = "".join(f"{json.dumps(it)}\n" if it else "\n" for it in (up, None, get, listed, bad, down))
    found = want_refused(3, "line 5: ENODEV: No such device", f"{at}/do", "--batch", "-", given=given)
    assert [it["name"] for it in found] == ["RTM_NEWLINK", "RTM_NEWADDR"], found
    assert "UP" in ip_json("link", "show", "lo")[0]["flags"]
    want_refused(1, "line 1: no JSON at line 1, column 1", f"{at}/do", "--batch", "-", given="x\n")
    want_refused(1, "/nope: No such file or directory", f"{at}/do", "--batch", "/nope")


def try_do_dry(at):
    """What would be sent is printed, and what a parser of the kernel would refuse; nothing changes."""
    before = ip("link")
    ran = run(f"{at}/do", "--dry", "--create", "RTM_NEWLINK", "IFLA_IFNAME=dry", "IFLA_MTU=1500")
    # REQUEST, ACK and CREATE are 0x405, and struct ifinfomsg has 16 bytes.
    wanted = "30000000 10000504 00000000 00000000" + "00" * 16 + "08000300 64727900 08000400 dc050000"
    assert (ran.returncode, ran.stdout) == (0, wanted.replace(" ", "") + "\n"), ran
    for words in (("--strict", '999={"bytes":"00"}', "999: "), ('IFLA_MTU={"bytes":"00"}', "IFLA_MTU: ")):
        ran = run(f"{at}/do", "-n", *words[:-2], "RTM_NEWLINK", words[-2])
        assert ran.returncode == 3 and f"do: {words[-1]}" in ran.stdout, ran
    assert ip("link") == before
    show = f"{os.environ.get('NELI_PROGRAMS') or f'{TOP}/crates/neli_show/out'}/neli_show"
    if not os.path.isfile(show):
        return not_run("do --dry, read by neli_show", "it is not built")
    said = run(show, input=ran.stdout.splitlines()[-1])
    assert said.stdout.startswith("RTM_NEWLINK "), said


# ---- By the modules of Python, and by the kernel's reader


class Python:
    """NamedSocket of host/python, for each protocol."""

    def __init__(self):
        sys.path.append(f"{HERE}/python")
        import neli
        import neli_schema
        self.error, self.sockets, schema = neli.NetlinkError, {}, neli_schema.Schema()
        for protocol in (neli.NETLINK_ROUTE, neli.NETLINK_GENERIC):
            self.sockets[protocol] = neli_schema.NamedSocket(neli.NetlinkSocket(protocol), schema)

    def of(self, name):
        return self.sockets[0 if name.startswith("RTM_") else 16]

    def sent(self, way, name, members, flags):
        named = self.of(name)
        return named.dump(name, members) if way == "dump" else named.do(name, members, sum(flags))

    def refusal(self, name, members, flags):
        """The line, and the path of the attribute at the offset of the acknowledgement."""
        named = self.of(name)
        try:
            named.do(name, members, sum(flags))
        except self.error as error:
            request, offset = named.write(name, members), error.offset
            return str(error), named.schema.path_at(request, offset) if offset else None, error.missing
        raise AssertionError(f"{name} {members} is not refused")


class Kernel:
    """The kernel's reader."""

    def __init__(self, folder):
        sys.path.insert(0, f"{folder}/tools/net/ynl")
        from lib import ynl
        self.ynl, self.folder, self.families = ynl, folder, {}

    def of(self, name):
        if name not in self.families:
            path = f"{self.folder}/Documentation/netlink/specs/{name}.yaml"
            self.families[name] = self.ynl.YnlFamily(path, process_unknown=True)
        return self.families[name]

    def bytes_of(self, way, flags, spec, operation, members):
        """Of a request, as `do` writes it: a dump has no flag ACK, 4, and REQUEST and DUMP are 0x301."""
        family = self.of(spec)
        data = bytearray(family._encode_message(family.ops[operation], copy.deepcopy(members), [*flags], 0))
        if way == "dump":
            data[6:8] = (0x301).to_bytes(2, "little")
        return bytes(data)

    def sent(self, way, flags, spec, operation, members):
        family = self.of(spec)
        given = copy.deepcopy(members)  # it takes them out
        found = family.dump(operation, given) if way == "dump" else family.do(operation, given, [*flags])
        return found if isinstance(found, list) else [found] if found else []

    def refusal(self, flags, spec, operation, members):
        """The path that it says is wrong, or the name that it says is missing."""
        try:
            self.of(spec).do(operation, copy.deepcopy(members), [*flags])
        except self.ynl.NlError as error:
            return error.nl_msg.extack or {}
        raise AssertionError(f"{operation} {members} is not refused")


# Numbers that the specifications of Linux 6.12 have no names for: of linux/if.h, linux/if_arp.h, linux/if_addr.h,
# linux/rtnetlink.h and linux/icmpv6.h.
NUMBERS = {"unknown": 0, "notpresent": 1, "down": 2, "lowerlayerdown": 3, "up": 6, "default": 0, "ether": 1,
           "loopback": 772, "universe": 0, "link": 253, "host": 254, "kernel_lo": 1, "kernel": 2, "local": 255,
           "medium": 0}
# What they have otherwise than the kernel's headers: names and places of `enum` DEVCONF_* and of SNMP counters, which
# have moved, a priority that is in network order, and a name.
OTHERWISE = "af-spec", "prio", "nf-call-ip6-tables"


def plain(name):
    return str(name).lower().replace("-", "_").replace(".", "_")


def has_end(name, theirs):
    """Whether a name is the one that the specification has without the words before it."""
    return name == theirs or name.endswith(f"_{theirs}")


def members_of(ours):
    """What is there by name: a message's fields and attributes, a nest's attributes, a structure itself."""
    found = dict(ours.get("fields") or {}) if "attributes" in ours or "fields" in ours else {}
    for it in ours.get("attributes") or []:
        found.setdefault(it.get("name", it["number"]), []).append(it)
    return found or {name: it for name, it in ours.items() if name not in ("number", "name", "nested")}


def differences(ours, theirs, where):
    """Each place where a message, a nest or a structure differs, by the names of the kernel's reader."""
    members = {plain(name): it for name, it in members_of(ours).items()}
    for name, value in theirs.items():
        if str(name).startswith("UnknownAttr") or name in OTHERWISE:
            continue
        names = [it for it in members if has_end(it, plain(name))]
        if not names:
            yield f"{where}.{name}: only the kernel's reader has it: {value}"
            continue
        found = members[min(names, key=len)]
        several = found if isinstance(found, list) and found and isinstance(found[0], dict) else [found]
        for one, other in zip(several, value if isinstance(value, list) and len(several) > 1 else [value]):
            yield from of_value(one, other, f"{where}.{name}")


def of_value(ours, theirs, where):
    if isinstance(theirs, list) and isinstance(ours, dict) and "attributes" in ours:
        # Nests by their numbers, which it has as `[{1: ..}, {2: ..}]`; or one of several.
        parts = [next(iter(it.values())) for it in theirs] if all(len(it) == 1 for it in theirs) else theirs
        for one, other in zip(ours["attributes"] if parts is not theirs else [ours], parts):
            yield from of_value(one, other, where)
        return
    if isinstance(ours, dict) and "attributes" in ours and isinstance(theirs, dict):
        yield from differences(ours, theirs, where)
        return
    value = ours.get("value", ours) if isinstance(ours, dict) else ours
    if isinstance(value, dict) and isinstance(theirs, dict):
        yield from differences({**value, **(value.get("fields") or {})}, theirs, where)
    elif not is_same(value, theirs):
        yield f"{where}: {value} here, {theirs} there"


def is_same(ours, theirs):
    if isinstance(theirs, (bytes, bytearray)):
        return ours == {"bytes": theirs.hex()} or not theirs and not ours.get("attributes")
    if isinstance(ours, str) and isinstance(theirs, int):
        return NUMBERS.get(plain(ours)) == theirs
    if isinstance(theirs, set):
        return sorted(map(plain, ours)) == sorted(map(plain, theirs))
    return ours == theirs or plain(ours) == plain(theirs) or ours == [] and theirs == 0


def try_named(at):
    """The same requests by all that there is."""
    ip("link", "set", "lo", "up")
    python, folder = Python(), os.environ.get("NELI_YNL")
    kernel = Kernel(folder) if folder else not_run("requests by name beside the kernel's reader", "NELI_YNL names none")
    has_families = {it["attributes"][0]["value"] for it in python.of("CTRL_CMD").dump("CTRL_CMD_GETFAMILY")}
    wrong = []
    for way, name, members, flags, by_kernel in ASKED:
        if name.split("_")[0].lower() in {"ethtool", "netdev"} - has_families:
            not_run(name, "this kernel has no such family")
            continue
        wrong += try_request(at, python, kernel, (way, name, members, flags), by_kernel)
    for way, name, members, flags, by_kernel in REFUSED:
        if name.split("_")[0].lower() not in {"ethtool", "netdev"} - has_families:
            wrong += try_refusal(at, python, kernel, (name, members, flags), by_kernel)
    assert not wrong, "\n".join(wrong)


def without_header(message):
    return {name: it for name, it in message.items() if name not in ("seq", "port")}


def try_request(at, python, kernel, request, by_kernel):
    """What differs: replies by `do`, by NamedSocket and by the kernel's reader, and the bytes of the request."""
    way, name, members, flags = request
    words = do_words(at, way, name, members, flags)
    if kernel and by_kernel:
        found, wanted = well(words[0], "--dry", *words[1:]).strip(), kernel.bytes_of(way, flags, *by_kernel).hex()
        if found != wanted:
            yield f"{name}: bytes {found} here, {wanted} there"
    status, replies, said = done(*words)
    if status or said:
        yield f"{name}: status {status}, {said}"
        return
    if name.startswith("RTM_NEW"):  # is made once
        return
    again = [without_header(it) for it in python.sent(*request)]
    if [without_header(it) for it in replies] != again:
        yield f"{name}: {replies} by do, {again} by Python"
    try:
        theirs = kernel.sent(way, flags, *by_kernel) if kernel and by_kernel else []
    except kernel.ynl.NlError as error:
        yield f"{name}: the kernel's reader is refused: {error}"
        return
    if kernel and by_kernel and len(replies) != len(theirs):
        yield f"{name}: {len(replies)} replies here, {len(theirs)} there"
    for one, other in zip(replies, theirs):
        yield from differences(one, other, name)


def try_refusal(at, python, kernel, request, by_kernel):
    """What differs of a refusal: the line, and which attribute it names."""
    name, members, flags = request
    line, path, missing = python.refusal(*request)
    status, _, said = done(*do_words(at, "do", *request))
    if (status, said) != (3, f"do: {line}\n"):
        yield f"{name}: {status} {said} by do, {line} by Python"
    if path and f": {path}" not in said or missing and "missing " not in said:
        yield f"{name}: {said} does not name {path or missing}"
    if not kernel:
        return
    theirs = kernel.refusal(flags, *by_kernel)
    named = plain(theirs.get("bad-attr", "")).split("_", 1)[-1] or plain(theirs.get("miss-type", ""))
    text = theirs.get("msg", "")
    ours = plain(path or "") if "bad-attr" in theirs else plain(said.strip().rpartition("missing ")[2])
    parts = theirs.get("bad-attr", theirs.get("miss-type", "")).strip(".").split(".")
    if text not in said or (named and not all(has_end(one, plain(it)) for one, it in zip(path_of(path, ours), parts))):
        yield f"{name}: {said} here, {theirs} there"


def path_of(path, ours):
    return [plain(it) for it in path.split(".")] if path else [ours]


# ---- The page

# What the part of a program on docs/WRITING.md stands in.
AROUND = """#include <linux/netlink.h>
#include <neli_host.h>
#include <stdio.h>
#include <string.h>

int main(void) {
    struct neli_tables tables = NELI_TABLES_CLOSED;
    struct neli_walk walk = {0, 0};
    struct neli_message message;
    struct neli_host *host;
    uint8_t sent[1024];
    size_t handle;
    if (neli_tables_built_in(&tables) != NELI_OK || neli_host_open(&host, NETLINK_ROUTE, NULL, 0) != NELI_OK) return 1;
%s
    neli_host_close(host);
    neli_tables_free(&tables);
    return 0;
}
"""


def page_example(language):
    """The example of docs/WRITING.md in a language."""
    with open(f"{TOP}/docs/WRITING.md", encoding="utf-8") as it:
        return re.search(rf"^```{language}\n(.*?)^```", it.read(), re.M | re.S)[1]


def try_writing(at):
    """What the examples make is there; what they say of a refusal is what the page says."""
    with tempfile.TemporaryDirectory() as place:
        os.symlink(f"{at}/do", f"{place}/neli_do")
        paths = {"PATH": f"{place}:{os.environ['PATH']}", "PYTHONPATH": f"{HERE}/python"}
        ran = run("sh", "-ec", page_example("sh"), env={**os.environ, **paths})
        lines = ran.stdout.splitlines()
        assert ran.returncode == 0 and [json.loads(it)["name"] for it in lines[:-1]] == ["RTM_NEWLINK"] * 3, ran
        assert ip_json("link", "show", "br")[0]["mtu"] == 1400
        ip("link", "del", "dev", "br")
        ran = run(sys.executable, "-c", page_example("python"), env={**os.environ, **paths})
        indices, line = ran.stdout.splitlines()
        assert json.loads(indices) == [it["ifindex"] for it in ip_json("link")] and len(json.loads(indices)) == 2, ran
        first, last = re.search(r"# (.*?) \.\. : (.*)", page_example("python")).groups()
        assert line.startswith(first) and last in line, ran
    wanted = re.search(r"/[*] (.*?) [*]/", page_example("c"))[1]
    assert well(f"{at}/writing") == f"{wanted}\n"


INSIDE = {"do": try_do, "named": try_named, "writing": try_writing}
