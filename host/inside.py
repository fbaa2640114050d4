"""Tests of the programs, each in a network namespace of its own: host/test calls one by `--inside NAME FOLDER`.

Each function of INSIDE is given the folder of the programs.
"""

import collections
import concurrent.futures
import fcntl
import json
import os
import re
import select
import shutil
import signal
import struct
import subprocess
import sys
import tempfile
import time

from limit import run

HERE = os.path.dirname(os.path.abspath(__file__))
TOP = os.path.dirname(HERE)
OUT = os.path.join(HERE, "out")
WORDS = "va vb 192.0.2.1/24 198.51.100.0/24".split()


def not_run(what, why):
    print(f"{what}: not run, {why}", flush=True)


def ip(*words):
    said = run("ip", *words)
    assert said.returncode == 0, f"ip {' '.join(words)}: {said.stdout}"
    return said.stdout


def ip_batch(lines):
    said = run("ip", "-b", "-", input="\n".join(lines))
    assert said.returncode == 0, said.stdout


def ip_json(*words):
    return json.loads(ip("-j", *words) or "[]")


def well(*words):
    said = run(*words)
    assert said.returncode == 0, f"{' '.join(words)}: {said.stdout}"
    return said.stdout


def refused(wanted, *words):
    """The program says why the kernel refuses, and ends with the status for that."""
    said = run(*words)
    assert said.returncode == 3 and wanted in said.stdout, f"{' '.join(words)}: {said.returncode} {said.stdout}"


def listed_by_ip():
    """What `list` has to print, by what `ip` says."""
    lines = [
        f"link {it['ifindex']} {it['ifname']} mtu {it['mtu']} {'up' if 'UP' in it['flags'] else 'down'}"
        for it in ip_json("link")
    ]
    for link in ip_json("-4", "addr"):
        lines += [f"address {link['ifindex']} {it['local']}/{it['prefixlen']}" for it in link.get("addr_info", ())]
    return lines


def want_listed(at):
    """`list` prints what `ip` and libmnl say."""
    found, by_ip = well(f"{at}/list").splitlines(), listed_by_ip()
    assert found == by_ip, f"{found}\n{by_ip}"
    if os.path.isfile(f"{OUT}/seen_by_libmnl"):
        by_libmnl = well(f"{OUT}/seen_by_libmnl").splitlines()
        assert found == by_libmnl, f"{found}\n{by_libmnl}"
    else:
        not_run("list as libmnl says", "libmnl is not there")


def try_list(at):
    ip("link", "set", "lo", "up")
    ip("link", "add", "name", "one", "type", "veth", "peer", "name", "other")
    ip("link", "set", "one", "mtu", "1400", "up")
    ip("addr", "add", "203.0.113.7/25", "dev", "one")
    want_listed(at)
    # One link's addresses alone; and those of a link that is not there: the kernel ends that list with ENODEV.
    assert well(f"{at}/list", "1") == "address 1 127.0.0.1/8\n"
    refused("list: No such device", f"{at}/list", "4711")


def try_list_of_bytes(at):
    """A link whose name is no UTF-8 is listed as the bytes that it is."""
    name = b"caf\xe9"
    subprocess.run(["ip", "link", "add", "name", name, "type", "veth", "peer", "name", "other"], check=True)
    said = subprocess.run([f"{at}/list"], stdout=subprocess.PIPE, check=True).stdout
    assert b" " + name + b" mtu " in said, said


def try_make(at):
    said = well(f"{at}/make", "add", *WORDS).split("\n")
    (link,) = [it for it in ip_json("addr") if it["ifname"] == WORDS[0]]
    assert said == [f"made va {link['ifindex']}", "up va", f"address {WORDS[2]}", f"route {WORDS[3]}", ""], said
    assert link["link"] == WORDS[1] and "UP" in link["flags"]
    assert ("192.0.2.1", 24) in [(it["local"], it["prefixlen"]) for it in link["addr_info"]]
    assert (WORDS[3], WORDS[0]) in [(it["dst"], it["dev"]) for it in ip_json("route")]
    want_listed(at)
    refused("File exists", f"{at}/make", "add", *WORDS)
    assert well(f"{at}/make", "del", *WORDS) == "gone va\n"
    assert [it["ifname"] for it in ip_json("link")] == ["lo"] and ip_json("route") == []
    refused("No such device", f"{at}/make", "del", *WORDS)
    # The kernel says where it found a name that is too long: after the headers of 32 bytes.
    refused(", at byte 32 of the request", f"{at}/make", "add", "a_name_that_is_too_long", *WORDS[1:])
    # And it says in words why it takes no route to a net with bits of a host.
    refused("Invalid prefix for given prefix length", f"{at}/make", "add", *WORDS[:3], "198.51.100.7/24")


def try_resolve(at):
    lines = well(f"{at}/resolve", "nlctrl").splitlines()
    assert lines[0] == "family nlctrl 16" and re.fullmatch("group notify [0-9]+", lines[1]), lines
    refused("No such file or directory", f"{at}/resolve", "nope")
    said = run("genl", "ctrl", "list")
    if said.returncode:
        return not_run("resolve as genl lists", "genl is not there")
    for part in said.stdout.split("\nName: ")[1:]:
        name, groups = part.split()[0], re.findall(r"ID-(0x[0-9a-f]+) +name: (\S+)", part)
        wanted = [f"family {name} {int(re.search('ID: (0x[0-9a-f]+)', part)[1], 16)}"]
        wanted += [f"group {group} {int(number, 16)}" for number, group in groups]
        assert well(f"{at}/resolve", name).splitlines() == wanted, wanted


def started(*words):
    """A program that has said that it listens. It ends by itself, where the test has given it up."""
    child = subprocess.Popen(("timeout", "60", *words), stdout=subprocess.PIPE, text=True)
    assert child.stdout.readline() in ("watching\n", "recording\n", "monitoring\n")
    return child


def change_links():
    """Makes a link, changes it and takes it away; gives the index that it had."""
    ip("link", "add", "name", "one", "type", "veth", "peer", "name", "other")
    (index,) = [it["ifindex"] for it in ip_json("link") if it["ifname"] == "one"]
    ip("addr", "add", "203.0.113.7/25", "dev", "one")
    ip("link", "set", "one", "up")
    ip("link", "set", "other", "up")
    ip("route", "add", "198.51.100.0/24", "dev", "one")
    ip("link", "del", "one")
    return index


def try_watch(at):
    ip("link", "set", "lo", "up")
    child = started(f"{at}/watch")
    index = change_links()
    wanted = ["Newlink {} one", "Newaddr {} 203.0.113.7/25", "Newroute 198.51.100.0/24", "Dellink {} one"]
    wanted = [it.format(index) for it in wanted]
    lines = []
    while wanted[-1] not in lines:
        lines.append(child.stdout.readline().strip())
        assert len(lines) < 60 and lines[-1], lines
    child.terminate()
    child.wait()
    places = [lines.index(it) for it in wanted]
    assert places == sorted(places), lines


def try_page(at):
    """The example of docs/C.md."""
    lines = well(f"{at}/page").splitlines()
    # IFLA_IFNAME of linux/if_link.h is 3, and "lo" has a zero byte after it.
    assert "attribute 3 of 3 bytes" in lines, lines


def try_own_host(at):
    """The example without neli_host.h."""
    assert well(f"{at}/own_host") == "lo\n"


def try_readme(at):
    """The example of the README in C."""
    assert well(f"{at}/readme") == "lo\n"


def frames_of(path):
    """The datagrams of a pcap file, each with the type of its frame, its group and its protocol."""
    with open(path, "rb") as it:
        data = it.read()
    assert struct.unpack_from("<IHH8xII", data) == (0xA1B2C3D4, 2, 4, 262144, 253), data[:24]
    place, found = 24, []
    while place < len(data):
        _, microseconds, kept, length = struct.unpack_from("<4I", data, place)
        way, netlink, size, group, protocol = struct.unpack_from(">HHHI4xH", data, place + 16)
        assert kept == length and microseconds < 10**6 and netlink == 824 and size in (0, 4)
        found.append((way, group, protocol, data[place + 32 : place + 16 + kept]))
        place += 16 + kept
    assert place == len(data)
    return found


def name_in(datagram):
    """IFLA_IFNAME, which is 3, among the attributes after the headers of a link, of 32 bytes."""
    place = 32
    while place < len(datagram):
        length, number = struct.unpack_from("<HH", datagram, place)
        if number == 3:
            return datagram[place + 4 : place + length - 1].decode()
        place += (length + 3) & ~3
    raise AssertionError("a link without a name")


def try_record(at):
    """Links that are made stand in the file, as `ip` names them; and neli_show and tshark read it."""
    path = f"{OUT}/recorded"
    child = started(f"{at}/record", "-c", "20", "-m", "1", path)
    for it in range(10):
        ip("link", "add", "name", f"a{it}", "type", "veth", "peer", "name", f"b{it}")
    assert child.wait(timeout=20) == 0
    child.stdout.close()
    names = sorted(it["ifname"] for it in ip_json("link") if it["ifname"] != "lo")
    frames = frames_of(path)
    # RTNLGRP_LINK and NETLINK_ROUTE; 2 is the type of a frame that came to a group.
    assert [it[:3] for it in frames] == [(2, 1, 0)] * 20, frames
    assert sorted(name_in(it[3]) for it in frames) == names and len(names) == 20
    show = f"{os.environ.get('NELI_PROGRAMS') or f'{TOP}/crates/neli_show/out'}/neli_show"
    if os.path.isfile(show):
        with open(path, "rb") as it:
            lines = [json.loads(line) for line in run(show, "json", stdin=it).stdout.splitlines()]
        shown = [named["value"] for line in lines for named in line["attributes"] if named.get("name") == "IFLA_IFNAME"]
        assert sorted(shown) == names and all(it["name"] == "RTM_NEWLINK" for it in lines), lines
    else:
        not_run("record, read by neli_show", "it is not built")
    if shutil.which("tshark"):
        words = ("-T", "fields", "-e", "netlink-route.nltype", "-e", "netlink-route.ifla_ifname")
        lines = run("tshark", "-r", path, *words, stderr=subprocess.DEVNULL).stdout.splitlines()
        assert sorted(lines) == [f"16\t{it}" for it in names], lines
    else:
        not_run("record, read by tshark", "it is not there")
    os.remove(path)
    assert run(f"{at}/record", "-c", "x", path).returncode == 1


def wait_for(what, is_there):
    """Waits until something is there, ten seconds at most."""
    until = time.monotonic() + 10
    while not is_there():
        assert time.monotonic() < until, what
        time.sleep(0.02)


def lines_in(path):
    with open(path, encoding="utf-8") as it:
        return it.read().splitlines()


def has_joined(pid):
    """Whether a process has a netlink socket in groups."""
    rows = [it.split() for it in lines_in("/proc/net/netlink")[1:]]
    return any(row[2] == str(pid) and int(row[3], 16) != 0 for row in rows)


def two_hundred_changes():
    for it in range(40):
        yield f"link set dev one mtu {1300 + it}"
        yield f"addr add 203.0.113.{it}/32 dev one"
        yield f"route add 198.51.100.{it}/32 dev one"
        yield f"neigh add 192.0.2.{it + 1} lladdr 02:00:00:00:00:01 dev one"
        yield f"rule add pref {it + 100} table 9"


def monitored(path):
    """What `monitor -j` printed: a message, a loss, or that it begins."""
    return [json.loads(it) for it in lines_in(path) if it.endswith("}")]


def kinds(found):
    """How many of each kind `monitor` printed. Those of links in AF_INET6, 10, are in a group that `ip` is not in."""
    named = [(it["name"][4:7], it["name"][7:], next(iter(it["fields"].values()))) for it in found if "fields" in it]
    return collections.Counter((of, way == "DEL") for way, of, family in named if (of, family) != ("LINK", 10))


def kinds_by_ip(lines):
    found = (re.match(r"\[(\w+)\](Deleted )?", it) for it in lines)
    return collections.Counter((it[1], it[2] is not None) for it in found if it)


def try_monitor(at):
    """Two hundred changes at once: as many of each kind as `ip monitor` prints."""
    ip("link", "add", "name", "one", "type", "veth", "peer", "name", "other")
    for it in ("one", "other"):
        # No address of IPv6 may appear between the beginnings of the two.
        ip("link", "set", it, "addrgenmode", "none", "up")
    paths = f"{OUT}/monitored", f"{OUT}/monitored_by_ip"
    words = [f"{at}/monitor", "-j", "route", "nlctrl"], ["ip", "-o", "monitor", "label"]
    with open(paths[0], "w") as own, open(paths[1], "w") as other:
        children = [subprocess.Popen(it, stdout=to) for it, to in zip(words, (own, other))]
    try:
        wait_for("monitor begins", lambda: monitored(paths[0])[:1] == [{"monitoring": True}])
        wait_for("ip monitor begins", lambda: has_joined(children[1].pid))
        ip_batch(two_hundred_changes())
        ip("link", "del", "one")
        wait_for("the last change", lambda: kinds(monitored(paths[0]))["LINK", True] == 2)
        wait_for("the last change, by ip", lambda: kinds_by_ip(lines_in(paths[1]))["LINK", True] == 2)
    finally:
        for it in children:
            it.terminate()
    assert children[0].wait(timeout=10) == 0 and children[1].wait(timeout=10) is not None
    own, other = kinds(monitored(paths[0])), kinds_by_ip(lines_in(paths[1]))
    assert own == other, f"{own}\n{other}"
    for kind in ("LINK", "ADDR", "ROUTE", "NEIGH", "RULE"):
        assert own[kind, False] >= 40, own
    assert all(re.fullmatch(r"[-0-9]+T[:0-9]+\.[0-9]{6}Z", it["time"]) for it in monitored(paths[0])[1:])
    try_monitor_losses(at)
    try_monitored_text(at)
    try_monitor_unread(at)
    refused("nope: No such file or directory", f"{at}/monitor", "nope")


def try_monitored_text(at):
    """A message as text: the time and its type, and then its attributes by name."""
    child = started(f"{at}/monitor", "-c", "1", "route")
    ip("link", "set", "lo", "mtu", "1400")
    said, _ = child.communicate(timeout=20)
    lines = said.splitlines()
    assert re.match(r"\S+Z RTM_NEWLINK length \d+ flags 0 seq 0 port 0$", lines[0]), lines[0]
    assert '  IFLA_IFNAME "lo"' in lines and "  IFLA_MTU 1400" in lines, said


def try_monitor_losses(at):
    """One that was stopped while its buffer ran over says so, goes on, and ends with the status for that."""
    path = f"{OUT}/monitored"
    with open(path, "w") as to:
        child = subprocess.Popen([f"{at}/monitor", "-j", "-b", "1", "route"], stdout=to, stderr=subprocess.DEVNULL)
    wait_for("monitor begins", lambda: len(monitored(path)) == 1)
    child.send_signal(signal.SIGSTOP)
    for it in range(20):
        ip("link", "set", "lo", "mtu", str(1400 + it))
    child.send_signal(signal.SIGCONT)
    wait_for("a loss", lambda: any(it.get("lost") == "No buffer space available" for it in monitored(path)))
    ip("rule", "add", "pref", "7", "table", "9")
    wait_for("what came after it", lambda: kinds(monitored(path))["RULE", False] == 1)
    child.terminate()
    assert child.wait(timeout=10) == 4


def try_monitor_unread(at):
    """One whose output nobody reads ends by a signal all the same, with the status for what was not printed."""
    child = started(f"{at}/monitor", "route")
    fcntl.fcntl(child.stdout, getattr(fcntl, "F_SETPIPE_SZ", 1031), 4096)  # which Python names from 3.10 on
    ip_batch([f"link set dev lo mtu {1500 + it}" for it in range(300)])
    wait_for("a full pipe", lambda: select.select([child.stdout], [], [], 0)[0])
    child.terminate()
    assert child.wait(timeout=10) == 4
    child.stdout.close()


def try_replay(at):
    """What commands print of a namespace, they print again in another one, where the recording is played to them."""
    path, how = f"{OUT}/conversation", {"env": {**os.environ, "ASAN_OPTIONS": "verify_asan_link_order=0"}}
    ip("link", "set", "lo", "up")
    ip("link", "add", "name", "one", "type", "veth", "peer", "name", "other")
    ip("link", "set", "one", "up")
    ip("addr", "add", "203.0.113.7/25", "dev", "one")
    ip("route", "add", "198.51.100.0/24", "dev", "one")
    commands = "ip addr", "ip -d link", "ip route", "ip rule", "ip link set nope up", f"{at}/list", f"{at}/list 4711"
    for words in (it.split() for it in commands):
        said = run(f"{at}/record", path, *words, **how)
        for it in (words, ["timeout", "60", *words]):
            played = run("unshare", "-n", f"{at}/replay", path, *it, **how)
            assert (played.returncode, played.stdout) == (said.returncode, said.stdout), f"{it}: {said}\n{played}"
    names = [it["ifname"] for it in ip_json("link")]
    assert run(f"{at}/record", path, "ip", "link", **how).stdout.count("mtu") == len(names) == 3
    frames = frames_of(path)
    assert [it[0] for it in frames][:2] == [4, 0] and frames[0][1] != 0, frames
    if shutil.which("tshark"):
        lines = run("tshark", "-r", path, "-T", "fields", "-e", "netlink-route.ifla_ifname", stderr=subprocess.DEVNULL)
        assert lines.stdout.replace("\n", ",").strip(",").split(",") == names, lines
    else:
        not_run("replay, read by tshark", "it is not there")
    other = run(f"{at}/replay", path, "ip", "route", **how)
    assert "replay: the request differs at byte 0 from the one that the recording has next" in other.stdout, other
    # 64 sockets, and EMFILE.
    many = "import socket\nfor it in range(65): print(it, socket.socket(16, 3, 0).detach(), flush=True)"
    opened = run(f"{at}/replay", path, sys.executable, "-c", many, **how).stdout
    assert "\n63 " in opened and "\n64 " not in opened and "[Errno 24]" in opened, opened
    try_replayed_notifications(at, path, how)
    try_recorded_together(at, how)
    try_recorded_group(at)
    with open(path, "r+b") as it:
        it.truncate(os.path.getsize(path) - 1)
    refused = run(f"{at}/replay", path, "true", **how)
    assert refused.returncode == 1 and "it ends inside a frame" in refused.stdout, refused
    os.remove(path)


def try_replayed_notifications(at, path, how):
    child = started(f"{at}/record", "-c", "4", "-m", "1", path)
    for it in range(2):
        ip("link", "add", "name", f"a{it}", "type", "veth", "peer", "name", f"b{it}")
    assert child.wait(timeout=20) == 0
    child.stdout.close()
    played = run("unshare", "-n", f"{at}/replay", path, f"{at}/monitor", "-j", "-c", "4", "route", **how)
    found = [json.loads(it) for it in played.stdout.splitlines()]
    assert played.returncode == 0 and kinds(found) == {("LINK", False): 4}, played


def try_recorded_together(at, how):
    """Processes that record into one file at the same time: each frame is whole, and there are those of all."""
    path = f"{OUT}/together"
    ip_batch([f"link add name c{it} type veth peer name d{it}" for it in range(60)])
    count = len(ip_json("link"))
    for _ in range(3):
        words = "for it in 1 2 3 4 5 6 7 8; do ip link > /dev/null & done; wait"
        assert run(f"{at}/record", path, "sh", "-c", words, **how).returncode == 0
        frames = frames_of(path)
        links = [it for _, _, protocol, data in frames if protocol == 0 for it in types_in(data)].count(16)
        assert links == 8 * count, links
    os.remove(path)


def types_in(datagram):
    """The types of the messages of a datagram."""
    place = 0
    while place < len(datagram):
        length, number = struct.unpack_from("<IH", datagram, place)
        yield number
        place += (length + 3) & ~3


def try_recorded_group(at):
    """A group above 32, which no address states: RTNLGRP_STATS is 36, and RTM_NEWSTATS 92."""
    path = f"{OUT}/group"
    child = started("env", "ASAN_OPTIONS=verify_asan_link_order=0", f"{at}/record", path, f"{at}/monitor", "route")
    run("ip", "stats", "set", "dev", "lo", "l3_stats", "on")
    ip("link", "set", "lo", "mtu", "1400")
    assert "  IFLA_MTU 1400\n" in iter(child.stdout.readline, "")
    child.terminate()
    assert child.wait(timeout=10) == 0
    child.stdout.close()
    found = [it[1] for it in frames_of(path) if 92 in types_in(it[3])]
    if found:
        assert found == [36], found
    else:
        not_run("record of a group above 32", "ip or this kernel has no statistics of links to set")
    os.remove(path)


def storm_by(seed, at):
    """Runs the storm by a seed, and gives what went wrong."""
    with tempfile.TemporaryDirectory() as place:
        words = {"LD_PRELOAD": f"{OUT}/shim.so", "NELI_RELAY": f"{OUT}/relay", "NELI_SEED": str(seed)}
        # The sanitizers do not mind that the relay's library comes before theirs.
        how = {**os.environ, **words, "NELI_LOG": f"{place}/log", "ASAN_OPTIONS": "verify_asan_link_order=0"}
        ran = run(f"{at}/storm", str(seed), timeout=30, env=how)
        said = run(f"{HERE}/storm/check", f"{place}/log", stdin=None, input=ran.stdout) if not ran.returncode else ran
    return f"seed {seed}: {said.stdout}" if said.returncode else ""


def try_storm(at):
    """Requests over a relay that loses, repeats and reorders, by seeds."""
    ip("link", "set", "lo", "up")
    for it in range(12):
        ip("link", "add", "name", f"p{it}", "type", "veth", "peer", "name", f"q{it}")
    with concurrent.futures.ThreadPoolExecutor(6) as pool:
        wrong = [it for it in pool.map(lambda seed: storm_by(seed, at), range(int(os.environ["NELI_STORMS"]))) if it]
    assert not wrong, f"{len(wrong)} storms: {wrong[0]}"


INSIDE = {
    "list": try_list,
    "list of bytes": try_list_of_bytes,
    "make": try_make,
    "resolve": try_resolve,
    "watch": try_watch,
    "record": try_record,
    "monitor": try_monitor,
    "replay": try_replay,
    "own_host": try_own_host,
    "page": try_page,
    "readme": try_readme,
    "storm": try_storm,
}
