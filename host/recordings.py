#!/usr/bin/env python3
"""host/recordings.py FOLDER: compares recordings as JSON from neli_show, C, Rust and Python, byte by byte.

FOLDER is as tables/record writes it: hex/*.hex, and manifest.json, a list of each file with the number of its protocol.
Its datagrams become a pcap file for each protocol. Run host/test first, which builds the programs and compares the
recordings of the tests in the same way. The last line is 'N passed, M failed'.
"""

import json
import os
import struct
import subprocess
import sys
import tempfile

sys.dont_write_bytecode = True
HERE = os.path.dirname(os.path.abspath(__file__))
TOP = os.path.dirname(HERE)
OUT = os.path.join(HERE, "out")
SHOWN = f"{TOP}/crates/neli_show/out/neli_show"
FILE, FRAME, COOKED = "<IHHIIII", "<IIII", ">HHH8sH"
MAGIC, LINK_TYPE, NETLINK = 0xA1B2C3D4, 253, 824


def write_pcap(path, protocol, datagrams):
    with open(path, "wb") as file:
        file.write(struct.pack(FILE, MAGIC, 2, 4, 0, 0, 262144, LINK_TYPE))
        for data in datagrams:
            size = struct.calcsize(COOKED) + len(data)
            file.write(struct.pack(FRAME, 0, 0, size, size) + struct.pack(COOKED, 0, NETLINK, 0, b"", protocol) + data)


def read_pcap(path):
    """The protocol and the bytes of each datagram."""
    with open(path, "rb") as file:
        data = file.read()
    at, cooked = struct.calcsize(FILE), struct.calcsize(COOKED)
    while at < len(data):
        size = struct.unpack_from(FRAME, data, at)[2]
        at += struct.calcsize(FRAME)
        yield struct.unpack_from(COOKED, data, at)[4], data[at + cooked : at + size]
        at += size


def pcaps_of(folder, to):
    """Writes the recordings of a folder into pcap files, one for each protocol, and gives their paths."""
    with open(f"{folder}/manifest.json", encoding="utf-8") as file:
        rows, datagrams = json.load(file), {}
    for row in rows:
        with open(f"{folder}/{row['file']}", encoding="ascii") as file:
            datagrams.setdefault(row["family_number"], []).append(bytes.fromhex(file.read()))
    for protocol, found in datagrams.items():
        write_pcap(f"{to}/protocol_{protocol}.pcap", protocol, found)
    return [f"{to}/protocol_{it}.pcap" for it in sorted(datagrams)]


def print_by_python(path):
    """What a file is as JSON by host/python; as neli_show does, it learns the numbers of families first."""
    sys.path.append(f"{HERE}/python")
    import neli
    from neli_schema import Schema
    with Schema() as schema:
        for protocol, data in read_pcap(path):
            try:
                for message in neli.messages(data, protocol):
                    schema.learn_from(message)
            except ValueError:
                pass  # no message
        for protocol, data in read_pcap(path):
            sys.stdout.buffer.write(schema.datagram_json(data, protocol).encode("utf-8", "surrogateescape"))


def shared_library(neli_c, rattle_c):
    """Builds the library as Python loads it, and gives its path."""
    path = f"{OUT}/libneli.so"
    sources = [f"{HERE}/c/{it}.c" for it in ("neli_host", "host", "link")]
    words = ["-O2", "-fPIC", "-shared", f"-I{TOP}/include", f"-I{HERE}/c", "-o", path, *sources,
             f"{HERE}/release/version.c", "-Wl,--whole-archive", f"{neli_c}/libneli_c.a", f"{rattle_c}/liblibc_c.a",
             "-Wl,--no-whole-archive", f"-Wl,--version-script={HERE}/release/neli.map"]
    subprocess.run([os.environ.get("CC", "cc"), *words], check=True)
    return path


def printed(*words, **how):
    return subprocess.run(words, stdout=subprocess.PIPE, **how).stdout


def differing(found, wanted):
    """The first line that differs."""
    pairs = zip(found.splitlines() + [b"(its end)"], wanted.splitlines() + [b"(its end)"])
    for number, (line, other) in enumerate(pairs, 1):
        if line != other:
            return f"line {number}:\n{line.decode(errors='replace')}\nneli_show:\n{other.decode(errors='replace')}"
    return ""


def compare(paths, library, count):
    """Compares what each program prints of each file; `library` is for Python, where there is one."""
    programs = {"C": [f"{OUT}/c/json"], "Rust": [f"{HERE}/rust/out/debug/examples/json"]}
    programs = {what: words for what, words in programs.items() if os.path.isfile(words[0])}
    if library:
        programs["Python"] = [sys.executable, os.path.abspath(__file__), "--python"]
    how = {"env": {**os.environ, "NELI_LIBRARY": library or ""}}
    for path in paths:
        with open(path, "rb") as file:
            wanted = printed(SHOWN, "json", stdin=file)
        datagrams = list(read_pcap(path))
        for what, words in programs.items():
            family = [str(datagrams[0][0])] if what == "Rust" else []
            found = printed(*words, *family, path, **how)
            said = f"{what} JSON of {os.path.basename(path)}, {len(datagrams)} datagrams"
            count(said, found == wanted and found != b"", differing(found, wanted))


def main(folder):
    counts = {True: 0, False: 0}

    def count(name, is_well, said):
        counts[is_well] += 1
        print(f"{name}: {'ok' if is_well else 'FAILED'}", flush=True)
        if said and not is_well:
            print(said)

    library = f"{OUT}/libneli.so"
    with tempfile.TemporaryDirectory() as to:
        compare(pcaps_of(folder, to), library if os.path.isfile(library) else None, count)
    print(f"{counts[True]} passed, {counts[False]} failed")
    sys.exit(counts[False] != 0)


if __name__ == "__main__":
    if sys.argv[1] == "--python":
        print_by_python(sys.argv[2])
    else:
        main(sys.argv[1])
