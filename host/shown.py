"""What neli_show prints and how it ends, by its page (docs/SHOW.md), run as a program."""

import os
import re
import subprocess

TOP = os.path.dirname(os.path.dirname(os.path.abspath(__file__)))
COLOUR = re.compile(rb"\x1b\[[0-9;]*m")
USAGE = b"usage: neli_show [--json | --color[=WHEN]] [route | connector | generic[:FAMILY=ID] | NUMBER] < FILE (--help says more)\n"
NO_INPUT, NO_OUTPUT = b"neli_show: the input cannot be read\n", b"neli_show: the output cannot be written\n"
# A network namespace's number (RTM_NEWNSID), and two bytes that are no header.
WHOLE = bytes.fromhex("1c0000005800000023040000e9729683000000000800010001000000")
CUT = WHOLE + bytes.fromhex("ffff")
LINES = b"RTM_NEWNSID length 28 flags 0 seq 1059 port 2207675113\n  rtgenmsg rtgen_family 0\n  NETNSA_NSID 1\n"
FAULT = b"fault: at 28: the bytes end too early\n"
with open(f"{TOP}/include/neli.h", encoding="utf-8") as header:
    VERSION = b"neli_show " + re.search(r'#define NELI_VERSION "(.*)"', header.read())[1].encode() + b"\n"
# What the program is given, and its exit status, output and standard error.
ROWS = (
    ("messages alone", [], WHOLE, 0, LINES, b""),
    ("a datagram that is cut off", [], CUT, 1, LINES + FAULT, b""),
    ("a word that is none of its own", ["jsonn"], WHOLE, 2, b"", USAGE),
    ("an option that is none of its own", ["--colour"], WHOLE, 2, b"", USAGE),
    ("two forms", ["--json", "color"], WHOLE, 2, b"", USAGE),
    ("an output that is no terminal", ["--color=auto", "route"], WHOLE, 0, LINES, b""),
    ("no colours", ["route", "--color=never"], WHOLE, 0, LINES, b""),
    ("its version", ["--version"], WHOLE, 0, VERSION, b""),
)


def ended(program, words, given, out=subprocess.PIPE):
    """The exit status, the output and the standard error of a run."""
    ran = subprocess.run([program, *words], **given, stdout=out, stderr=subprocess.PIPE, timeout=60)
    return ran.returncode, ran.stdout, ran.stderr


def compare(program, count):
    """Counts each row, and what is printed in colours, of no input and to no output."""
    for what, words, given, *wanted in ROWS:
        said = ended(program, words, {"input": given})
        count(f"neli_show of {what}", said == tuple(wanted), str(said))
    with open(f"{TOP}/crates/neli_show/stdin", "rb") as given, open(f"{TOP}/crates/neli_show/stdout", "rb") as wanted:
        status, printed, said = ended(program, ["color"], {"stdin": given})
        is_same, is_coloured = COLOUR.sub(b"", printed) == wanted.read(), COLOUR.search(printed) is not None
        count("neli_show in colours", is_same and is_coloured and (status, said) == (0, b""), str(printed))
    with open(f"{TOP}/crates/neli_show/stdin", "rb") as given:
        status, printed, said = ended(program, ["--color", "0"], {"stdin": given})
    count("neli_show in colours by an option", COLOUR.search(printed) is not None and (status, said) == (0, b""), str(printed))
    status, printed, said = ended(program, ["--help"], {"input": b""})
    words = set(re.findall(rb"^(--?\w+)", printed, re.M)) | set(re.findall(rb"(--\w+)", printed))
    is_whole = {b"--json", b"--color", b"--help", b"--version", b"-h"} <= words
    count("neli_show and its help", is_whole and (status, said) == (0, b"") and ended(program, ["-h"], {"input": b""})[1] == printed,
          str(printed))
    as_json = [ended(program, [word], {"input": WHOLE}) for word in ("json", "--json")]
    count("neli_show of JSON by either word", as_json[0] == as_json[1] and as_json[0][1].startswith(b'{"protocol":0,'), str(as_json))
    folder = os.open(TOP, os.O_RDONLY)
    said = ended(program, [], {"stdin": folder})
    os.close(folder)
    count("neli_show of a folder", said == (1, b"", NO_INPUT), str(said))
    with open("/dev/full", "wb") as full:
        said = ended(program, [], {"input": WHOLE}, full)
    count("neli_show to a full disk", said == (1, None, NO_OUTPUT), str(said))
