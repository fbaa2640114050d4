"""Commands with a limit on the clock, for `./check`, host/test and host/release/test.

Past its limit a command is killed with all that it started. A process that is stuck in the kernel can't be killed: it is
left, and nothing waits for it.
"""

import os
import shutil
import signal
import subprocess
import time

# Why a test that needs a namespace is not run.
NO_NAMESPACE = "this kernel makes no network namespace"
# How many seconds a probe of the kernel may take, and how many a killed process has to go.
PROBE, GRACE = 20, 5


def fields_of(pid):
    """Parent, process group, session and state of a process; none where it has gone."""
    try:
        with open(f"/proc/{pid}/stat", encoding="utf-8", errors="replace") as it:
            state, parent, group, session = it.read().rpartition(")")[2].split()[:4]
    except (OSError, ValueError):
        return None
    return int(parent), int(group), int(session), state


def add_started(known):
    """Adds all processes that these have started, and gives those of all that still live."""
    there = {int(it): fields_of(it) for it in os.listdir("/proc") if it.isdigit()}
    there = {pid: it for pid, it in there.items() if it}
    size = 0
    while size < len(known):
        size = len(known)
        for pid in [pid for pid, it in there.items() if known & {pid, *it[:3]}]:
            known |= {pid, there[pid][1]}
    return {pid for pid in known & set(there) if there[pid][3] not in "ZX"}


def kill(pid):
    """Kills a process that leads its process group, and all that it started; gives those that live on."""
    known, until = {pid}, time.monotonic() + GRACE
    while left := add_started(known):
        for it in left:
            try:
                os.kill(it, signal.SIGKILL)
            except OSError:
                pass
        if time.monotonic() > until:
            break
        time.sleep(0.1)
    return left


def run(*words, timeout=300, **how):
    """Runs a command, and gives it with its status and all that it said; 127 where it was killed or isn't there."""
    given = how.pop("input", None)
    how = {"stdin": subprocess.DEVNULL, "stdout": subprocess.PIPE, "stderr": subprocess.STDOUT, "text": True,
           "process_group": 0, **how}
    if given is not None:
        how["stdin"] = subprocess.PIPE
    try:
        child = subprocess.Popen(words, **how)
    except OSError as error:
        return subprocess.CompletedProcess(words, 127, str(error))
    try:
        said = child.communicate(given, timeout)[0]
        return subprocess.CompletedProcess(words, child.returncode, said)
    except subprocess.TimeoutExpired:
        kill(child.pid)
    try:
        said = child.communicate(timeout=1)[0] or ""
    except subprocess.TimeoutExpired:
        said = ""
    why = f"{words[0]}: killed past its limit of {timeout:.0f} seconds\n"
    return subprocess.CompletedProcess(words, 127, why + said)


def makes_namespace(*flags):
    """Whether `unshare` with these flags makes a network namespace in which rtnetlink answers in time."""
    answers = ("ip", "link") if shutil.which("ip") else ("true",)
    return run("unshare", *flags, *answers, timeout=PROBE, stdout=subprocess.DEVNULL).returncode == 0
