#!/usr/bin/env python3
"""Prints what a run of the gate took: the seconds of proofs and of edits by crate, and of the rest.

    tools/costs.py watch PID SEEN       once a second until it is told to end: notes in the file SEEN the checks that run below the process PID
    tools/costs.py SEEN PROVING ALL     prints what was seen; PROVING and ALL are the seconds of rt ci and of the whole run

rt ci prints no seconds, so the checks (processes `rattle`) are watched. The seconds of a crate are those that its checks took beside others that ran at the same
time, so their sum is more than the time gone. What is kept from an earlier run on the machine is not checked again and has no line.
"""
import collections
import os
import signal
import sys
import time

TICKS = os.sysconf("SC_CLK_TCK")


def processes():
    """Of each process its parent, its command, and the seconds since the system's start at which it began."""
    found = {}
    for name in filter(str.isdigit, os.listdir("/proc")):
        try:
            with open(f"/proc/{name}/stat", encoding="utf-8", errors="replace") as it:
                before, _, after = it.read().rpartition(")")
        except OSError:
            continue
        fields = after.split()
        found[int(name)] = int(fields[1]), before.partition("(")[2], int(fields[19]) / TICKS
    return found


def what(pid):
    """Whether a check is of a crate as it stands or with an edit, and its crate's name; None where it is no check of one."""
    try:
        with open(f"/proc/{pid}/cmdline", "rb") as it:
            words = it.read().decode(errors="replace").split("\0")
        at = os.path.basename(os.readlink(f"/proc/{pid}/cwd"))
    except OSError:
        return None
    if words[1:2] not in (["check"], ["build"]) or "--crate-name" not in words:
        return None
    kept = words[words.index("--incremental") + 1] if "--incremental" in words else ""
    # An edit's check runs in a folder of its own, as does the check that the edits of a crate begin with.
    kind = "proof" if not at.startswith("rt-edit-") else "seed" if kept.endswith("/seed") else "edit"
    return kind, words[words.index("--crate-name") + 1]


def watch(top, file):
    seen, ended = {}, []
    signal.signal(signal.SIGTERM, lambda *_: ended.append(True))
    while not ended and os.path.exists(f"/proc/{top}"):
        all_of = processes()
        below = {top}
        # A parent's number may be higher than its child's.
        while more := {pid for pid, (parent, _, _) in all_of.items() if parent in below} - below:
            below |= more
        now = time.clock_gettime(time.CLOCK_BOOTTIME)
        for pid in below - {top}:
            parent, command, began = all_of[pid]
            # A copy that a check starts of itself counts with it.
            if command != "rattle" or all_of.get(parent, ("", "", 0))[1] == "rattle":
                continue
            said = seen.get((pid, began), [None])[0] or what(pid)
            if said:
                seen[pid, began] = said, now - began
        time.sleep(1)
    with open(file, "w", encoding="utf-8") as it:
        for (kind, crate), took in seen.values():
            it.write(f"{kind} {crate} {took:.1f}\n")


def tell(file, proving, whole):
    proofs, edits, tried = collections.Counter(), collections.Counter(), collections.Counter()
    for line in open(file, encoding="utf-8"):
        kind, crate, took = line.split()
        (proofs if kind == "proof" else edits)[crate] += float(took)
        tried[crate] += kind == "edit"
    print(f"{'crate':20} {'proof s':>8} {'edits':>6} {'edits s':>8}")
    for crate in sorted(proofs | edits, key=lambda c: -(proofs[c] + edits[c])):
        print(f"{crate:20} {proofs[crate]:8.0f} {tried[crate]:6} {edits[crate]:8.0f}")
    print(f"{'all':20} {proofs.total():8.0f} {tried.total():6} {edits.total():8.0f}")
    print(f"time gone: rt ci {proving} s, the rest {whole - proving} s, in all {whole} s")


if __name__ == "__main__":
    if sys.argv[1] == "watch":
        watch(int(sys.argv[2]), sys.argv[3])
    else:
        tell(sys.argv[1], int(sys.argv[2]), int(sys.argv[3]))
