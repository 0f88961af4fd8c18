#!/usr/bin/env python3
"""Runs the gate in a fresh clone of what is committed, and prints how much time it took, crate by crate.

usage: gate_times.py [FOLDER]

The clone is made in FOLDER, which must not exist, and is kept there; without FOLDER it is thrown away. The gate's own output goes to standard
error. Times are seconds of processor time: of the proof and the library, of the tests with the proof that they need, and of the must-fail
edits. They are read from /proc five times a second, so each check may take a fifth of a second more than is shown.
"""
import os
import subprocess
import sys
import tempfile
import time

TOP = os.path.dirname(os.path.dirname(os.path.abspath(__file__)))
TICKS = os.sysconf("SC_CLK_TCK")
KINDS = ("proof", "tests", "edits")


def words_of(pid):
    with open(f"/proc/{pid}/cmdline", "rb") as file:
        return file.read().decode(errors="replace").split("\0")


def started_and_used(pid):
    """When a process started, in ticks, and the processor seconds that it and its ended children used."""
    with open(f"/proc/{pid}/stat") as file:
        fields = file.read().rpartition(")")[2].split()
    return fields[19], sum(map(int, fields[11:15])) / TICKS


def kind_of(pid, words, clone):
    """Which part of the gate a check belongs to: edits are tried on copies of a crate outside the clone."""
    if not os.readlink(f"/proc/{pid}/cwd").startswith(clone):
        return "edits"
    return "tests" if "--test" in words else "proof"


def is_below(pid, top):
    while pid != top and pid > 1:
        with open(f"/proc/{pid}/stat") as file:
            pid = int(file.read().rpartition(")")[2].split()[1])
    return pid == top


def look(gate, clone, seen):
    """Notes of each check that runs now what it is, and the time that it has used."""
    for name in os.listdir("/proc"):
        if not name.isdigit():
            continue
        try:
            words = words_of(name)
            if "--crate-name" in words and is_below(int(name), gate):
                started, used = started_and_used(name)
                crate = words[words.index("--crate-name") + 1]
                seen[name, started] = (crate, kind_of(name, words, clone), used)
        except (OSError, ValueError):
            pass  # it has ended


def table(seen):
    sums = {}
    for crate, kind, used in seen.values():
        row = sums.setdefault(crate.removesuffix("_tests"), dict.fromkeys(KINDS, 0.0))
        row[kind] += used
    print(f"{'crate':14}" + "".join(f" {it:>7}" for it in (*KINDS, "all")))
    for crate, row in sorted(sums.items(), key=lambda it: -sum(it[1].values())):
        print(f"{crate:14}" + "".join(f" {it:7.0f}" for it in (*row.values(), sum(row.values()))))
    print(f"{'all':14}" + "".join(f" {sum(row[kind] for row in sums.values()):7.0f}" for kind in KINDS)
          + f" {sum(sum(row.values()) for row in sums.values()):7.0f}")


def watched(clone):
    """Runs the gate in a clone, and answers its status."""
    subprocess.run(["git", "clone", "-q", TOP, clone], check=True)
    seen, began = {}, time.monotonic()
    gate = subprocess.Popen(["rt", "ci"], cwd=clone, stdin=subprocess.DEVNULL, stdout=sys.stderr)
    while gate.poll() is None:
        look(gate.pid, os.path.realpath(clone), seen)
        time.sleep(0.2)
    table(seen)
    print(f"{(time.monotonic() - began) / 60:.1f} minutes of wall time on {os.cpu_count()} processors")
    return gate.returncode


def main(words):
    if words:
        return watched(words[0])
    with tempfile.TemporaryDirectory(prefix="gate-times-") as room:
        return watched(os.path.join(room, "clone"))


if __name__ == "__main__":
    sys.exit(main(sys.argv[1:]))
