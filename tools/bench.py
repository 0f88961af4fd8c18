#!/usr/bin/env python3
"""Times the built program on scripts of a megabyte: how long it takes to read, elaborate and record them, and how much memory.

usage: bench.py [PROGRAM]

Each script is one kind of line, again and again. With a last line that is refused, nothing runs: that is the time of reading and
elaborating. The scripts of small arrays also run whole.
"""
import os
import resource
import subprocess
import sys
import time

TOP = os.path.dirname(os.path.dirname(os.path.abspath(__file__)))
SIZE = 1_048_576
REFUSED = "print q\n"
LARGE = "a = range(1048576)\nm = reshape(a, [1024,1024])\n"
SMALL = "a = range(3)\nm = reshape(range(4), [2,2])\n"

# What a line is about, what stands before the lines, the line, and whether the script also runs whole.
KINDS = [
    ("reshape of a million", LARGE, "b = reshape(a, [1048576])\n", False),
    ("reshape of rows", LARGE, "b = reshape(m[1:1023], [1022,1024])\n", False),
    ("write of a million", LARGE, "a[:] = 1\n", False),
    ("write of columns", LARGE, "m[:,1:1023:2] = 1\n", False),
    ("write of a diagonal", LARGE, "strided(a, 0, [1024], [1025]) = 1\n", False),
    ("write by odd strides", LARGE, "strided(a, 5, [300,300], [1000,7]) = 1\n", False),
    ("write of a transpose", LARGE, "transpose(m)[::-1] = m\n", False),
    ("stencil", LARGE, "m[1:1023,1:1023] = m[0:1022,1:1023] + m[2:1024,1:1023]\n", False),
    ("spread", LARGE, "b = broadcast(a[0:1], [1024,1024])\n", False),
    ("view of a view", LARGE, "a = a[0:1048576]\n", False),
    ("long sums", SMALL, "b = a" + " + a" * 500 + "\n", True),
    ("binding", SMALL, "b = a\n", True),
    ("sums", SMALL, "b = a + 1\n", True),
    ("prints", SMALL, "print a\n", True),
    ("names", "".join(f"x{i} = range(1)\n" for i in range(1024)), "x7 = x9\n", True),
    ("flushes", SMALL, "a[:] = 1\nflush\n", True),
    ("comments", SMALL, "#\n", True),
]


def timed(program, script):
    """Seconds, the status, and the most memory in MiB that the program had."""
    before = time.perf_counter()
    child = subprocess.Popen([program, "run"], stdin=subprocess.PIPE, stdout=subprocess.DEVNULL)
    child.stdin.write(script.encode())
    child.stdin.close()
    _, status, used = os.wait4(child.pid, 0)
    child.returncode = os.waitstatus_to_exitcode(status)
    return time.perf_counter() - before, child.returncode, used.ru_maxrss / 1024


def main(words):
    program = words[0] if words else os.path.join(TOP, "crates", "bohrium", "out", "bohrium")
    resource.setrlimit(resource.RLIMIT_CORE, (0, 0))
    print("| a megabyte of | read and elaborated, s | MiB | run whole, s | MiB |\n|---|---|---|---|---|")
    for name, head, line, runs in KINDS:
        lines = (SIZE - len(head) - len(REFUSED)) // len(line)
        body = head + line * lines
        seconds, status, memory = timed(program, body + REFUSED)
        row = f"| {name} | {seconds:.2f} | {memory:.0f} |" if status == 1 else f"| {name} | status {status} | |"
        if runs:
            seconds, status, memory = timed(program, body)
            row += f" {seconds:.2f} | {memory:.0f} |" if status == 0 else f" status {status} | |"
        else:
            row += " | |"
        print(row, flush=True)


if __name__ == "__main__":
    main(sys.argv[1:])
