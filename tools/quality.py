#!/usr/bin/env python3
"""Shows how good the plans of `best` are: a line for each list of some scripts, with what its search took.

usage: quality.py [--budget=N] [SCRIPT..]

Each script, those of examples/ where none is named, runs with `--plan` by best and by greedy. A line has the script, the number of the
flush, how many operations its rewritten list has, what greedy's plan costs, and of best the cost, the bound, the units and the mark. Behind
the lists of a script stand times: that of a run whose output is refused at its first byte, which plans but does
not run, is that of its first list; beside it the whole run, by best and by greedy.
"""
import glob
import os
import re
import subprocess
import sys
import time

TOP = os.path.dirname(os.path.dirname(os.path.abspath(__file__)))
PROGRAM = os.path.join(TOP, "crates", "bohrium", "out", "bohrium")
FLUSH = re.compile(r"# flush (\d+) recorded \d+ rewritten (\d+) blocks \d+ cost (\d+)")
BOUND = re.compile(r"# bound (\d+) units (\d+) (optimal|budget)")


def listing(script, *words):
    with open(script, "rb") as file:
        done = subprocess.run([PROGRAM, "run", "--plan", *words], stdin=file, stdout=subprocess.PIPE)
    return done.stdout.decode()


def seconds(script, out, *words):
    began = time.monotonic()
    with open(script, "rb") as file, open(out, "wb") as sink:
        subprocess.run([PROGRAM, "run", *words], stdin=file, stdout=sink)
    return time.monotonic() - began


def main(words):
    budget = [word for word in words if word.startswith("--budget=")]
    scripts = [word for word in words if word not in budget] or sorted(glob.glob(os.path.join(TOP, "examples", "*.bh")))
    open_lists = lists = 0
    print("| script | flush | operations | greedy | cost | bound | units | |\n|---|---|---|---|---|---|---|---|")
    for script in scripts:
        name = os.path.basename(script)
        found = listing(script, "--fuse=best", *budget)
        greedy = [cost for _, _, cost in FLUSH.findall(listing(script, "--fuse=greedy"))]
        for (number, count, cost), (bound, units, mark), other in zip(FLUSH.findall(found), BOUND.findall(found), greedy):
            print(f"| {name} | {number} | {count} | {other} | {cost} | {bound} | {units} | {mark} |")
            lists, open_lists = lists + 1, open_lists + (mark == "budget")
        first = seconds(script, "/dev/full", "--plan", *budget)
        whole, by_greedy = seconds(script, os.devnull, *budget), seconds(script, os.devnull, "--fuse=greedy")
        print(f"| {name} | | | | | | | first list planned in {first:.2f} s; run in {whole:.2f} s, by greedy in {by_greedy:.2f} s |", flush=True)
    print(f"\n{lists - open_lists} of {lists} lists proved optimal")
    return 0


if __name__ == "__main__":
    sys.exit(main(sys.argv[1:]))
