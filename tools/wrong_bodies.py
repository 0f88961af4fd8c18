#!/usr/bin/env python3
"""Tries the wrong bodies of wrong_bodies/ on what is committed: the prover must refuse each.

usage: wrong_bodies.py [CRATE..]

wrong_bodies/CRATE/NAME.edit has the form of a must-fail edit, and is one in all but its place: before its edits are tried, a crate is
proved once more, which for these crates costs the gate more than it tells each time. With no CRATE all of them are tried. The last line is
`N passed, N failed`, an edit each.
"""
import os
import re
import shutil
import subprocess
import sys
import tempfile

TOP = os.path.dirname(os.path.dirname(os.path.abspath(__file__)))
BODIES = os.path.join(TOP, "wrong_bodies")


def main(crates):
    crates = crates or sorted(os.listdir(BODIES))
    with tempfile.TemporaryDirectory(prefix="wrong-bodies-") as room:
        clone = os.path.join(room, "clone")
        subprocess.run(["git", "clone", "-q", TOP, clone], check=True)
        for crate in crates:
            place = os.path.join(clone, "crates", crate, "must-fail")
            # (the gate tries those that stand there)
            shutil.rmtree(place, ignore_errors=True)
            shutil.copytree(os.path.join(BODIES, crate), place)
        tried = subprocess.run(["rt", "must-fail", *crates], cwd=clone, stdin=subprocess.DEVNULL, stdout=subprocess.PIPE, text=True)
    print(tried.stdout, end="")
    edits = sum(len(os.listdir(os.path.join(BODIES, crate))) for crate in crates)
    refused = len(re.findall(r"^.*: refused\b", tried.stdout, re.MULTILINE))
    print(f"{refused} passed, {edits - refused} failed")
    return 0 if tried.returncode == 0 and refused == edits else 1


if __name__ == "__main__":
    sys.exit(main(sys.argv[1:]))
