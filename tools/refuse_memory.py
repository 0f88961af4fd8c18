#!/usr/bin/env python3
"""Makes each allocation of the built program fail in turn, and looks at how the program ends.

usage: refuse_memory.py [PROGRAM]

A small library in C stands between the program and the C library (LD_PRELOAD) and refuses the N-th call that takes memory. For each case
below N goes from 1 on until a run makes fewer calls. Each run must end as the untouched run does, with the same bytes, or with status 5
and a front of them. It is skipped where there is no `cc`. Written out are the counts of each case, and last `N passed, N failed`.
"""
import os
import shutil
import subprocess
import sys
import tempfile

import cases

TOP = os.path.dirname(os.path.dirname(os.path.abspath(__file__)))
OUT_OF_MEMORY = 5
SHIM = r"""
#include <errno.h>
#include <stdlib.h>
#include <unistd.h>
extern void *__libc_malloc(size_t), *__libc_calloc(size_t, size_t), *__libc_realloc(void *, size_t), *__libc_memalign(size_t, size_t);
static long left;
static int refused(void) {
    if (left == 0) left = getenv("REFUSE") ? atol(getenv("REFUSE")) : -1;
    if (left < 0 || --left > 0) return 0;
    left = -1;
    errno = ENOMEM;
    return write(2, "refused\n", 8) == 8;
}
void *malloc(size_t n) { return refused() ? NULL : __libc_malloc(n); }
void *calloc(size_t m, size_t n) { return refused() ? NULL : __libc_calloc(m, n); }
void *realloc(void *p, size_t n) { return refused() ? NULL : __libc_realloc(p, n); }
void *aligned_alloc(size_t a, size_t n) { return refused() ? NULL : __libc_memalign(a, n); }
void *memalign(size_t a, size_t n) { return refused() ? NULL : __libc_memalign(a, n); }
int posix_memalign(void **p, size_t a, size_t n) { return refused() || !(*p = __libc_memalign(a, n)) ? ENOMEM : 0; }
"""

SCRIPT = """a = range(6)
b = reshape(a, [2,3]) + full([3], 7, i64)
b[:,1:] = b[:,:2] * 2
c = cumsum(transpose(b)[::-1], 0)
print c
flush
print sum(c, 1) ** 3
s = b < 12
"""
LOOKED_UP = """a = range(5) * 10
b = gather(a, range(3) - 1)
print b
scatter(a[1:4], b % 3, b + 1)
print a
"""
# The words, the script, and the proof where there is one. Words that the program does not know are left out, but for the last.
CASES = [
    (["run"], SCRIPT, None), (["run", "--plan", "--fuse=linear"], SCRIPT, None), (["run", "--plan", "--fuse=greedy"], SCRIPT, None),
    (["run"], LOOKED_UP, None), (["run", "--plan", "--fuse=greedy"], LOOKED_UP, None), (["run"], SCRIPT + "print q\n", None),
    (["run"], SCRIPT + "print (\n", None), (["check", "FILE"], cases.CHECKED, "\n".join(cases.PROOF)),
    (["check", "FILE"], cases.CHECKED, "\n".join(cases.PROOF[:5])), (["run", "--cert", "--fuse=best", "--budget=200"], SCRIPT, None),
    (["run", "--cert"], LOOKED_UP, None), (["demo", "1"], "", None), (["no", "command"], "", None),
]


class Refuser:
    def __init__(self, program, folder):
        self.program, self.library, self.proof = program, os.path.join(folder, "refuse.so"), os.path.join(folder, "proof")
        source = os.path.join(folder, "refuse.c")
        with open(source, "w") as file:
            file.write(SHIM)
        subprocess.run(["cc", "-O1", "-fno-builtin", "-shared", "-fPIC", "-o", self.library, source], check=True)

    def run(self, words, script, proof, refused=None):
        """The status, the text, and whether a call was refused."""
        if proof is not None:
            with open(self.proof, "w") as file:
                file.write(proof)
        words = [self.proof if word == "FILE" else word for word in words]
        surroundings = dict(os.environ, LD_PRELOAD=self.library, **({"REFUSE": str(refused)} if refused else {}))
        done = subprocess.run([self.program, *words], input=script.encode(), capture_output=True, env=surroundings, timeout=120)
        return done.returncode, done.stdout, b"refused\n" in done.stderr

    def judge_case(self, words, script, proof):
        """How many runs ended as the untouched one, how many with status 5, and how many otherwise; each of these is shown."""
        status, text, _ = self.run(words, script, proof)
        same = out_of_memory = wrong = number = 0
        while True:
            number += 1
            found = self.run(words, script, proof, number)
            if not found[2]:
                return same, out_of_memory, wrong
            if found[:2] == (status, text):
                same += 1
            elif found[0] == OUT_OF_MEMORY and text.startswith(found[1]):
                out_of_memory += 1
            else:
                wrong += 1
                print(f"{words}, call {number} is refused: status {found[0]}\n{found[1][:1000]!r}")


def main(words):
    program = words[0] if words else os.path.join(TOP, "crates", "bohrium", "out", "bohrium")
    if not shutil.which("cc"):
        print("skipped: there is no cc")
        return 0
    passed = failed = 0
    print("| words | calls | same end | status 5 | otherwise |\n|---|---|---|---|---|")
    with tempfile.TemporaryDirectory() as folder:
        refuser = Refuser(program, folder)
        for case in CASES:
            if refuser.run(*case)[0] == 2 and case != CASES[-1]:
                continue
            same, out_of_memory, wrong = refuser.judge_case(*case)
            passed, failed = passed + same + out_of_memory, failed + wrong
            print(f"| `{' '.join(case[0])}` | {same + out_of_memory + wrong} | {same} | {out_of_memory} | {wrong} |", flush=True)
    print(f"{passed} passed, {failed} failed")
    return 1 if failed or not passed else 0


if __name__ == "__main__":
    sys.exit(main(sys.argv[1:]))
