#!/usr/bin/env python3
"""Times the loops of the built program against NumPy, and against numexpr where it is installed, on one processor in one run.

usage: speed.py [PROGRAM [WORDS..]]        the WORDS stand behind `run`; --fuse=greedy where there are none

First the kernels: for each a script of a head, a body that is said several times, a flush after each, and a tail. The time of a body is what
the script with many takes beyond the one with few, over the difference; so neither the start nor the head counts, but recording, rewriting and
planning each body do. The least of some runs counts, here as there. A ratio below 1 says that the program is faster.

Then how the time of a number and an operation grows with how many numbers there are, with how many operations share a block, with the length of
rows, with the rank, and what the same operations take as one block and as one block each.

Without NumPy the program alone is timed. Figures that were measured so stand in docs/SPEED.md.
"""
import os
import subprocess
import sys
import time

try:
    import numpy
except ImportError:
    numpy = None
try:
    import numexpr
    numexpr.set_num_threads(1)
except ImportError:
    numexpr = None

TOP = os.path.dirname(os.path.dirname(os.path.abspath(__file__)))
MILLION = 1_000_000
SIDE = 1000
FEW, MANY, RUNS = 3, 15, 5
AROUND = [(row, column) for row in range(3) for column in range(3) if (row, column) != (1, 1)]
INSIDE = f"1:{SIDE - 1}"


def window(row, column):
    return f"g[{row}:{SIDE - 2 + row},{column}:{SIDE - 2 + column}]"


# A name; the operations on each number; how many numbers; the script's head, body and tail; the body for NumPy on arrays x, y, g and c; and the
# expression for numexpr.
KERNELS = [
    ("ten additions", 10, MILLION, f"x = range({MILLION})\ny = x + 0\n", "y[:] = " + " + ".join(["x"] * 11) + "\n", "print y[7:8]\n",
     lambda a: numpy.copyto(a.y, a.x + a.x + a.x + a.x + a.x + a.x + a.x + a.x + a.x + a.x + a.x), " + ".join(["x"] * 11)),
    ("mixed arithmetic", 8, MILLION, f"x = range({MILLION})\ny = x + 1\n", "y[:] = ((((y * 3 + x) - (x << 2)) & 1048575) * x >> 3) - y\n", "print y[7:8]\n",
     lambda a: numpy.copyto(a.y, ((((a.y * 3 + a.x) - (a.x << 2)) & 1048575) * a.x >> 3) - a.y), None),
    ("heat", 5, SIDE * SIDE, f"g = reshape(range({SIDE * SIDE}), [{SIDE},{SIDE}]) % 97\nc = g[{INSIDE},{INSIDE}] + 0\n",
     f"c[:,:] = ({window(0, 1)} + {window(2, 1)} + {window(1, 0)} + {window(1, 2)}) / 4\ng[{INSIDE},{INSIDE}] = c\n", "print g[7:8,7:8]\n",
     lambda a: heat(a), None),
    ("life on u8", 11, SIDE * SIDE, f"g = u8((reshape(range({SIDE * SIDE}), [{SIDE},{SIDE}]) * 7919) % 11 < 4)\nn = g[{INSIDE},{INSIDE}] + 0\n",
     "n[:,:] = " + " + ".join(window(*at) for at in AROUND) + f"\ng[{INSIDE},{INSIDE}] = (n == 3) | ((n == 2) & {window(1, 1)})\n", "print g[7:8,7:8]\n",
     lambda a: life(a), None),
    ("sum of squares", 2, MILLION, f"x = range({MILLION})\n", "s = sum(x * x, 0)\n", "print s\n", lambda a: (a.x * a.x).sum(), "sum(x * x)"),
    ("running sum", 1, MILLION, f"x = range({MILLION})\ny = x + 1\n", "y[:] = cumsum(x, 0)\n", "print y[7:8]\n", lambda a: numpy.cumsum(a.x, out=a.y), None),
    ("one addition", 1, MILLION, f"x = range({MILLION})\ny = x + 1\n", "y[:] = y + x\n", "print y[7:8]\n", lambda a: numpy.add(a.y, a.x, out=a.y), "y + x"),
    ("overlapping copy", 1, MILLION, f"x = range({MILLION})\n", f"x[1:{MILLION}] = x[0:{MILLION - 1}]\n", "print x[7:8]\n",
     lambda a: a.x.__setitem__(slice(1, None), a.x[:-1]), None),
]


class Arrays:
    def __init__(self):
        self.x = numpy.arange(MILLION, dtype=numpy.int64)
        self.y = self.x + 1
        self.g = self.x.reshape(SIDE, SIDE) % 97
        self.c = self.g[1:-1, 1:-1] + 0
        self.u = ((self.x.reshape(SIDE, SIDE) * 7919) % 11 < 4).astype(numpy.uint8)


def heat(a):
    # (no sum is negative, so the shift is the quotient)
    a.c[:] = (a.g[:-2, 1:-1] + a.g[2:, 1:-1] + a.g[1:-1, :-2] + a.g[1:-1, 2:]) >> 2
    a.g[1:-1, 1:-1] = a.c


def life(a):
    count = sum(a.u[row:SIDE - 2 + row, column:SIDE - 2 + column] for row, column in AROUND[1:])
    count = count + a.u[:-2, :-2]
    a.u[1:-1, 1:-1] = (count == 3) | ((count == 2) & a.u[1:-1, 1:-1])


def least(call, runs):
    return min(call() for _ in range(runs))


def timed(call):
    start = time.perf_counter()
    call()
    return time.perf_counter() - start


def run(words, text):
    done = subprocess.run(words, input=text.encode(), stdout=subprocess.PIPE)
    if done.returncode:
        sys.exit(f"speed.py: status {done.returncode}: {done.stdout[:200]!r}")


def body_time(words, head, body, tail, few=FEW, many=MANY):
    """Seconds that one body takes: each is a flush of its own."""
    def script(count):
        return head + "flush\n" + (body + "flush\n") * count + tail
    return (least(lambda: timed(lambda: run(words, script(many))), RUNS) - least(lambda: timed(lambda: run(words, script(few))), RUNS)) / (many - few)


def kernels(words):
    print(f"{'kernel':18}{'here':>8}{'NumPy':>8}{'numexpr':>9}   ns a number and operation; here by NumPy, by numexpr")
    ratios = []
    for name, operations, count, head, body, tail, other, expression in KERNELS:
        here = body_time(words, head, body, tail)
        arrays = numpy and Arrays()
        numpys = arrays and least(lambda: timed(lambda: other(arrays)), 15)
        exprs = None
        if arrays and numexpr and expression:
            exprs = least(lambda: timed(lambda: numexpr.evaluate(expression, {"x": arrays.x, "y": arrays.y})), 15)
        unit = 1e9 / (count * operations)
        shown = [f"{seconds * unit:8.2f}" if seconds else "       -" for seconds in (here, numpys, exprs)]
        by = [f"{here / seconds:6.2f}" if seconds else "     -" for seconds in (numpys, exprs)]
        print(f"{name:18}{shown[0]}{shown[1]} {shown[2]}   {by[0]} {by[1]}", flush=True)
        if numpys:
            ratios.append(here / numpys)
    if ratios:
        mean = numpy.exp(numpy.log(ratios).mean())
        print(f"geometric mean by NumPy {mean:.2f}, greatest {max(ratios):.2f}")


def growth(words):
    def row(what, seconds, numbers):
        print(f"{what:34}{seconds * 1e9 / numbers:8.2f}", flush=True)

    print("\nhow it grows                          ns a number and operation")
    for count in (1000, 10_000, 100_000, MILLION):
        bodies = max(1, 100_000 // count)
        seconds = body_time(words, f"x = range({count})\ny = x + 1\n", ("y[:] = y + x + x + x\nflush\n" * bodies), "print y[7:8]\n") / bodies
        row(f"{count} numbers", seconds, 3 * count)
    for count in (1, 4, 16, 64):
        seconds = body_time(words, "x = range(100000)\ny = x + 1\n", "y[:] = y" + " + x" * count + "\n", "print y[7:8]\n")
        row(f"{count} operations in a block", seconds, count * 100_000)
    for length in (4, 10, 100, SIDE):
        rows = MILLION // length // 2
        seconds = body_time(words, f"x = reshape(range({2 * rows * length}), [{rows},{2 * length}])\ny = x[:,0:{length}] + 1\n", f"y[:,:] = y + x[:,0:{length}] + x[:,{length}:{2 * length}]\n", "print y[0:1,0:1]\n")
        row(f"rows of {length}, every second read", seconds, 2 * rows * length)
    for shape in ([MILLION], [SIDE, SIDE], [100, 100, 100], [32, 32, 32, 30]):
        lengths, count = ",".join(map(str, shape)), int(numpy.prod(shape)) if numpy else 0
        if not count:
            continue
        inner = ",".join(f"0:{length - 1}" for length in shape)
        sub = 1
        for length in shape:
            sub *= length - 1
        seconds = body_time(words, f"x = reshape(range({count}), [{lengths}])\ny = x[{inner}] + 1\n", f"y[{','.join(':' * len(shape))}] = y + x[{inner}] + x[{inner}]\n", "")
        row(f"rank {len(shape)}", seconds, 2 * sub)
    chain = [f"t = x + x\n"] + ["t = t + x\n"] * 9
    fused = body_time(words, f"x = range({MILLION})\n", "".join(chain), "print t[7:8]\n")
    apart = body_time(words, f"x = range({MILLION})\n", "flush\n".join(chain), "print t[7:8]\n")
    row("ten additions, one block", fused, 10 * MILLION)
    row("ten additions, a block each", apart, 10 * MILLION)


def main():
    program = sys.argv[1] if len(sys.argv) > 1 else os.path.join(TOP, "crates", "bohrium", "out", "bohrium")
    words = [program, "run", *(sys.argv[2:] or ["--fuse=greedy"])]
    kernels(words)
    growth(words)


if __name__ == "__main__":
    main()
