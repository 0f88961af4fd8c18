#!/usr/bin/env python3
"""Compares what `demo N` prints with what is found apart from the program.

usage: demo.py [COUNT]

For each number below COUNT (20 where none is given) and for the greatest, the script is made by drawing the words of docs/DEMO.md anew. Its size is
counted, its arrays are summed as tools/evaluate.py finds them, and what stands in the line of each flush but the counters is read from what
`run --plan --budget=2000` writes for the script; of the counters it is asked that no more is loaded or stored than the plan costs. The last line is
`N passed, M failed`.
"""
import itertools
import os
import re
import subprocess
import sys

import evaluate
from steps import steps_of

TOP = os.path.dirname(os.path.dirname(os.path.abspath(__file__)))
PROGRAM = os.path.join(TOP, "crates", "bohrium", "out", "bohrium")
WORD, LONG = 2**32, 2**64
STEP = 6364136223846793005


def output(state):
    """The 32-bit word that a state of PCG gives."""
    turn, word = state >> 59, ((state >> 18 ^ state) >> 27) % WORD
    return (word >> turn | word << (-turn % 32)) % WORD


def drawn(number):
    """The words of PCG's 32-bit generator, seeded with a number as rand_core does."""
    seed = 0
    for place in range(4):
        number = (number * STEP + 11634580027462260723) % LONG
        seed |= output(number) << 32 * place
    state, odd = seed % LONG, seed >> 64 | 1
    state = ((state + odd) * STEP + odd) % LONG
    while True:
        yield output(state)
        state = (state * STEP + odd) % LONG


def turn(rows, columns, word):
    kind, added = word % 4, word // 65536 % 100
    if kind == 0:
        here, above, below, left, right = (f"g[{top}:{bottom}, {first}:{last}]" for top, bottom, first, last in (
            (1, rows - 1, 1, columns - 1), (0, rows - 2, 1, columns - 1), (2, rows, 1, columns - 1), (1, rows - 1, 0, columns - 2), (1, rows - 1, 2, columns)))
        return [f"c = {here} + {above} + {below} + {left} + {right}", f"{here} = c / 5"]
    if kind == 1:
        return [f"g[:, 1:{columns}] = g[:, 0:{columns - 1}] + {added}"]
    return ["s = sum(g, 0)", "g[:] = g - s % 7"] if kind == 2 else ["g[:] = cumsum(g, 1) & 65535"]


def script(number):
    words = drawn(number)
    rows, columns, turns = 8 + next(words) % 57, 8 + next(words) % 57, 4 + next(words) % 13
    lines = [f"g = reshape(range({rows * columns}), [{rows}, {columns}]) % 97"]
    for word in itertools.islice(words, turns):
        lines += turn(rows, columns, word)
    return "".join(line + "\n" for line in [*lines, "print g", "print sum(sum(g, 0), 0)"])


def written(words, text=""):
    return subprocess.run([PROGRAM, *words], input=text, capture_output=True, text=True, timeout=600).stdout


def totals(text):
    """The lines of the arrays that a script prints."""
    lines = []
    for index, array in enumerate(evaluate.run(steps_of(text.encode())), 1):
        head, *rows = array.splitlines()
        lines += [f"array {index} {head}", f"sum {sum(int(number) for row in rows for number in row.split())}"]
    return lines


def summaries(text):
    """The lines of the flushes up to their counters."""
    listed = written(["run", "--plan", "--budget=2000"], text)
    heads = re.findall(r"^# (flush \d+ recorded \d+ rewritten \d+ blocks \d+ cost \d+)$", listed, re.MULTILINE)
    bounds = re.findall(r"^# (bound \d+ units \d+ \w+)$", listed, re.MULTILINE)
    return [f"{head} {bound}" for head, bound in zip(heads, bounds, strict=True)]


def holds(number):
    text = script(number)
    first, *rest = written(["demo", str(number)]).splitlines()
    wanted = summaries(text)
    flushes = [re.fullmatch(r"(.* cost (\d+) .*) loads (\d+) stores (\d+) made \d+", line) for line in rest[:len(wanted)]]
    return (first == f"script bytes {len(text)} lines {text.count(chr(10))}" and all(flushes) and [flush[1] for flush in flushes] == wanted
            and all(max(int(flush[3]), int(flush[4])) <= int(flush[2]) for flush in flushes) and rest[len(wanted):] == totals(text))


def main(words):
    numbers = [*range(int(words[0]) if words else 20), LONG - 1]
    wrong = [number for number in numbers if not holds(number)]
    for number in wrong:
        print(f"demo {number}: differs")
    print(f"{len(numbers) - len(wrong)} passed, {len(wrong)} failed")
    return 1 if wrong else 0


if __name__ == "__main__":
    sys.exit(main(sys.argv[1:]))
