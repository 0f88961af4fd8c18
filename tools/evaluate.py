#!/usr/bin/env python3
"""Evaluates a script plainly and apart from the program: each operation runs as its statement is reached, and nothing is rewritten,
planned or freed.

usage: evaluate.py [SCRIPT]

Reads the script from the file, or from standard input, and writes what `bohrium run` writes: the arrays with status 0, or the line of
the refusal with status 1. It is written from docs/LANGUAGE.md alone, as are reading.py and steps.py beside it, and shares no code with
the program. It is slow: some steps of Python for each number.
"""
import sys

from reading import Refusal
from steps import BITS, View, count, elements, steps_of, wrap

sys.setrecursionlimit(20_000)


def quotient(x, y):
    size = abs(x) // abs(y) if y else 0
    return size if (x < 0) == (y < 0) else -size


# The whole number that is then wrapped, from the type of the inputs and the two of them; a unary code takes no notice of the second.
VALUES = {
    "ADD": lambda t, x, y: x + y, "SUBTRACT": lambda t, x, y: x - y, "MULTIPLY": lambda t, x, y: x * y,
    "DIVIDE": lambda t, x, y: quotient(x, y), "MOD": lambda t, x, y: x - y * quotient(x, y) if y else 0,
    "POWER": lambda t, x, y: pow(x, y, 1 << BITS[t]), "MAXIMUM": lambda t, x, y: max(x, y), "MINIMUM": lambda t, x, y: min(x, y),
    "BITWISE_AND": lambda t, x, y: x & y, "BITWISE_OR": lambda t, x, y: x | y, "BITWISE_XOR": lambda t, x, y: x ^ y,
    "LEFT_SHIFT": lambda t, x, y: x << y % BITS[t], "RIGHT_SHIFT": lambda t, x, y: x >> y % BITS[t],
    "EQUAL": lambda t, x, y: x == y, "NOT_EQUAL": lambda t, x, y: x != y, "LESS": lambda t, x, y: x < y,
    "LESS_EQUAL": lambda t, x, y: x <= y, "GREATER": lambda t, x, y: x > y, "GREATER_EQUAL": lambda t, x, y: x >= y,
    "ABSOLUTE": lambda t, x, y: abs(x), "INVERT": lambda t, x, y: ~x, "IDENTITY": lambda t, x, y: x,
}


def folded(op, numbers):
    """The fold along the axis: at each position up to it, and for a reduction the last alone."""
    shape, (short, kind) = op.operands[0].shape, op.code.split("_")
    length, inner = shape[op.axis], count(shape[op.axis + 1:])
    sums = list(numbers)
    for position in range(len(sums)):
        if position // inner % length:
            sums[position] = wrap(op.to, VALUES[short](op.to, sums[position - inner], sums[position]))
    return sums if kind == "ACCUMULATE" else [z for position, z in enumerate(sums) if position // inner % length == length - 1]


def computed(op, read):
    """What the operation writes, or prints, position after position."""
    size = count((op.out or op.operands[0]).shape)
    if op.code == "RANGE":
        return [wrap(op.to, position) for position in range(size)]
    inputs = [read(x) if isinstance(x, View) else [x] * size for x in op.operands]
    if op.axis is not None:
        return folded(op, inputs[0])
    if op.code == "SYNC":
        return inputs[0]
    return [wrap(op.to, VALUES[op.code](op.source, x, y)) for x, y in zip(inputs[0], inputs[-1])]


def array_text(elem, shape, numbers):
    rows = [numbers[start:start + shape[-1]] for start in range(0, len(numbers), shape[-1])]
    return "".join(" ".join(map(str, line)) + "\n" for line in [(elem, *shape), *rows])


def run(script):
    """The texts of the arrays that the script, a Steps, prints."""
    memory = [[0] * length for _, length in script.bases]

    def read(view):
        return [memory[view.base][place] for place in elements(view)]

    def write(view, numbers):
        for place, number in zip(elements(view), numbers):
            memory[view.base][place] = number

    for kind, *parts in script.steps:
        if kind == "op":
            op, numbers = parts[0], computed(parts[0], read)
            if op.code == "SYNC":
                yield array_text(op.to, op.operands[0].shape, numbers)
            else:
                write(op.out, numbers)
        elif kind == "gather":
            made, source, index = (part.view for part in parts)
            numbers = read(source)
            write(made, [numbers[z % len(numbers)] for z in read(index)])
        elif kind == "scatter":
            target, index, values = (part.view for part in parts)
            numbers = read(target)
            for position, number in zip(read(index), read(values)):
                numbers[position % len(numbers)] = number
            write(target, numbers)


def main(words):
    if len(words) > 1:
        sys.exit("usage: evaluate.py [SCRIPT]")
    with open(words[0], "rb") if words else sys.stdin.buffer as file:
        script = file.read()
    try:
        steps = steps_of(script)
    except Refusal as refusal:
        print(refusal)
        return 1
    for text in run(steps):
        sys.stdout.write(text)
    return 0


if __name__ == "__main__":
    sys.exit(main(sys.argv[1:]))
