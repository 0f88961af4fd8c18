"""Lists of operations as docs/PLANS.md has them, apart from the program: recording, rewriting, dependence, fusibility and cost.
For tools/check_proof.py and tools/fuzz.py. By itself, `lists.py SCRIPT` prints the lists of a script as they are recorded."""
import functools
import sys

from evaluate import VALUES
from steps import BITS, Op, View, count, elements, greatest, least, steps_of, wrap

MOST_OPS = 256

# ---- recording


def lists_of(script):
    """The lists that a script, a Steps, flushes, in order; gathers and scatters stand between them."""
    lists, waiting, live, standing = [], [], {}, {}

    def cut():
        lists.extend([waiting[:]] if waiting else [])
        waiting.clear()

    def append(op):
        waiting.append(op)
        if len(waiting) == MOST_OPS:
            cut()

    def free_unnamed():
        for base in sorted(live.keys() - set(standing.values())):
            elem = live.pop(base)
            append(Op("FREE", elem, elem, None, (), None, None, base, False))

    for kind, *parts in script.steps:
        if kind == "op":
            op = parts[0]
            if op.makes:
                live[op.out.base] = op.to
            slot = 1 + sum(other.code == "SYNC" for other in waiting)
            append(op._replace(slot=slot) if op.code == "SYNC" else op)
        elif kind == "name":
            standing[parts[0]] = parts[1]
        elif kind == "forget":
            del standing[parts[0]]
        elif kind == "done":
            free_unnamed()
        else:
            cut()
            if kind == "gather":
                live[parts[0].view.base] = parts[0].elem
    standing.clear()
    free_unnamed()
    cut()
    return lists


# ---- views of operations


def inputs(op):
    return [x for x in op.operands if isinstance(x, View)]


def views(op):
    return ([op.out] if op.out else []) + inputs(op)


@functools.lru_cache(maxsize=512)
def marks(view):
    """A number with a byte for each element of the base, 1 where the view has it."""
    places = elements(view)
    row = bytearray(max(places) + 1)
    for place in places:
        row[place] = 1
    return int.from_bytes(row, "little")


@functools.lru_cache(maxsize=65_536)
def overlap(v, w):
    return v.base == w.base and marks(v) & marks(w) != 0


# ---- rewriting

BOTH, RIGHT = (0, 1), (1,)
# The constants that change nothing beside x, by opcode and type, and the places at which they may stand.
NEUTRAL = {"ADD": (lambda t, c: c == 0, BOTH), "SUBTRACT": (lambda t, c: c == 0, RIGHT), "MULTIPLY": (lambda t, c: c == 1, BOTH),
           "DIVIDE": (lambda t, c: c == 1, RIGHT), "BITWISE_OR": (lambda t, c: c == 0, BOTH), "BITWISE_XOR": (lambda t, c: c == 0, BOTH),
           "BITWISE_AND": (lambda t, c: c == wrap(t, -1), BOTH), "LEFT_SHIFT": (lambda t, c: c % BITS[t] == 0, RIGHT),
           "RIGHT_SHIFT": (lambda t, c: c % BITS[t] == 0, RIGHT), "MAXIMUM": (lambda t, c: c == least(t), BOTH),
           "MINIMUM": (lambda t, c: c == greatest(t), BOTH)}
# Whether the constant, at its place, alone decides, so that the value is 0 or, for the last three, the constant.
DECIDING = {"MULTIPLY": lambda t, c, at: c == 0, "BITWISE_AND": lambda t, c, at: c == 0, "DIVIDE": lambda t, c, at: c == 0,
            "MOD": lambda t, c, at: c == 0 or at == 1 and c in (1, -1), "LEFT_SHIFT": lambda t, c, at: at == 0 and c == 0,
            "RIGHT_SHIFT": lambda t, c, at: at == 0 and c == 0, "BITWISE_OR": lambda t, c, at: c == wrap(t, -1),
            "MAXIMUM": lambda t, c, at: c == greatest(t), "MINIMUM": lambda t, c, at: c == least(t)}
JOINED = ("ADD", "MULTIPLY", "BITWISE_AND", "BITWISE_OR", "BITWISE_XOR")


def constant(op, number):
    return op._replace(code="IDENTITY", source=op.to, operands=(number,))


def beside(op):
    """The view, the constant and its place, of an operation of one view and one constant; else Nones."""
    if len(op.operands) == 2:
        for at in BOTH:
            if isinstance(op.operands[1 - at], View) and not isinstance(op.operands[at], View):
                return op.operands[1 - at], op.operands[at], at
    return None, None, None


def by_itself(op):
    """What an operation becomes by the first four rules, or None."""
    if op.code in VALUES and op.code != "IDENTITY" and not inputs(op):
        return constant(op, wrap(op.to, VALUES[op.code](op.source, op.operands[0], op.operands[-1])))
    x, c, at = beside(op)
    if x is None:
        return None
    test, places = NEUTRAL.get(op.code, (None, ()))
    if at in places and test(op.to, c):
        return op._replace(code="IDENTITY", operands=(x,))
    if op.code in DECIDING and DECIDING[op.code](op.to, c, at):
        return constant(op, c if op.code in ("BITWISE_OR", "MAXIMUM", "MINIMUM") else 0)
    if op.code == "POWER" and c <= 2:
        return constant(op, 1) if c == 0 else op._replace(code="IDENTITY", operands=(x,)) if c == 1 else op._replace(code="MULTIPLY", operands=(x, x))
    return None


def only_writers(ops):
    """For each base with an only writer, its place in the list."""
    written = [op.out.base for op in ops if op.out]
    return {op.out.base: place for place, op in enumerate(ops) if op.makes and written.count(op.out.base) == 1}


def unwritten(ops, view, before, behind):
    return not any(op.frees == view.base or op.out and overlap(op.out, view) for op in ops[before + 1:behind])


def by_writer(ops, place, writers):
    """What an operation becomes by the three rules that look at an only writer before it, or None."""
    op = ops[place]
    before = [(at, x, writers.get(x.base, place)) for at, x in enumerate(op.operands) if isinstance(x, View)]
    before = [(at, x, writer) for at, x, writer in before if writer < place]
    for at, x, writer in before:
        if op.code in VALUES and ops[writer].code == "IDENTITY" and not inputs(ops[writer]):
            c = ops[writer].operands[0]
            return constant(op, wrap(op.to, c)) if op.code == "IDENTITY" else op._replace(operands=op.operands[:at] + (c,) + op.operands[at + 1:])
    before = [(at, x, writer) for at, x, writer in before if x == ops[writer].out]
    for at, x, writer in before:
        if ops[writer].code == "IDENTITY" and ops[writer].to == ops[writer].source:
            for w in inputs(ops[writer]):
                if unwritten(ops, w, writer, place):
                    return op._replace(operands=op.operands[:at] + (w,) + op.operands[at + 1:])
    x, c, _ = beside(op)
    for _, _, writer in before if x and op.code in JOINED else []:
        w, d, _ = beside(ops[writer])
        if w and ops[writer].code == op.code and unwritten(ops, w, writer, place):
            return op._replace(operands=(w, wrap(op.to, VALUES[op.code](op.to, d, c))))
    return None


def gone(ops, place):
    """The places that go by the last two rules: of a copy of a view into itself, or of a creator and the FREE of an unused base."""
    op = ops[place]
    if op.code == "IDENTITY" and op.operands[0] == op.out:
        return [place]
    if op.makes:
        naming = [other for other, by in enumerate(ops) if by.frees == op.out.base or any(v.base == op.out.base for v in views(by))]
        if len(naming) == 2 and ops[naming[1]].frees is not None:
            return naming
    return []


def rewritten_once(ops):
    """The list after the first rule that applies at the first operation where one does, or None."""
    writers = only_writers(ops)
    for place, op in enumerate(ops):
        new = by_itself(op) or by_writer(ops, place, writers)
        if not new and op.code == "SUBTRACT" and beside(op)[2] == 1:
            new = op._replace(code="ADD", operands=(op.operands[0], wrap(op.to, -op.operands[1])))
        if new:
            return ops[:place] + [new] + ops[place + 1:]
        going = gone(ops, place)
        if going:
            return [other for at, other in enumerate(ops) if at not in going]
    return None


def rewritten(ops):
    while True:
        after = rewritten_once(ops)
        if after is None:
            return ops
        ops = after


# ---- the listing


def view_text(view, elem):
    return f"b{view.base}:{elem}@{view.start}[" + ",".join(f"{n}:{s}" for n, s in zip(view.shape, view.strides)) + "]"


def line_of(op):
    """The operation as the lines of a plan have it, behind its number."""
    parts = [op.code] + ([("+" if op.makes else "") + view_text(op.out, op.to)] if op.out else [])
    parts += [view_text(x, op.source) if isinstance(x, View) else str(x) for x in op.operands]
    parts += [f"{word}{number}" for word, number in [("axis=", op.axis), ("slot=", op.slot), ("b", op.frees)] if number is not None]
    return " ".join(parts)


# ---- dependence, blocks and cost


def is_reduction(op):
    return op.code.endswith("_REDUCE")


def serial(op):
    return op.out is not None and any(overlap(op.out, v) and (v != op.out or is_reduction(op)) for v in inputs(op))


def walked(op):
    return inputs(op)[0].shape if is_reduction(op) or op.code == "SYNC" else op.out.shape


def parted(op, other):
    """The output of the first is apart from every view of the other or that very view, and apart where it is the result of a reduction."""
    return op.out is None or not any(overlap(op.out, v) and (v != op.out or is_reduction(op)) for v in views(other))


def fusible(f, g):
    if f.code == "FREE" or g.code == "FREE":
        return True
    return not serial(f) and not serial(g) and walked(f) == walked(g) and parted(f, g) and parted(g, f)


def depends(f, g):
    """Of an earlier and a later operation."""
    shared = any(op.out and any(overlap(op.out, v) for v in views(other)) for op, other in ((f, g), (g, f)))
    return shared or any(op.frees is not None and op.frees in {v.base for v in views(other)} for op, other in ((f, g), (g, f)))


class Problem:
    """What a planner wants to know of a list. Operations are numbered from 1."""

    def __init__(self, ops):
        self.ops, self.numbers = ops, range(1, len(ops) + 1)
        pairs = [(f, g) for f in self.numbers for g in range(f + 1, len(ops) + 1)]
        self.apart = {(f, g) for f, g in pairs if not fusible(self.op(f), self.op(g))}
        self.before = {(f, g) for f, g in pairs if depends(self.op(f), self.op(g))}
        self.elems = {v.base: elem for op in ops for vs, elem in ((inputs(op), op.source), ([op.out] if op.out else [], op.to)) for v in vs}
        self.creator = {op.out.base: f for f, op in enumerate(ops, 1) if op.makes}
        self.freer = {op.frees: f for f, op in enumerate(ops, 1) if op.frees is not None}

    def op(self, f):
        return self.ops[f - 1]

    def weight(self, view):
        return count(view.shape) * BITS[self.elems[view.base]] // 8

    def block_cost(self, block):
        """The weight of the views that a block, a set of numbers, reads or writes outside itself."""
        read = {v for f in block for v in inputs(self.op(f)) if self.creator.get(v.base) not in block}
        written = {self.op(f).out for f in block if self.op(f).out and self.freer.get(self.op(f).out.base) not in block}
        return sum(map(self.weight, read | written))

    def plan_fault(self, blocks):
        """What is wrong with a plan, a list of sets of numbers, or None."""
        place = {f: at for at, block in enumerate(blocks) for f in block}
        if not all(blocks) or sorted(f for block in blocks for f in block) != list(self.numbers):
            return "BadPlan"
        if any(place[f] == place[g] for f, g in self.apart):
            return "NotFusible"
        return "Backward" if any(place[f] > place[g] for f, g in self.before) else None


def main(words):
    if len(words) != 1:
        sys.exit("usage: lists.py SCRIPT")
    with open(words[0], "rb") as file:
        lists = lists_of(steps_of(file.read()))
    for ops in lists:
        print("".join(f"{f} {line_of(op)}\n" for f, op in enumerate(ops, 1)), end="")


if __name__ == "__main__":
    main(sys.argv[1:])
