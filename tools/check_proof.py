#!/usr/bin/env python3
"""Checks the certificates of a script plainly and apart from the program.

usage: check_proof.py SCRIPT PROOF

Writes what `bohrium check PROOF < SCRIPT` writes, with its status: 0 where each certificate is accepted, 1 where the script is refused,
6 where the proof is rejected. It is written from docs/CERTIFICATES.md, and the modules beside it from docs/LANGUAGE.md and docs/PLANS.md;
none shares code with the program.
"""
import re
import sys

from lists import Problem, lists_of, rewritten, views
from reading import Refusal
from steps import View, steps_of

sys.setrecursionlimit(20_000)
MOST_BYTES, MOST_OF_LINE = 67_108_864, 65_536
NARROW, WIDE = 1 << 32, 1 << 64

N = "(?:0|[1-9][0-9]*)"
# How each record is written behind its word.
SPELLED = {"!flush": f" {N} {N}(?: 2)?", "!plan": f"(?: {N})*", "!cost": f" {N}", "!bound": f" {N}", "!branch": f" {N} {N}", "!dead": f" {N} {N}",
           "!step": f" (?:[359] {N} {N}|[4678] {N} {N} {N})", "!worth": f"(?: {N}\\.[012](?:,{N})*)*", "!end": ""}
TREE = ("!step", "!branch", "!dead", "!worth")
# The premises of the rules and what they give, by the places of the operations in the step.
RULES = {3: ([("Same", 0, 1)], ("Before", 0, 1)), 4: ([("Before", 0, 1), ("Before", 1, 2)], ("Before", 0, 2)),
         5: ([("Before", 0, 1), ("Before", 1, 0)], ("Same", 0, 1)), 6: ([("Same", 0, 1), ("Apart", 1, 2)], ("Apart", 0, 2)),
         7: ([("Before", 0, 1), ("Before", 1, 2), ("Apart", 0, 1)], ("Apart", 0, 2)),
         8: ([("Before", 0, 1), ("Before", 1, 2), ("Apart", 1, 2)], ("Apart", 0, 2))}


class Rejection(Exception):
    def __init__(self, line, kind):
        super().__init__(line, kind)
        self.line, self.kind = line, kind


def record_of(line):
    """The word of a record and what stands behind it, or None where the line spells none."""
    word, blank, rest = line.partition(" ")
    if len(line) > MOST_OF_LINE or word not in SPELLED or not re.fullmatch(SPELLED[word], blank + rest):
        return None
    most = WIDE if word in ("!cost", "!bound") else NARROW
    if any(len(digits) > 20 or int(digits) >= most for digits in re.findall("[0-9]+", rest)):
        return None
    return word, rest


def records_of(proof):
    """The records of a proof with the numbers of their lines; where it ends or can't be read, a line and the kind of that."""
    lines = proof.split(b"\n")
    last = len(lines) - (lines[-1] == b"")
    stop = 1 + proof.count(b"\n", 0, MOST_BYTES) if len(proof) > MOST_BYTES else 0
    for number, line in enumerate(lines[:last], 1):
        if number == stop:
            yield number, "TooLong", None
        if line.startswith(b"!"):
            yield number, *(record_of(line.decode("latin-1")) or ("Malformed", None))
    yield last + 1, "Unfinished", None


class Tree:
    """What is known where the walk through a tree stands, in the order in which it came."""

    def __init__(self, problem, version):
        self.problem, self.version, self.known, self.trail = problem, version, set(), []
        for f, g in sorted(problem.apart):
            self.add("Apart", f, g)
        for f, g in sorted(problem.before):
            self.add("Before", f, g)

    def facts(self, kind, f, g):
        return [(kind, f, g)] if kind == "Before" else [(kind, f, g), (kind, g, f)]

    def add(self, *fact):
        self.trail.append(fact)
        self.known.update(self.facts(*fact))

    def undo_to(self, mark):
        for fact in self.trail[mark:]:
            self.known.difference_update(self.facts(*fact))
        del self.trail[mark:]

    def has_view(self, f, base):
        return any(v.base == base for v in views(self.problem.op(f)))

    def last_user(self, f, g):
        """Whether rule 9 gives that f and g, a FREE, stand in one block."""
        base = self.problem.op(g).frees
        users = [u for u in self.problem.numbers if base is not None and self.has_view(u, base)]
        return self.version == 2 and f in users and all(("Before", u, f) in self.known for u in users if u != f)

    def step(self, rule, *ops):
        """Adds the fact of a lawful step, or answers False."""
        if len(set(ops)) < len(ops) or not all(f in self.problem.numbers for f in ops):
            return False
        premises, (kind, f, g) = RULES.get(rule, ([], ("Same", 0, 1)))
        holds = self.last_user(*ops) if rule == 9 else all((kind, ops[f], ops[g]) in self.known for kind, f, g in premises)
        if not holds or (kind, ops[f], ops[g]) in self.known:
            return False
        self.add(kind, ops[f], ops[g])
        return True

    def is_open(self, f, g):
        return f < g and f in self.problem.numbers and g in self.problem.numbers and not {("Same", f, g), ("Apart", f, g)} & self.known

    def pays(self, f, view):
        """Whether the block of f surely pays for the view."""
        op = self.problem.op(f)
        creator, freer = self.problem.creator.get(view.base), self.problem.freer.get(view.base)
        reads = view in op.operands and (creator is None or ("Apart", f, creator) in self.known)
        return reads or view == op.out and (freer is None or ("Apart", f, freer) in self.known)

    def worth(self, groups):
        """What a leaf is worth, or None where it breaks its rule."""
        worth, paid = 0, set()
        for group in groups:
            first, *ops = group.split(",")
            ops = [int(first[:-2]), *map(int, ops)]
            named = self.view(ops[0], int(first[-1]))
            rising = all(f < g and ("Apart", f, g) in self.known for at, g in enumerate(ops) for f in ops[:at])
            if named is None or named in paid or not rising or not all(f in self.problem.numbers and self.pays(f, named) for f in ops):
                return None
            paid.add(named)
            worth += self.problem.weight(named) * len(ops)
        return worth

    def view(self, f, operand):
        if f not in self.problem.numbers:
            return None
        parts = (self.problem.op(f).out, *self.problem.op(f).operands, None, None)
        return parts[operand] if isinstance(parts[operand], View) else None


def walk(tree, bound, records):
    """Reads the records of a whole tree."""
    pending = []
    while True:
        line, word, rest = next(records)
        numbers = [int(digits) for digits in rest.split()] if rest and word != "!worth" else []
        if word == "!step":
            if not tree.step(*numbers):
                raise Rejection(line, "BadStep")
        elif word == "!branch":
            if not tree.is_open(*numbers):
                raise Rejection(line, "BadBranch")
            pending.append((len(tree.trail), numbers))
            tree.add("Same", *numbers)
        elif word in ("!dead", "!worth"):
            if word == "!dead":
                f, g = numbers
                worth = bound if f < g and {("Same", f, g), ("Apart", f, g)} <= tree.known else None
            else:
                worth = tree.worth(rest.split())
            if worth is None or worth < bound:
                raise Rejection(line, "BadLeaf" if worth is None else "WeakLeaf")
            if not pending:
                return
            mark, numbers = pending.pop()
            tree.undo_to(mark)
            tree.add("Apart", *numbers)
        else:
            raise Rejection(line, word if not word.startswith("!") else "Unfinished" if word == "!end" else "Misplaced")


def judged(ops, number, records):
    """The cost and the bound of the certificate of a list, once it is accepted."""
    problem = Problem(ops)

    def take(wanted, otherwise=lambda word: "Misplaced"):
        line, word, rest = next(records)
        if word != wanted:
            raise Rejection(line, otherwise(word) if word.startswith("!") else word)
        return line, [int(digits) for digits in rest.split()]

    def refuse_if(fault, line, kind):
        if fault:
            raise Rejection(line, kind)

    line, head = take("!flush")
    refuse_if(head[:2] != [number, len(ops)], line, "BadHead")
    line, places = take("!plan")
    refuse_if(len(places) != len(ops) or max(places, default=0) > len(ops), line, "BadPlan")
    blocks = [{f for f, at in enumerate(places, 1) if at == place} for place in range(1, max(places, default=0) + 1)]
    fault = problem.plan_fault(blocks)
    refuse_if(fault, line, fault)
    line, (cost,) = take("!cost")
    refuse_if(cost != sum(map(problem.block_cost, blocks)), line, "WrongCost")
    _, (bound,) = take("!bound")
    walk(Tree(problem, len(head) - 1), bound, records)
    take("!end", lambda word: "Trailing" if word in TREE else "Misplaced")
    return cost, bound


def verdict(script, proof):
    """The lines of the verdict on the proof of a script, a Steps, and the status."""
    records, number, lines = records_of(proof), 0, []
    try:
        for number, ops in enumerate(lists_of(script), 1):
            cost, bound = judged(rewritten(ops), number, records)
            lines.append(f"flush {number} cost {cost} bound {bound} {'optimal' if cost == bound else 'budget'}\n")
        line, word, _ = next(records)
        if word != "Unfinished":
            number += 1
            raise Rejection(line, "Trailing" if word.startswith("!") else word)
    except Rejection as rejection:
        return "".join(lines) + f"rejected flush {number} line {rejection.line} {rejection.kind}\n", 6
    return "".join(lines) + f"accepted {number}\n", 0


def main(words):
    if len(words) != 2:
        sys.exit("usage: check_proof.py SCRIPT PROOF")
    with open(words[0], "rb") as file:
        script = file.read()
    try:
        steps = steps_of(script)
    except Refusal as refusal:
        print(refusal)
        return 1
    with open(words[1], "rb") as file:
        text, status = verdict(steps, file.read())
    sys.stdout.write(text)
    return status


if __name__ == "__main__":
    sys.exit(main(sys.argv[1:]))
