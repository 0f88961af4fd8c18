#!/usr/bin/env python3
"""Runs the built program on random and on damaged scripts and proofs, and compares it with tools/evaluate.py and tools/check_proof.py.

usage: fuzz.py [--seed=N] [--count=N] [--seconds=N] [--jobs=N] [--only=scripts|plans|proofs] [PROGRAM]

Each seed, from N on, is one script. It is run plainly and damaged; with `--plan` by each planner, where the arrays must be the same, and each
listed plan legal for the list rewritten, its costs right, and just what the planner gives (by greedy for short lists); and it is checked against
proofs by random derivations, whole and damaged. Where the program knows `--cert`, its certificates are checked too. `--only` leaves out the
other two of these three. A run is repeated by its seed and `--count=1`. A difference is shown with a script made shorter line by line. The last
lines count the seeds, the cases of each kind, and `N passed, N failed`.
"""
import argparse
import collections
import functools
import itertools
import multiprocessing
import os
import random
import re
import subprocess
import sys
import tempfile
import time

import evaluate
import random_proofs
import random_scripts
from check_proof import verdict
from lists import Problem, fusible, line_of, lists_of, rewritten
from reading import Refusal
from steps import steps_of

sys.setrecursionlimit(20_000)
TOP = os.path.dirname(os.path.dirname(os.path.abspath(__file__)))
BUDGET = 300
# `greedy` is computed anew for lists of up to so many operations.
MOST_GREEDY = 40


class Program:
    def __init__(self, path):
        self.path = path
        self.certifies = self.run(b"", ["run", "--cert"])[0] == 0

    def run(self, script, words, proof=None):
        """The status and the text; `FILE` among the words stands for a file of the proof."""
        if proof is None:
            return self.ended(script, words)
        with tempfile.NamedTemporaryFile() as file:
            file.write(proof)
            file.flush()
            return self.ended(script, [file.name if word == "FILE" else word for word in words])

    def ended(self, script, words):
        try:
            done = subprocess.run([self.path, *words], input=script, capture_output=True, timeout=120)
        except subprocess.TimeoutExpired:
            return "no end", ""
        return done.returncode, done.stdout.decode("latin-1")


def evaluated(script):
    """What plain evaluation gives: the status, the text and, unless it is refused, the steps."""
    try:
        steps = steps_of(script)
    except Refusal as refusal:
        return 1, f"{refusal}\n", None
    return 0, "".join(evaluate.run(steps)), steps


# ---- plans


def linear(ops):
    """The plan of the planner `linear`, as docs/PLANS.md defines it."""
    blocks = []
    for f, op in enumerate(ops, 1):
        if blocks and all(fusible(ops[g - 1], op) for g in blocks[-1]):
            blocks[-1].add(f)
        else:
            blocks.append({f})
    return blocks


def ordered(problem, blocks):
    """The order of a partition, or None where it has none."""
    order, left = [], sorted(blocks, key=min)
    while left:
        ready = [block for block in left if not any((f, g) in problem.before for other in left if other is not block for f in other for g in block)]
        if not ready:
            return None
        order.append(ready[0])
        left.remove(ready[0])
    return order


def greedy(problem):
    """The plan of the planner `greedy`, as docs/PLANS.md defines it."""
    cost = functools.lru_cache(maxsize=None)(problem.block_cost)
    saving = functools.lru_cache(maxsize=None)(lambda a, b: cost(a) + cost(b) - cost(a | b))
    blocks = [frozenset([f]) for f in problem.numbers]
    while True:
        pairs = [(a, b) for at, b in enumerate(blocks) for a in blocks[:at] if not any((min(f, g), max(f, g)) in problem.apart for f in a for g in b)]
        for a, b in sorted(pairs, key=lambda pair: (-saving(*pair), min(pair[0]), min(pair[1]))):
            merged = sorted([block for block in blocks if block not in (a, b)] + [a | b], key=min)
            if ordered(problem, merged):
                blocks = merged
                break
        else:
            return ordered(problem, blocks)


def listing_fault(lines, recorded, number, planner):
    """What is wrong with the plan lines of a list, or None. With certificate lines, these are left to the checker."""
    ops = rewritten(recorded)
    problem = Problem(ops)
    blocks = [{int(f) for f in line.split()[6:]} for line in lines if line.startswith("# block ")]
    costs = [problem.block_cost(block) for block in blocks]
    wanted = [f"# flush {number} recorded {len(recorded)} rewritten {len(ops)} blocks {len(blocks)} cost {sum(costs)}"]
    wanted += [f"# op {f} {line_of(op)}" for f, op in enumerate(ops, 1)]
    wanted += [f"# block {at} cost {cost} ops " + " ".join(map(str, sorted(block))) for at, (cost, block) in enumerate(zip(costs, blocks), 1)]
    fault = problem.plan_fault(blocks)
    wrong = (planner == "linear" and blocks != linear(ops) or planner == "greedy" and len(ops) <= MOST_GREEDY and blocks != greedy(problem)
             or planner != "linear" and sum(costs) > sum(problem.block_cost({f}) for f in problem.numbers))
    if fault or wrong:
        return fault or f"not what {planner} gives"
    bounds = [line for line in lines if line.startswith("# bound ")]
    if lines != wanted + bounds:
        return "lines are wanted:\n" + "\n".join(wanted)
    return bound_fault(bounds, sum(costs)) if planner == "best" else "a bound" if bounds else None


def bound_fault(bounds, cost):
    found = re.fullmatch(r"# bound (\d+) units (\d+) (optimal|budget)", bounds[0]) if len(bounds) == 1 else None
    if not found:
        return "no bound"
    bound, units = int(found[1]), int(found[2])
    right = bound == cost and units <= BUDGET if found[3] == "optimal" else bound < cost and units == BUDGET
    return None if right else "bound and units don't agree"


def plans_fault(text, arrays, lists, planner):
    """What is wrong with all that a run with plans writes, or None."""
    lines = text.split("\n")
    if "".join(line + "\n" for line in lines[:-1] if not line.startswith(("#", "!"))) != arrays:
        return "the arrays differ"
    listed = []
    for line in lines:
        if line.startswith("# flush "):
            listed.append([])
        if line.startswith("#"):
            listed[-1].append(line)
    if len(listed) != len(lists):
        return "not one plan for each list"
    faults = [listing_fault(part, ops, number, planner) for number, (part, ops) in enumerate(zip(listed, lists), 1)]
    return next((f"flush {number}: {fault}" for number, fault in enumerate(faults, 1) if fault), None)


# ---- judging: each judge gives nothing, or what is wrong


def run_fault(program, script):
    wanted = evaluated(script)[:2]
    found = program.run(script, ["run"])
    return None if found == wanted else f"wanted {wanted}\nfound {found}"


def plan_fault(program, script, words, planner):
    status, arrays, steps = evaluated(script)
    found = program.run(script, ["run", *words])
    if status == 1 or found[0] != 0:
        return None if found == (status, arrays) else f"wanted {(status, arrays)}\nfound {found}"
    fault = plans_fault(found[1], arrays, lists_of(steps), planner)
    if not fault and "--cert" in words:
        proof = "".join(line + "\n" for line in found[1].split("\n") if line.startswith("!")).encode()
        answer = verdict(steps, proof)
        heads = re.findall(r"^# flush \d+ .* cost (\d+)$", found[1], flags=re.M)
        bounds = re.findall(r"^# bound (\d+) units \d+ (\w+)$", found[1], flags=re.M)
        lines = [f"flush {number} cost {cost} bound {bound} {word}\n" for number, (cost, (bound, word)) in enumerate(zip(heads, bounds), 1)]
        wanted = "".join(lines) + f"accepted {len(heads)}\n", 0
        fault = None if answer == wanted else f"the certificates are answered {answer}, and the listing says {wanted}"
        fault = fault or check_fault(program, script, proof)
    return f"{fault}\nfound\n{found[1]}" if fault else None


def check_fault(program, script, proof):
    status, text, steps = evaluated(script)
    wanted = (status, text) if status == 1 else verdict(steps, proof)[::-1]
    found = program.run(script, ["check", "FILE"], proof)
    return None if found == wanted else f"wanted {wanted}\nfound {found}\nproof\n{proof.decode('latin-1')[:5000]}"


def shortened(script, differs):
    """The script without each line that the difference does without."""
    lines, at = script.split(b"\n"), 0
    while at < len(lines):
        fewer = lines[:at] + lines[at + 1:]
        if differs(b"\n".join(fewer)):
            lines = fewer
        else:
            at += 1
    return b"\n".join(lines)


def script_cases(script, chance):
    """The script, damaged, and misused."""
    damaged = [("damaged script", random_scripts.damaged(script.decode(), chance))]
    misused = [("misused script", random_scripts.misused(script.decode(), chance)) for _ in range(3)]
    return [(kind, case, run_fault) for kind, case in [("script", script), *damaged, *misused]]


def plan_cases(program, script):
    """The script with the plans of each planner."""
    planners = [(["--plan", "--fuse=linear"], "linear"), (["--plan", "--fuse=greedy"], "greedy")]
    planners += [(["--cert", "--fuse=best", f"--budget={BUDGET}"], "best")] * program.certifies
    return [(f"plans of {planner}", script, functools.partial(plan_fault, words=words, planner=planner)) for words, planner in planners]


def proof_cases(script, chance):
    """The script with a proof of it, and with four damaged ones."""
    steps = evaluated(script)[2]
    if not steps or len(script) >= 3000:
        return []
    proofs = [random_proofs.certificate(Problem(rewritten(ops)), number, chance) for number, ops in enumerate(lists_of(steps), 1)]
    lines = [line for proof in proofs for line in proof]
    texts = [("proof", "".join(line + "\n" for line in lines))] + [("damaged proof", random_proofs.damaged(lines, chance)) for _ in range(4)]
    return [(kind, script, functools.partial(check_fault, proof=text.encode("latin-1"))) for kind, text in texts]


def judge_seed(path, only, seed):
    """The kinds of the cases of this seed that pass, and the texts of those that fail."""
    program, chance = Program(path), random.Random(seed)
    script = random_scripts.Writer(seed).script(chance.choice((2, 4, 7, 12, 12, 20, 60) if seed % 50 else (150, 300))).encode()
    parts = {"scripts": lambda: script_cases(script, chance), "plans": lambda: plan_cases(program, script), "proofs": lambda: proof_cases(script, chance)}
    cases = [case for part, made in parts.items() if only in (None, part) for case in made()]
    passed, failures = [], []
    for kind, case, fault in cases:
        if not fault(program, case):
            passed.append(kind)
        else:
            short = shortened(case, lambda fewer: fault(program, fewer))
            failures.append(f"seed {seed}, {kind}: differs\n--- script\n{short.decode('latin-1')}\n--- {fault(program, short)}\n---")
    return passed, failures


def main():
    parser = argparse.ArgumentParser(description=__doc__.split("\n")[0])
    parser.add_argument("program", nargs="?", default=os.path.join(TOP, "crates", "bohrium", "out", "bohrium"))
    parser.add_argument("--seed", type=int, default=int(time.time()))
    parser.add_argument("--count", type=int, default=sys.maxsize)
    parser.add_argument("--seconds", type=int, default=60)
    parser.add_argument("--jobs", type=int, default=1)
    parser.add_argument("--only", choices=("scripts", "plans", "proofs"))
    words = parser.parse_args()
    end, passed, failed, done = time.time() + words.seconds, collections.Counter(), 0, 0
    print(f"seeds from {words.seed} on", flush=True)
    each = multiprocessing.Pool(words.jobs).starmap if words.jobs > 1 else itertools.starmap
    while done < words.count and time.time() < end:
        some = min(words.count - done, 4 * words.jobs if words.jobs > 1 else 1)
        seeds = range(words.seed + done, words.seed + done + some)
        for kinds, failures in each(judge_seed, [(words.program, words.only, seed) for seed in seeds]):
            passed.update(kinds)
            failed += len(failures)
            for failure in failures:
                print(failure, flush=True)
        done += some
    print(f"{done} seeds: " + ", ".join(f"{kind} {count}" for kind, count in passed.items()))
    print(f"{passed.total()} passed, {failed} failed")
    return 1 if failed or not passed else 0


if __name__ == "__main__":
    sys.exit(main())
