"""Certificates by random derivations for tools/fuzz.py: lawful steps, branches and leaves taken at random. And damaged ones."""
from check_proof import Tree
from lists import inputs, views

NUMBERS = ("0", "1", "2", "3", "4", "5", "7", "9", "12", "016", "x", "", "-1", "2.0", "3.1", "1.0,2", "2.0,3", "4294967295", "4294967296",
           "18446744073709551615", "18446744073709551616", "99999999999999999999999", "1 2", "1\r", " 1")


def random_plan(problem, chance):
    """A legal plan: blocks of neighbours, merged where it may be."""
    blocks = [{f} for f in problem.numbers]
    for _ in range(chance.choice((0, 1, 3, 3)) * len(blocks)):
        at = chance.randrange(max(len(blocks) - 1, 1))
        merged = set().union(*blocks[at:at + 2])
        if not any((min(f, g), max(f, g)) in problem.apart for f in merged for g in merged if f != g):
            blocks[at:at + 2] = [merged]
    return blocks


def tried_step(tree, chance):
    """The line of a lawful step from a fact at random, or None."""
    if len(tree.problem.ops) < 3:
        return None
    kind, f, g = chance.choice(tree.trail)
    if kind != "Before" and chance.random() < 0.5:
        f, g = g, f
    h = chance.choice(tree.problem.numbers)
    step = chance.choice({"Same": [(3, f, g), (3, g, f), (6, f, g, h), (6, g, f, h)], "Apart": [(6, h, f, g), (7, f, g, h), (8, h, f, g), (8, h, g, f)],
                          "Before": [(4, f, g, h), (4, h, f, g), (5, f, g), (7, f, g, h), (8, f, g, h), (8, h, f, g), (9, f, g)]}[kind])
    return "!step " + " ".join(map(str, step)) if tree.step(*step) else None


def leaf(tree, chance):
    """A lawful leaf: its line, and its worth."""
    problem, groups, worth = tree.problem, [], 0
    for view in sorted({v for op in problem.ops for v in views(op)}):
        paying = []
        for f in problem.numbers:
            if tree.pays(f, view) and all(("Apart", f, g) in tree.known for g in paying) and chance.random() < 0.95:
                paying.append(f)
        if paying:
            op = problem.op(paying[0])
            operand = 0 if op.out == view and (chance.random() < 0.5 or view not in inputs(op)) else 1 + op.operands.index(view)
            groups.append(f" {paying[0]}.{operand}" + "".join(f",{f}" for f in paying[1:]))
            worth += problem.weight(view) * len(paying)
    chance.shuffle(groups)
    return "!worth" + "".join(groups), worth


def random_tree(tree, chance, depth):
    """The lines of a subtree, and the worths of its leaves by worth."""
    mark, lines = len(tree.trail), []
    for _ in range(chance.choice((0, 5, 40, 200)) if tree.trail else 0):
        line = tried_step(tree, chance)
        lines += [line] if line else []
    both = [(f, g) for kind, f, g in tree.known if kind == "Same" and f < g and ("Apart", f, g) in tree.known]
    pairs = [(f, g) for f in tree.problem.numbers for g in range(f + 1, len(tree.problem.ops) + 1) if tree.is_open(f, g)]
    worths = []
    if both and chance.random() < 0.8:
        lines.append("!dead {} {}".format(*chance.choice(sorted(both))))
    elif depth and pairs and chance.random() < 0.7:
        pair = chance.choice(pairs)
        lines.append("!branch {} {}".format(*pair))
        for kind in ("Same", "Apart"):
            before = len(tree.trail)
            tree.add(kind, *pair)
            more, worthy = random_tree(tree, chance, depth - 1)
            tree.undo_to(before)
            lines, worths = lines + more, worths + worthy
    else:
        line, worth = leaf(tree, chance)
        lines.append(line)
        worths.append(worth)
    tree.undo_to(mark)
    return lines, worths


def certificate(problem, number, chance):
    """The lines of a certificate of the list of this number; it is right but where the bound is set too high."""
    version, blocks = chance.choice((1, 2)), random_plan(problem, chance)
    place = {f: at for at, block in enumerate(blocks, 1) for f in block}
    cost = sum(map(problem.block_cost, blocks))
    lines, worths = random_tree(Tree(problem, version), chance, chance.randrange(4))
    bound = min([cost, *worths])
    bound = chance.choice((bound, bound, bound, chance.randint(0, bound), bound + 1, cost))
    head = [f"!flush {number} {len(problem.ops)}" + (" 2" if version == 2 else ""), " ".join(["!plan", *(str(place[f]) for f in problem.numbers)])]
    return head + [f"!cost {cost}", f"!bound {bound}", *lines, "!end"]


def damaged(lines, chance):
    """The text of a proof with a few of its lines changed."""
    lines = list(lines) or [""]
    for _ in range(chance.choice((1, 1, 2))):
        at, other = chance.randrange(len(lines)), chance.randrange(len(lines))
        words = lines[at].split(" ")
        words[chance.randrange(len(words))] = chance.choice(NUMBERS)
        changes = [(4, lines[:at] + lines[at + 1:]), (4, lines[:at] + lines[at:at + 1] + lines[at:]), (2, lines[:at] or [""]),
                   (2, lines[:at] + [lines[other]] + lines[at + 1:]), (8, lines[:at] + [" ".join(words)] + lines[at + 1:]),
                   (1, lines[:at] + [lines[at] + "\r"] + lines[at + 1:]), (1, lines[:at] + ["", "# " + lines[at]] + lines[at:]),
                   (0.2, lines[:at] + ["!" + "x" * chance.choice((65_534, 65_535, 65_536, 70_000))] + lines[at:]),
                   (0.2, lines[:at] + [" " * chance.choice((65_536, 200_000))] + lines[at:]),
                   (0.2, lines[:at] + ["!worth" + " 1.0" * chance.choice((16_381, 16_382, 16_383))] + lines[at + 1:])]
        lines = chance.choices([change for _, change in changes], [weight for weight, _ in changes])[0]
    return "\n".join(lines) + chance.choice(("\n", "\n", ""))
