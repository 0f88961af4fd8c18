#!/usr/bin/env python3
"""Makes a page of what a run lists: how the operations of each flush stand in blocks, what is moved, the arrays, and the certificates.

usage: report.py [--svg=N] [LISTING]

LISTING, or standard input, is what `bohrium run --plan` or `--cert` writes. Written out is one page of HTML that needs no other file; with
--svg=N only the picture of flush N. In a picture a box is a block, in order from left to right and row by row, and a line in it an
operation; a block of many has several columns. Arrows go from an operation to those that depend on it: the others follow from these.
Between blocks that are not side by side they run in the gaps. A base in colour with a small circle is contracted: no buffer is made for it.
"""
import html
import re
import sys

from lists import Problem, inputs, serial
from steps import Op, View, in_order

LINE, GLYPH, GAP, HEAD, PAD, LEFT = 17, 6.7, 46, 62, 8, 40
NARROWEST, WIDEST, WIDEST_ROW, FEW_LINES, MOST_COLUMNS = 150, 400, 1260, 40, 3
MOST_LEAVES, MOST_HEAD = 12, 100

STYLE = """
text { font: 11px ui-monospace, 'DejaVu Sans Mono', Menlo, Consolas, monospace; fill: #1b2733; white-space: pre; }
.box { fill: #ffffff; stroke: #9fb0c0; } .head { fill: #e9eff5; stroke: #9fb0c0; } .name { font-weight: bold; } .note { fill: #51606e; }
.reads { fill: #3b7dd8; } .writes { fill: #d9822b; } .free { fill: #8a97a3; } .number { fill: #8a97a3; } .made { fill: #0b7a6b; font-weight: bold; }
.serial { fill: #b3261e; } .sync { fill: #6a3fb5; } .arrow { fill: none; stroke: #5b7fa6; stroke-width: 1.1; opacity: .8; }
.far { opacity: .55; stroke-linejoin: round; } .arrow:hover { stroke-width: 3; opacity: 1; }
.inner { fill: none; stroke: #b9c6d2; stroke-width: 1; }
"""
PAGE = """<!DOCTYPE html>
<html lang="en"><head><meta charset="utf-8"><title>Plans of a run</title><style>
body { font: 15px/1.5 system-ui, sans-serif; color: #1b2733; margin: 2em auto; max-width: 1280px; padding: 0 1em; }
table { border-collapse: collapse; } td, th { border: 1px solid #cfd8e0; padding: .2em .7em; text-align: right; }
.picture { overflow: auto; border: 1px solid #cfd8e0; margin: .6em 0; }
pre { background: #f4f7fa; padding: .6em; overflow: auto; } .good { color: #0b7a6b; } .open { color: #b3261e; }
</style></head><body>
<h1>Plans of a run</h1>
"""


class Flush:
    """What is listed of one flush: its lines by kind, and its operations and blocks."""

    def __init__(self, head):
        words = head.split()
        self.number, self.recorded, self.cost = int(words[2]), int(words[4]), int(words[10])
        self.ops, self.blocks, self.bound, self.proof, self.arrays = [], [], None, [], []

    def add(self, line):
        if line.startswith("# op "):
            self.ops.append(read_op(line.split()[3:]))
        elif line.startswith("# block "):
            self.blocks.append([int(f) for f in line.split()[6:]])
        elif line.startswith("# bound "):
            self.bound = line.split()[2::2][:2] + [line.split()[-1]]
        elif line.startswith("!"):
            self.proof.append(line)
        elif line[:1].isalpha():
            self.arrays.append([line])
        elif line:
            self.arrays[-1].append(line)


def read_view(text):
    """The view, its type, and whether its base is made there; or None."""
    found = re.fullmatch(r"(\+?)b(\d+):(\w+)@(\d+)\[(.*)\]", text)
    if not found:
        return None
    pairs = [part.split(":") for part in found[5].split(",")]
    view = View(int(found[2]), int(found[4]), tuple(int(n) for n, _ in pairs), tuple(int(s) for _, s in pairs))
    return view, found[3], found[1] == "+"


def read_op(words):
    code, numbers, parts = words[0], {}, []
    for word in words[1:]:
        name, sign, number = word.partition("=")
        if sign:
            numbers[name] = int(number)
        else:
            parts.append(read_view(word) or int(word.lstrip("b")))
    if code == "FREE":
        return Op(code, "", "", None, (), None, None, parts[0], False)
    out = None if code == "SYNC" else parts.pop(0)
    elems = [part[1] for part in parts if isinstance(part, tuple)] or [out[1]]
    operands = tuple(part[0] if isinstance(part, tuple) else part for part in parts)
    return Op(code, out[1] if out else elems[0], elems[0], out and out[0], operands, numbers.get("axis"), numbers.get("slot"), None, bool(out and out[2]))


def read_listing(lines):
    flushes = []
    for line in lines:
        if line.startswith("# flush "):
            flushes.append(Flush(line))
        elif flushes:
            flushes[-1].add(line)
    return flushes


# ---- a picture


def bytes_text(number):
    return f"{number:,} B".replace(",", "\u202f") if number < 10_000_000 else f"{number / 1e6:,.1f} MB"


def view_text(view, contracted):
    shape = ",".join(map(str, view.shape))
    if view.start == 0 and view.strides == in_order(view.base, view.shape).strides:
        place = f"[{shape}]"
    else:
        place = (f"@{view.start}[" if view.start else "[") + ",".join(f"{n}:{s}" if s != 1 else str(n) for n, s in zip(view.shape, view.strides)) + "]"
    return f"b{view.base}{'°' if view.base in contracted else ''}{place}"


def op_text(op, contracted):
    if op.code == "FREE":
        return f"FREE b{op.frees}{'°' if op.frees in contracted else ''}"
    parts = [view_text(x, contracted) if isinstance(x, View) else str(x) for x in op.operands]
    parts += [f"axis {op.axis}"] if op.axis is not None else []
    if op.code == "SYNC":
        return f"SYNC {parts[0]} into slot {op.slot}"
    return f"{view_text(op.out, contracted)} = {op.code} " + " ".join(parts)


def needed_pairs(problem):
    """The pairs that depend and don't follow from others."""
    after, reach = {f: 0 for f in problem.numbers}, {}
    for f, g in problem.before:
        after[f] |= 1 << g
    pairs = []
    for f in reversed(problem.numbers):
        behind = [g for g in range(f + 1, len(problem.ops) + 1) if after[f] >> g & 1]
        far = 0
        for g in behind:
            far |= reach[g]
        pairs += [(f, g) for g in behind if not far >> g & 1]
        reach[f] = far | after[f]
    return pairs


def moved(problem, block):
    """The bytes that a block reads and writes, views that it both reads and writes counted in both."""
    block = set(block)
    read = {v for f in block for v in inputs(problem.op(f)) if problem.creator.get(v.base) not in block}
    written = {problem.op(f).out for f in block if problem.op(f).out and problem.freer.get(problem.op(f).out.base) not in block}
    return sum(map(problem.weight, read)), sum(map(problem.weight, written))


def text_at(x, y, text, kind=""):
    return f'<text x="{x:.0f}" y="{y:.0f}" class="{kind}">{html.escape(text)}</text>'


def clipped(text, most):
    return text if len(text) <= most else text[:most - 1] + "…"


def op_line(problem, f, x, y, contracted, width):
    op = problem.op(f)
    kind = "free" if op.code == "FREE" else "sync" if op.code == "SYNC" else "serial" if serial(op) else ""
    kind += " made" if op.makes and op.out.base in contracted else ""
    text = op_text(op, contracted)
    shown = clipped(text + (" (serial)" if serial(op) else ""), int((width - 52) / GLYPH))
    return f"<g><title>{html.escape(f'{f} {text}')}</title>{text_at(x + 16, y, f'{f:>3}', 'number')}{text_at(x + 42, y, shown, kind)}</g>"


class Column:
    """A block as it is drawn: what it says, its width and height, and, once it is placed, its corner."""

    def __init__(self, problem, number, block):
        ops = [problem.op(f) for f in block]
        self.number, self.block, self.cost = number, block, problem.block_cost(set(block))
        self.contracted = {op.out.base for op in ops if op.makes and problem.freer.get(op.out.base) in block}
        self.read, self.written = moved(problem, block)
        self.note = f"reads {bytes_text(self.read)}, writes {bytes_text(self.written)}"
        longest = max(len(op_text(op, self.contracted)) + 9 * serial(op) for op in ops)
        self.column = min(max(NARROWEST, 60 + GLYPH * longest), WIDEST)
        self.columns = min(-(-len(block) // FEW_LINES), MOST_COLUMNS)
        self.lines = -(-len(block) // self.columns)
        self.width = max(self.column * self.columns, 16 + GLYPH * len(self.note))
        self.height = HEAD + LINE * self.lines + PAD

    def column_at(self, f):
        """The left edge of the column where the line of an operation stands."""
        return self.left + self.column * (self.block.index(f) // self.lines)

    def line_at(self, f):
        """The middle of the line of an operation."""
        return self.top + HEAD + LINE * (self.block.index(f) % self.lines) + 6

    def drawn(self, problem, most):
        x, y, width = self.left, self.top, self.width
        parts = [f'<rect class="box" x="{x:.0f}" y="{y}" width="{width:.0f}" height="{self.height}" rx="4"/>'
                 f'<rect class="head" x="{x:.0f}" y="{y}" width="{width:.0f}" height="{HEAD - 6}" rx="4"/>',
                 text_at(x + 8, y + 15, f"block {self.number}", "name"), text_at(x + 8 + 10 * GLYPH, y + 15, f"moves {bytes_text(self.cost)}"),
                 text_at(x + 8, y + 30, self.note, "note")]
        for row, (part, kind) in enumerate([(self.read, "reads"), (self.written, "writes")]):
            parts.append(f'<rect class="{kind}" x="{x + 8:.0f}" y="{y + 38 + 6 * row}" width="{(width - 16) * part / max(most, part):.1f}" height="4"/>')
        return "".join(parts + [op_line(problem, f, self.column_at(f), self.line_at(f) + 4, self.contracted, self.column) for f in self.block])


def place_columns(columns):
    """Puts the blocks side by side, in as many rows as it takes. The width and height of them all."""
    rows, left = [], WIDEST_ROW
    for column in columns:
        if not rows or left > LEFT and left + column.width > WIDEST_ROW:
            rows.append([])
            left = LEFT
        rows[-1].append(column)
        column.left, left = left, left + column.width + GAP
    top = PAD
    for number, row in enumerate(rows):
        floor = top + max(column.height for column in row)
        for column in row:
            column.top, column.row, column.floor = top, number, floor
        top = floor + GAP
    return max([column.left + column.width for column in columns], default=LEFT) + GAP, top - GAP + PAD


def arrow_inside(column, f, g):
    """From one operation of a block to another that depends on it, where both stand in one column."""
    left, y, to_y = column.column_at(f), column.line_at(f), column.line_at(g)
    if left != column.column_at(g):
        return ""
    bend = min(12, 3 + (to_y - y) // LINE)
    return (f'<path class="inner" d="M{left + 14:.0f} {y} C{left + 14 - bend:.0f} {y} {left + 14 - bend:.0f} {to_y} {left + 14:.0f} {to_y}">'
            f"<title>{f} before {g}</title></path>")


def way_out(column, f, gap, side):
    """The corners from an operation to the gap between rows at this height: by the right edge, or of a block of several columns from below."""
    if column.columns > 1:
        across = column.column_at(f) + 50 + side
        return [(across, column.top + column.height), (across, gap)]
    right, y = column.left + column.width, column.line_at(f)
    return [(right, y), (right + 6 + side // 2, y), (right + 6 + side // 2, gap)]


def way_in(column, g, gap, side):
    """The corners from a gap to an operation: by the left edge, or of a block of several columns from the gap's side."""
    if column.columns > 1:
        across = column.column_at(g) + 50 + side
        return [(across, gap), (across, column.top - 2 if gap < column.top else column.top + column.height + 2)]
    across, y = column.left - 12 - side // 2, column.line_at(g)
    return [(across, gap), (across, y), (column.left - 2, y)]


def is_beside(column, to):
    """Whether an arrow goes straight from one block to the other."""
    return to.number == column.number + 1 and to.row == column.row and column.columns == to.columns == 1


def arrow(column, f, to, g):
    """From one operation to another of a later block that depends on it: to the block beside it, or through the gaps between rows, and
    along the left edge where rows lie between."""
    title, side = f"<title>{f} before {g}</title>", 4 * (column.number % 7)
    if is_beside(column, to):
        right, y, left, to_y = column.left + column.width, column.line_at(f), to.left, to.line_at(g)
        return f'<path class="arrow" marker-end="url(#tip)" d="M{right:.0f} {y} C{right + 26:.0f} {y} {left - 26:.0f} {to_y} {left - 2:.0f} {to_y}">{title}</path>'
    below = column.floor + 8 + side
    above = below if to.row == column.row else to.top - GAP + 8 + side
    edge = [] if above == below else [(4 + side, below), (4 + side, above)]
    corners = [*way_out(column, f, below, side), *edge, *way_in(to, g, above, side)]
    return f'<path class="arrow far" marker-end="url(#tip)" d="M{" L".join(f"{x:.0f} {y:.0f}" for x, y in corners)}">{title}</path>'


def picture(flush):
    """An SVG of the blocks of a flush."""
    problem = Problem(flush.ops)
    columns = [Column(problem, number, block) for number, block in enumerate(flush.blocks, 1)]
    wide, tall = place_columns(columns)
    most = max([column.cost for column in columns], default=0) or 1
    of = {f: column for column in columns for f in column.block}
    pairs = needed_pairs(problem)
    arrows = [arrow(of[f], f, of[g], g) for f, g in pairs if of[f] is not of[g]]
    if any(of[f].row == columns[-1].row and of[f] is not of[g] and not is_beside(of[f], of[g]) for f, g in pairs):
        tall += GAP - PAD
    inner = [arrow_inside(of[f], f, g) for f, g in pairs if of[f] is of[g]]
    return (f'<svg xmlns="http://www.w3.org/2000/svg" width="{wide:.0f}" height="{tall}" viewBox="0 0 {wide:.0f} {tall}">'
            f'<style>{STYLE}</style><defs><marker id="tip" viewBox="0 0 8 8" refX="7" refY="4" markerWidth="7" markerHeight="7" orient="auto">'
            f'<path d="M0 0L8 4L0 8z" fill="#5b7fa6"/></marker></defs><rect width="{wide:.0f}" height="{tall}" fill="#f8fafc"/>\n'
            + "\n".join(arrows + [column.drawn(problem, most) for column in columns] + inner) + "</svg>")


# ---- a certificate


def leaf_text(problem, groups):
    """A leaf by worth: each view that is paid for, by how many operations, and their sum."""
    lines, worth = [], 0
    for group in groups:
        first, *others = group.split(",")
        op = problem.op(int(first[:-2]))
        view = (op.out, *op.operands)[int(first[-1])]
        paid = problem.weight(view) * (1 + len(others))
        worth += paid
        lines.append(f"{bytes_text(paid):>14}  {view_text(view, ())} in {1 + len(others)} block{'s' if others else ''}, of operation{'s' if others else ''} "
                     + ", ".join([first[:-2], *others]))
    return worth, f"leaf by worth, {bytes_text(worth)}\n" + "".join(line + "\n" for line in lines)


def proof_text(flush):
    problem, words = Problem(flush.ops), [line.split() for line in flush.proof]
    counted = {word: sum(line[0] == word for line in words) for word in ("!step", "!branch", "!worth", "!dead")}
    bound = next((line[1] for line in words if line[0] == "!bound"), "none")
    leaves = sorted((leaf_text(problem, line[1:]) for line in words if line[0] == "!worth"), key=lambda leaf: leaf[0])
    text = (f"bound {bound} bytes; {counted['!step']} steps and {counted['!branch']} branches ({counted['!step'] + counted['!branch']} units), "
            f"{counted['!worth']} leaves by worth and {counted['!dead']} dead ones\nThe leaves that are worth least, and the views that make their worth:\n\n")
    text += "\n".join(leaf for _, leaf in leaves[:MOST_LEAVES])
    return text + (f"\nand {len(leaves) - MOST_LEAVES} more leaves" if len(leaves) > MOST_LEAVES else "")


# ---- the page


def bound_text(flush):
    if not flush.bound:
        return "no bound is listed"
    bound, units, word = flush.bound
    kind, said = ("good", "proved optimal") if word == "optimal" else ("open", "budget spent")
    return f'<span class="{kind}">{said}</span>: bound {bytes_text(int(bound))}, {units} units'


def row_of(flush):
    problem = Problem(flush.ops)
    single = sum(problem.block_cost({f}) for f in problem.numbers)
    less = f"{100 * (single - flush.cost) / single:.0f} %" if single else ""
    cells = [flush.number, flush.recorded, len(flush.ops), len(flush.blocks), bytes_text(flush.cost), bytes_text(single), less, bound_text(flush)]
    return "<tr>" + "".join(f"<td>{cell}</td>" for cell in cells) + "</tr>\n"


def section_of(flush):
    parts = [f'<h2>Flush {flush.number}</h2>\n<div class="picture">{picture(flush)}</div>\n']
    if flush.arrays:
        heads = ["\n  ".join(clipped(line, MOST_HEAD) for line in array[:3]) + ("\n  …\n" if len(array) > 3 else "\n") for array in flush.arrays]
        parts.append(f"<h3>Arrays</h3><pre>{html.escape(''.join(heads))}</pre>\n")
    if flush.proof:
        parts.append(f"<h3>Certificate</h3><pre>{html.escape(proof_text(flush))}</pre>\n")
    return "".join(parts)


def page_of(flushes):
    heads = ["flush", "recorded", "rewritten", "blocks", "bytes moved", "one operation at a time", "less by", "bound"]
    table = "<table><tr>" + "".join(f"<th>{head}</th>" for head in heads) + "</tr>\n" + "".join(map(row_of, flushes)) + "</table>\n"
    legend = ("<p>A box is a block, and blocks run from left to right, row by row. In a block operations run from top to bottom, and then in the next column. An arrow goes from an "
              "operation to one that depends on it; those that follow from others are left out, and within a block those from one column to another. "
              "<b style=\"color:#0b7a6b\">b3°</b> is contracted: made and freed in the block, without a buffer. Bars show "
              "<span style=\"color:#3b7dd8\">bytes read</span> and <span style=\"color:#d9822b\">bytes written</span>; a view that is both is moved once.</p>\n")
    return PAGE + table + legend + "".join(map(section_of, flushes)) + "</body></html>\n"


def main(words):
    only = next((int(word[6:]) for word in words if word.startswith("--svg=")), None)
    files = [word for word in words if not word.startswith("--")]
    with open(files[0], encoding="utf-8") if files else sys.stdin as file:
        flushes = read_listing(file.read().split("\n"))
    if not flushes:
        sys.exit("usage: report.py [--svg=N] [LISTING], where the listing is of `bohrium run --plan`")
    if only is not None:
        print(picture(next(flush for flush in flushes if flush.number == only)))
    else:
        sys.stdout.write(page_of(flushes))


if __name__ == "__main__":
    main(sys.argv[1:])
