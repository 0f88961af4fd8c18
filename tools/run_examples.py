#!/usr/bin/env python3
"""Runs the examples, the cases of cases.py and what the documents show, and compares what is written.

examples/NAME.bh is run, and must print examples/NAME.out. The words are `run`, or those of its first line where this is a comment
`# ./bohrium WORDS < examples/NAME.bh`.

In README.md, docs/LANGUAGE.md, docs/PLANS.md and docs/CERTIFICATES.md are run:
- a fenced block `bohrium`, a script; the next fenced block, `output`, is all that it prints. The status must be 1 where that is a
  refusal, else 0;
- a fenced block `console`: each line that begins with `$ ` is a command for bash in the top folder, and the lines up to the next
  command are all that it writes to its standard output;
- each row of a table whose last two columns are headed `script` and `prints`: each code span is one line of the script, or of what it
  prints;
- each row of a table whose last three columns are headed `command`, `status` and `writes`: the command is one for bash in the top
  folder, and must end with that status; each further code span is one line that it writes to its standard output.

What README.md and docs/*.md name in the sources must stand where they say (named.py).
"""
import os
import re
import shutil
import subprocess
import sys
import tempfile

import cases
import named
import report

TOP = os.path.dirname(os.path.dirname(os.path.abspath(__file__)))
PROGRAM = os.path.join(TOP, "crates", "bohrium", "out", "bohrium")
PAGES = ["README.md", *(os.path.join("docs", name) for name in ("LANGUAGE.md", "PLANS.md", "CERTIFICATES.md"))]
USAGE = "usage: bohrium run [--plan|--cert] [--fuse=linear|greedy|best] [--budget=N] | bohrium check FILE | bohrium demo N\n"
# The refusals that the grammar gives.
OF_GRAMMAR = {"TooLong", "BadByte", "NumberTooWide", "NameTooLong", "StatementTooLong", "TooDeep", "Unexpected"}

passed = 0
failed = 0


def judge(where, wanted, found):
    """Counts a case, and shows it where what is found is not what is wanted."""
    global passed, failed
    if wanted == found:
        passed += 1
        return
    failed += 1
    print(f"{where}: differs\n--- wanted\n{wanted}--- found\n{found}---")


def run(script, words=("run",)):
    text = script if isinstance(script, bytes) else script.encode()
    done = subprocess.run([PROGRAM, *words], input=text, capture_output=True, timeout=120)
    return done.returncode, done.stdout.decode(errors="replace")


def judge_script(where, script, wanted, words=("run",)):
    status = 1 if wanted.startswith("refused ") else 0
    found_status, found = run(script, words)
    judge(where, f"{wanted}status {status}\n", f"{found}status {found_status}\n")


def fenced_blocks(lines):
    """The place, the kind and the text of each fenced block."""
    start = None
    for number, line in enumerate(lines, 1):
        if line.startswith("```"):
            if start is None:
                start, kind, text = number, line[3:].strip(), []
            else:
                yield start, kind, "".join(text)
                start = None
        elif start is not None:
            text.append(line + "\n")


def spans(cell):
    """The code spans of a cell of a table, each a line."""
    return "".join(span.replace("\\|", "|") + "\n" for span in re.findall(r"`([^`]*)`", cell))


def cells(line):
    return [cell.strip() for cell in re.split(r"(?<!\\)\|", line.strip())[1:-1]]


def judge_tables(page, lines):
    heads = []
    for number, line in enumerate(lines, 1):
        row, where = cells(line), f"{page}:{number}"
        if not line.startswith("|"):
            heads = []
        elif not heads:
            heads = row
        elif heads[-2:] == ["script", "prints"] and spans(row[-2]):
            judge_script(where, spans(row[-2]), spans(row[-1]))
        elif heads[-3:] == ["command", "status", "writes"] and spans(row[-3]):
            judge(f"{where}: {row[-3]}", (int(row[-2]), spans(row[-1])), by_bash(spans(row[-3])))


def by_bash(command):
    """The status of a command in the top folder, and what it writes to its standard output."""
    done = subprocess.run(["bash", "-c", command], cwd=TOP, stdin=subprocess.DEVNULL, capture_output=True, timeout=600)
    return done.returncode, done.stdout.decode(errors="replace")


def judge_commands(where, text):
    for part in re.split(r"^\$ ", text, flags=re.M)[1:]:
        command, _, wanted = part.partition("\n")
        judge(f"{where}: {command}", wanted, by_bash(command)[1])


def judge_page(page):
    with open(os.path.join(TOP, page)) as file:
        lines = file.read().split("\n")
    judge_tables(page, lines)
    script = None
    for number, kind, text in fenced_blocks(lines):
        where = f"{page}:{number}"
        if kind == "output":
            judge_script(where, script, text)
        if kind == "console":
            judge_commands(where, text)
        script = text if kind == "bohrium" else None


def judge_names():
    """What the pages name stands in the files that they name."""
    for page in named.judged_pages():
        judge(f"{page.path}: names", "", "".join(fault + "\n" for fault in page.faults))


def judge_examples():
    folder = os.path.join(TOP, "examples")
    for name in sorted(os.listdir(folder)):
        if name.endswith(".bh"):
            with open(os.path.join(folder, name)) as file, open(os.path.join(folder, name[:-3] + ".out")) as wanted:
                script = file.read()
                words = re.match(r"# \./bohrium (.*) < ", script)
                judge_script(f"examples/{name}", script, wanted.read(), words.group(1).split() if words else ["run"])


def judge_sentence(text):
    """A text of the grammar may be refused by the rules of names, types and shapes alone."""
    status, found = run(text)
    kind = found.split(" ")[-1].strip()
    judge(f"cases: {text!r}", True, status == 0 or status == 1 and kind not in OF_GRAMMAR)


def one(number, elem):
    return f"full([1], {number}, {elem})"


def applied(sign, left, right):
    return f"{sign}({left}, {right})" if sign.isalpha() else f"{left} {sign} {right}"


def judge_numbers():
    """The values of the opcodes, one array of one number each."""
    for elem, (pairs, values) in cases.BINARY.items():
        for sign, wanted in values.items():
            to = "u8" if sign[0] in "=!<>" and sign not in ("<<", ">>") else elem
            script = "".join(f"print {applied(sign, one(x, elem), one(y, elem))}\n" for x, y in pairs)
            judge_script(f"cases: {elem} {sign}", script, "".join(f"{to} 1\n{z}\n" for z in wanted))
    for elem, number, wanted in cases.POWERS:
        script = "".join(f"print {one(number, elem)} ** {exponent}\n" for exponent in cases.EXPONENTS)
        judge_script(f"cases: {elem} **", script, "".join(f"{elem} 1\n{z}\n" for z in wanted))
    for elem, number, size, turned in cases.TURNED:
        script = f"print abs({one(number, elem)})\nprint ~{one(number, elem)}\n"
        judge_script(f"cases: {elem} abs ~", script, f"{elem} 1\n{size}\n{elem} 1\n{turned}\n")
    for elem, number, wanted in cases.CONVERTED:
        kinds = list(zip(("u8", "i32", "i64", "u64"), wanted))
        script = "".join(f"print {to}({one(number, elem)})\n" for to, _ in kinds)
        judge_script(f"cases: {elem} converted", script, "".join(f"{to} 1\n{z}\n" for to, z in kinds))


def judge_checks():
    """Proofs, whole and damaged: each is a file, with and without the last line feed; and a file that isn't there."""
    with tempfile.TemporaryDirectory() as folder:
        path = os.path.join(folder, "proof")
        for script, lines, wanted in cases.CHECKS:
            status = 1 if wanted.startswith("refused ") else 6 if "rejected " in wanted else 0
            for text in ["\n".join(lines), "".join(line + "\n" for line in lines)]:
                with open(path, "w", newline="") as file:
                    file.write(text)
                judge(f"cases: check {lines}", (status, wanted), run(script, ("check", path)))
        judge("cases: no proof", (3, ""), run(cases.CHECKED, ("check", path + "s")))


def judge_picture():
    """The picture of the README is what tools/report.py draws of the first flush of the example."""
    with open(os.path.join(TOP, "examples", "fused.out")) as listing, open(os.path.join(TOP, "docs", "plan.svg")) as drawn:
        judge("docs/plan.svg", drawn.read(), report.picture(report.read_listing(listing.read().split("\n"))[0]) + "\n")


# Counts the texts of the pictures of a page that stand in no block, or one upon the other, where it is opened.
MEASURE = """<script>
const inside = (t, b) => t.left >= b.left && t.right <= b.right && t.top >= b.top && t.bottom <= b.bottom;
const meet = (a, b) => a.left < b.right && b.left < a.right && a.top + 2 < b.bottom && b.top + 2 < a.bottom;
let texts = 0, outside = 0, meeting = 0;
for (const svg of document.querySelectorAll("svg")) {
    const boxes = [...svg.querySelectorAll(".box")].map(box => box.getBoundingClientRect());
    const places = [...svg.querySelectorAll("text")].map(text => text.getBoundingClientRect());
    texts += places.length;
    outside += places.filter(text => !boxes.some(box => inside(text, box))).length;
    meeting += places.filter((text, at) => places.some((other, beside) => at < beside && meet(text, other))).length;
}
document.title = `${document.querySelectorAll("svg").length} pictures, ${texts} texts, ${outside} outside, ${meeting} upon others`;
</script>"""


def judge_opened_page():
    """Where there is a browser, it opens the page of tools/report.py, and all that its pictures say stands in the blocks, side by side."""
    browser = next(filter(None, map(shutil.which, ("chromium", "chromium-browser", "google-chrome"))), None)
    if not browser:
        print("there is no chromium: the page of tools/report.py is not opened")
        return
    for name in ("rod", "fused"):
        with open(os.path.join(TOP, "examples", f"{name}.out")) as listing, tempfile.TemporaryDirectory() as folder:
            flushes = report.read_listing(listing.read().split("\n"))
            page = os.path.join(folder, "page.html")
            with open(page, "w", encoding="utf-8") as file:
                file.write(report.page_of(flushes).replace("</body>", MEASURE + "</body>"))
            done = subprocess.run([browser, "--headless", "--no-sandbox", "--disable-gpu", f"--user-data-dir={folder}/profile", "--dump-dom", f"file://{page}"],
                                  capture_output=True, timeout=120)
            texts = sum(len(flush.ops) * 2 + len(flush.blocks) * 3 for flush in flushes)
            wanted = f"{len(flushes)} pictures, {texts} texts, 0 outside, 0 upon others"
            judge(f"the page of examples/{name}.out", wanted, (re.findall("<title>([^<]*pictures[^<]*)</title>", done.stdout.decode()) or ["no page"])[0])


def judge_bounds():
    """The units of a search lie between two numbers."""
    for words, script, before, behind, least, most in cases.UNITS:
        status, found = run(script, ("run", *words))
        units = [line[len(before):-len(behind)] for line in found.split("\n") if line.startswith(before) and line.endswith(behind)]
        judge(f"cases: units of {words} {script!r}", (0, [True]), (status, [least <= int(u) <= most for u in units]))


def judge_certificates():
    """What a run writes with its certificates is a proof that is accepted."""
    with tempfile.TemporaryDirectory() as folder:
        path = os.path.join(folder, "proof")
        for words, script, wanted in cases.CERTIFIED:
            status, written = run(script, ("run", "--cert", *words))
            with open(path, "w", newline="") as file:
                file.write(written)
            judge(f"cases: certified {words} {script[:200]!r}", (0, (0, wanted)), (status, run(script, ("check", path))))


def judge_cases():
    for script, wanted in cases.ARRAYS + cases.REFUSALS + cases.SLICES + cases.TEXTS + cases.LIMITS:
        judge_script(f"cases: {script[:200]!r}", script, wanted)
    for words, script, wanted in cases.PLANS + cases.BEST:
        judge_script(f"cases: {words} {script[:200]!r}", script, wanted, ["run", *words])
    for words in cases.UNKNOWN:
        judge(f"cases: {words}", (2, USAGE), run("", words))
    for text in cases.SENTENCES:
        judge_sentence(text)
    judge_numbers()
    judge_checks()
    judge_bounds()
    judge_certificates()


def main():
    if not os.access(PROGRAM, os.X_OK):
        print(f"{PROGRAM} is not built")
        return 1
    judge_examples()
    judge_cases()
    judge_picture()
    judge_opened_page()
    judge_names()
    for page in PAGES:
        judge_page(page)
    print(f"{passed} passed, {failed} failed")
    return 1 if failed else 0


if __name__ == "__main__":
    sys.exit(main())
