#!/usr/bin/env python3
"""Looks for what the pages name in the sources, and shows what doesn't stand where a page says that it stands.

Read are README.md and docs/*.md:
- a table with the columns `clause` and `file`: each code span of the first is a function, a clause of a function (`serve.served`,
  `Machine::walk.walks`), a definition or one of its fields or cases (`IsWhole.arrays`), and stands in a file of its row, to which
  there are links;
- a table with the columns `definition` and `file`: the first word of each code span stands in one of the files of its row. A file that
  begins with `specs/` or `src/` is one of the crate in the heading above. Each file of definitions has a row in docs/MAP.md;
- the table with the columns `crate`, `stands on` and `promises`: each crate of the repository, and on which others it stands;
- `NAME` in CRATE, and CRATE, `NAME`: the name stands somewhere in that crate;
- links to files, and paths that begin with the name of a folder at the top, but for those in commands: there is such a file.
"""
import functools
import glob
import os
import re
import sys

TOP = os.path.dirname(os.path.dirname(os.path.abspath(__file__)))
FOLDERS = ("crates", "docs", "tools", "examples", "wrong_bodies")
PATH = re.compile(r"(?<![\w/.-])(?:" + "|".join(FOLDERS) + r")/[\w/.-]*\w")
# What stands for a name, and what is made when the program is built.
NO_FILES = re.compile(r"\bNAME\b|\bout/")


@functools.lru_cache(maxsize=None)
def read(path):
    with open(os.path.join(TOP, path), encoding="utf-8") as file:
        return file.read()


def is_file(path):
    return os.path.isfile(os.path.join(TOP, path))


def spans(cell):
    """The code spans of a cell of a table."""
    return re.findall(r"`([^`]*)`", cell.replace("\\|", "|"))


def cells(line):
    return [cell.strip() for cell in re.split(r"(?<!\\)\|", line.strip())[1:-1]]


def defines(text, name):
    """Whether a source has a function, a clause, a type, a definition, a field or a case of this name."""
    word = re.escape(name)
    return bool(re.search(rf"\b(?:fn|struct|enum|trait|type|const|record|data|abbrev|abbrev pub|pub|requires|ensures|invariant|ghost) {word}(?!\w)", text)
                or re.search(rf"^ +{word}(?: :|,$|\(|: | \{{)", text, re.M))


def heads_of(text, function):
    """From each `fn` of this name on, all that stands before its body."""
    for found in re.finditer(rf"\bfn {re.escape(function)}\b", text):
        rest = text[found.end():]
        end = re.search(r"^\s*\{|\bfn \w", rest, re.M)
        yield rest[:end.start()] if end else rest


def records_of(text, name):
    """From each definition of this name on, all that is indented below it."""
    for found in re.finditer(rf"^(?:pub )?(?:record|data|struct|enum|trait|abbrev|abbrev pub|unfoldable pub) {re.escape(name)}(?!\w).*\n((?:[ }}].*\n|\n(?= ))*)", text, re.M):
        yield found[0]


def stands(text, name):
    """Whether a function, a clause of one, a definition or a part of one stands in a source."""
    name, kind = name.rsplit("::", 1)[-1], name.rsplit("::", 1)[0] if "::" in name else None
    if kind and not re.search(rf"\b(?:struct|enum|trait|impl)\b.*\b{re.escape(kind)}\b", text):
        return False
    whole, _, part = name.partition(".")
    if not part:
        return defines(text, whole)
    return any(re.search(rf"\bensures {re.escape(part)} \{{", head) for head in heads_of(text, whole)) \
        or any(re.search(rf"^ +(?:pub )?{re.escape(part)}(?: :|:|,)", body, re.M) for body in records_of(text, whole))


def crate_files(crate):
    return sorted(glob.glob(os.path.join(TOP, "crates", crate, "src", "**", "*.rt"), recursive=True)
                  + glob.glob(os.path.join(TOP, "crates", crate, "[sp]*", "**", "*.antt"), recursive=True))


def stands_in_crate(crate, name):
    return any(stands(read(os.path.relpath(path, TOP)), name) for path in crate_files(crate))


def known_crates():
    """The crates of crates.txt, and on which others of them each stands."""
    rows = dict(line.split(":") for line in read("crates.txt").split("\n") if line and not line.startswith("#"))
    return {crate: {part for part in parts.split() if part in rows} for crate, parts in rows.items()}


class Page:
    def __init__(self, path):
        self.path, self.looked, self.faults, self.crates, self.shown = path, 0, [], [], set()

    def judge(self, number, holds, said):
        self.looked += 1
        if not holds:
            self.faults.append(f"{self.path}:{number}: {said}")

    def judge_clauses(self, number, row, files):
        for file in files:
            self.judge(number, is_file(file), f"there is no file {file}")
        for name in spans(row):
            self.judge(number, any(is_file(file) and stands(read(file), name) for file in files), f"{name} doesn't stand in {', '.join(files)}")

    def judge_definitions(self, number, row, files):
        for file in files:
            self.judge(number, file, "no such file")
        for name in spans(row):
            name = name.split()[0]
            self.judge(number, any(stands(read(file), name) for file in files if file), f"{name} isn't defined there")

    def file_of(self, path):
        """A file as a row names it: from the top, or of the crates in the heading."""
        tried = [path, f"crates/{path}", *(f"crates/{crate}/{path}" for crate in self.crates)]
        found = next((one for one in tried if is_file(one)), None)
        self.shown.add(found)
        return found

    def judge_map(self):
        """Each crate has a row, and each file of definitions."""
        for crate in known_crates():
            self.judge(1, crate in self.shown, f"{crate} has no row")
            for path in glob.glob(os.path.join(TOP, "crates", crate, "specs", "*.antt")):
                file = os.path.relpath(path, TOP)
                self.judge(1, file in self.shown or file.endswith("/Lib.antt"), f"{file} has no row")

    def judge_crate(self, number, row):
        crate = re.sub(r"\[(\w+)\].*", r"\1", row[0])
        rows = known_crates()
        self.shown.add(crate)
        self.judge(number, crate in rows, f"{crate} is no crate")
        named = {name for name in re.findall(r"\w+", row[1])}
        if not named & {"all"}:
            self.judge(number, named == rows.get(crate), f"{crate} stands on {' '.join(sorted(rows.get(crate, ())))}")

    def judge_row(self, number, heads, row):
        if heads[-2:] == ["clause", "file"]:
            self.judge_clauses(number, row[-2], re.findall(r"\]\(([^)]*)\)", row[-1]))
        elif heads[-2:] == ["definition", "file"]:
            self.judge_definitions(number, row[-2], [self.file_of(path) for path in re.findall(r"[\w/.-]+\.(?:rt|antt)", row[-1])])
        elif heads == ["crate", "stands on", "promises"]:
            self.judge_crate(number, row)

    def judge_line(self, number, line):
        for link in re.findall(r"\]\(([^)#:]+)\)", line):
            path = os.path.join(TOP, os.path.dirname(self.path), link)
            self.judge(number, os.path.exists(path), f"the link {link} leads nowhere")
        for path in PATH.findall(re.sub(r"`[^`]*`", lambda span: "" if " " in span[0] else span[0], line)):
            if not NO_FILES.search(path):
                self.judge(number, os.path.exists(os.path.join(TOP, path)), f"there is no {path}")
        for name, crate in re.findall(r"`([\w:.]+)` (?:in|of) (arr_\w+)", line) + [pair[::-1] for pair in re.findall(r"\((arr_\w+), `([\w:.]+)`\)", line)]:
            self.judge(number, stands_in_crate(crate, name), f"{name} isn't defined in {crate}")

    def judge_all(self):
        heads, fenced = [], False
        for number, line in enumerate(read(self.path).split("\n"), 1):
            fenced ^= line.startswith("```")
            if fenced:
                continue
            if line.startswith("#"):
                self.crates = re.findall(r"\barr_\w+", line)
            if not line.startswith("|"):
                heads = []
            elif not heads:
                heads = cells(line)
            elif not line.startswith("|---"):
                self.judge_row(number, heads, cells(line))
            self.judge_line(number, line)
        if self.path == os.path.join("docs", "MAP.md"):
            self.judge_map()
        return self


def judged_pages():
    """Each page, with how many names were looked for and what is wrong."""
    return [Page(path).judge_all() for path in ["README.md", *sorted(os.path.relpath(path, TOP) for path in glob.glob(os.path.join(TOP, "docs", "*.md")))]]


def main():
    pages = judged_pages()
    for page in pages:
        print("\n".join([f"{page.path}: {page.looked} looked for, {len(page.faults)} wrong", *page.faults]))
    return 1 if any(page.faults for page in pages) else 0


if __name__ == "__main__":
    sys.exit(main())
