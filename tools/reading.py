"""Reads scripts: tokens and grammar as docs/LANGUAGE.md has them, apart from the program. For tools/steps.py."""
import re

MOST_BYTES, MOST_TOKENS, MOST_OPEN, MOST_LETTERS, WIDEST = 1_048_576, 1024, 64, 64, (1 << 64) - 1
COMPARISONS = ("==", "!=", "<", "<=", ">", ">=")
LEVELS = [("|",), ("^",), ("&",), ("<<", ">>"), ("+", "-"), ("*", "/", "%")]
FOLDS = ("sum", "prod", "min", "max", "cumsum", "cumprod")
VIEW_CALLS = ("broadcast", "transpose", "reshape", "strided")
TYPES = ("u8", "i32", "i64", "u64")
RESERVED = {"print", "del", "flush", "range", "full", "abs", "minimum", "maximum", "gather", "scatter", *FOLDS, *VIEW_CALLS, *TYPES}

TOKEN = re.compile(r"(?:[ \t\r]+|#[^\n]*)*(?:(\n)|([0-9]+)|([A-Za-z_][A-Za-z0-9_]*)|(==|!=|<=|>=|<<|>>|\*\*|[-=<>+*/%&|^~()\[\],:])|)")


class Refusal(Exception):
    """The place is a line and a column."""

    def __init__(self, at, kind):
        super().__init__(f"refused {at[0]}:{at[1]} {kind}")


class Parser:
    """Reads with one token ahead; its `kind` is `number`, `name`, `end`, or the sign, reserved word or line end itself.
    A tree is a tuple of its form, its place and its parts."""

    def __init__(self, text):
        self.text, self.position, self.line, self.line_start = text, 0, 1, 0
        self.tokens = self.open = 0
        self.advance()

    def advance(self):
        found = TOKEN.match(self.text, self.position)
        end, digits, word, sign = found.groups()
        start = found.start(found.lastindex) if found.lastindex else found.end()
        self.at, self.position = (self.line, start - self.line_start + 1), found.end()
        if not found.lastindex and start < len(self.text):
            raise Refusal(self.at, "BadByte")
        if end:
            self.line, self.line_start = self.line + 1, found.end()
        if digits:
            digits = digits.lstrip("0")[:21] or "0"
            if int(digits) > WIDEST:
                raise Refusal(self.at, "NumberTooWide")
        if word and len(word) > MOST_LETTERS:
            raise Refusal(self.at, "NameTooLong")
        self.kind = end or digits and "number" or word and (word if word in RESERVED else "name") or sign or "end"
        self.spelled = digits or word
        self.tokens = 0 if self.kind in ("\n", "end") else self.tokens + 1
        if self.tokens > MOST_TOKENS:
            raise Refusal(self.at, "StatementTooLong")

    def take(self, *kinds):
        """The spelling and the place of the token ahead, which must be of one of these kinds."""
        if self.kind not in kinds:
            raise Refusal(self.at, "Unexpected")
        if self.kind in ("(", "["):
            if self.open == MOST_OPEN:
                raise Refusal(self.at, "TooDeep")
            self.open += 1
        self.open -= self.kind in (")", "]")
        taken = self.spelled or self.kind, self.at
        self.advance()
        return taken

    def number(self):
        digits, at = self.take("number")
        return int(digits), at

    def literal(self):
        at, sign = self.at, 1
        if self.kind == "-":
            self.take("-")
            sign = -1
        return sign * self.number()[0], at

    def listed(self, item):
        """The place of the bracket, and the items."""
        at = self.take("[")[1]
        items = [item()]
        while self.kind == ",":
            self.take(",")
            items.append(item())
        self.take("]")
        return at, items

    def shape(self):
        return self.listed(lambda: self.number()[0])

    def slice(self):
        start = self.number()[0] if self.kind == "number" else None
        self.take(":")
        stop = self.number()[0] if self.kind == "number" else None
        step = None
        if self.kind == ":":
            self.take(":")
            step = self.literal()[0] if self.kind in ("number", "-") else None
        return start, stop, step

    def indexed(self, tree):
        while self.kind == "[":
            at, slices = self.listed(self.slice)
            tree = ("index", at, tree, slices)
        return tree

    def after(self, sign, part):
        self.take(sign)
        return part()

    def view_call(self, argument):
        word, at = self.take(*VIEW_CALLS)
        parts = [self.after("(", argument)]
        if word == "strided":
            parts.append(self.after(",", self.number)[0])
        if word != "transpose":
            parts.append(self.after(",", self.shape))
        if word == "strided":
            parts.append(self.after(",", lambda: self.listed(lambda: self.literal()[0])))
        self.take(")")
        return (word, at, *parts)

    def place(self):
        if self.kind in VIEW_CALLS:
            return self.indexed(self.view_call(self.place))
        name, at = self.take("name")
        return self.indexed(("name", at, name))

    def call(self):
        if self.kind in VIEW_CALLS:
            return self.view_call(self.expression)
        word, at = self.take("range", "full", "abs", "minimum", "maximum", *FOLDS, *TYPES)
        if word == "range":
            number = self.after("(", self.number)
            elem = self.after(",", lambda: self.take(*TYPES)[0]) if self.kind == "," else "i64"
            tree = ("range", at, *number, elem)
        elif word == "full":
            tree = ("full", at, self.after("(", self.shape), self.after(",", self.literal), self.after(",", lambda: self.take(*TYPES)[0]))
        elif word in FOLDS:
            tree = ("fold", at, word, self.after("(", self.expression), self.after(",", self.number))
        elif word in TYPES:
            tree = ("unary", at, "IDENTITY", word, self.after("(", self.expression))
        elif word == "abs":
            tree = ("unary", at, "ABSOLUTE", None, self.after("(", self.expression))
        else:
            tree = ("binary", at, word, self.after("(", self.expression), self.after(",", self.expression))
        self.take(")")
        return tree

    def primary(self):
        if self.kind in ("number", "-"):
            number, at = self.literal()
            return ("literal", at, number)
        if self.kind == "name":
            name, at = self.take("name")
            return ("name", at, name)
        if self.kind == "(":
            tree = self.after("(", self.expression)
            self.take(")")
            return tree
        return self.call()

    def factor(self):
        turned = []
        while self.kind == "~":
            turned.append(self.take("~")[1])
        tree = self.indexed(self.primary())
        if self.kind == "**":
            at = self.take("**")[1]
            tree = ("power", at, tree, self.number()[0])
        for at in reversed(turned):
            tree = ("unary", at, "INVERT", None, tree)
        return tree

    def signs(self, level):
        if level == len(LEVELS):
            return self.factor()
        tree = self.signs(level + 1)
        while self.kind in LEVELS[level]:
            sign, at = self.take(self.kind)
            tree = ("binary", at, sign, tree, self.signs(level + 1))
        return tree

    def expression(self):
        tree = self.signs(0)
        if self.kind in COMPARISONS:
            sign, at = self.take(self.kind)
            tree = ("binary", at, sign, tree, self.signs(0))
        return tree

    def statement(self):
        word, at = self.kind, self.at
        if word in ("print", "del", "flush"):
            self.take(word)
            return (word, at) if word == "flush" else (word, at, self.expression()) if word == "print" else (word, *reversed(self.take("name")))
        if word == "scatter":
            self.take(word)
            tree = (word, at, self.after("(", self.place), self.after(",", self.expression), self.after(",", self.expression))
            self.take(")")
            return tree
        if word == "name":
            name = self.take("name")[0]
            if self.kind == "=":
                self.take("=")
                return self.gather(name, at) if self.kind == "gather" else ("bind", at, name, self.expression())
            target = self.indexed(("name", at, name))
        else:
            target = self.place()
        return ("assign", self.take("=")[1], target, self.expression())

    def gather(self, name, at):
        word_at = self.take("gather")[1]
        tree = ("gather", at, name, word_at, self.after("(", self.expression), self.after(",", self.expression))
        self.take(")")
        return tree

    def script(self):
        trees = []
        while True:
            if self.kind not in ("\n", "end"):
                trees.append(self.statement())
            if self.take("\n", "end")[0] == "end":
                return trees


def trees_of(script):
    """The statements of a script, given as bytes."""
    if len(script) > MOST_BYTES:
        front = script[:MOST_BYTES]
        raise Refusal((front.count(b"\n") + 1, MOST_BYTES - front.rfind(b"\n")), "TooLong")
    return Parser(script.decode("latin-1")).script()
