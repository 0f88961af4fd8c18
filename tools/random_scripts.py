"""Random scripts for tools/fuzz.py: most are accepted, and their views overlap often. And damaged ones."""
import random
import re

import reading
from steps import Steps, count, greatest, least

ELEMS = ("u8", "i32", "i64", "i64", "u64")
SIGNS = ("+", "+", "-", "*", "*", "/", "%", "&", "|", "^", "<<", ">>")
COMPARED = ("==", "!=", "<", "<=", ">", ">=")
FOLDS = ("sum", "prod", "min", "max")
NAMES = "abcdefgh"
WRONG_NUMBERS = ("0", "1", "2", "3", "4", "6", "9", "-1", "-2", "255", "256", "-129", "2147483648", "-2147483649", "1048576", "1048577", "9223372036854775808",
                 "18446744073709551615")
WRONG_SLICES = ("[:]", "[::0]", "[::-1]", "[9:]", "[:9]", "[2:1]", "[1:1]", "[:,:]", "[:,:,:,:,:]", "[0]", "[2]", "[2,3]", "[1,1,1,1,1]", "[3,0]", "[1024,1025]",
                "[-1]", "[1:4:2]", ":", "::2")
PIECES = ("print", "del", "flush", "range", "(", ")", "[", "]", ",", ":", "=", "**", "<", "~", "-", "0", "1", "7", "a", "b", "\n", "#", "\r", "gather",
          "scatter", "u8", "99999999999999999999", "18446744073709551615", "sum", "transpose", "?", "\x80", "!", "18446744073709551616", "00")


class Writer:
    """Writes a script statement by statement; a statement that would be refused is mostly left out."""

    def __init__(self, seed):
        self.random = random.Random(seed)
        self.steps, self.lines = Steps([]), []
        self.cuts = self.random.choice((0, 0.1, 1, 1))

    def pick(self, *choices):
        """One of the pairs of a weight and a call, and what it gives."""
        return self.random.choices([call for _, call in choices], [weight for weight, _ in choices])[0]()

    def script(self, statements):
        while len(self.lines) < statements:
            line = self.statement()
            if self.is_refused(line) and self.random.random() > 0.01:
                continue
            self.lines.append(line)
        self.lines += [f"print {name}" for name in self.steps.names if self.random.random() < 0.8]
        return "".join(line + "\n" for line in self.lines)

    def is_refused(self, line):
        """Elaborates the statement; where it is refused, all is as before."""
        steps, kept = self.steps, (len(self.steps.steps), len(self.steps.bases), dict(self.steps.names))
        try:
            steps.extend(reading.trees_of(line.encode()))
            return False
        except reading.Refusal:
            del steps.steps[kept[0]:], steps.bases[kept[1]:]
            steps.names = kept[2]
            return True

    # ---- parts

    def literal(self, elem):
        low, high = least(elem), greatest(elem)
        few = [0, 1, 1, 2, 2, 3, 5, 7, 8, 31, 32, 63, 64, low, high, *(max(number, low) for number in (-1, -2, -7))]
        return self.random.choice(few + [self.random.randint(low, high)])

    def shape(self):
        shapes = [value.view.shape for value in self.steps.names.values()]
        if shapes and self.random.random() < 0.75:
            return self.random.choice(shapes)
        return tuple(self.random.choice((1, 2, 3, 4, 5)) for _ in range(self.random.choice((1, 1, 1, 2, 2, 3, 4))))

    def named(self, elem=None, shape=None):
        """A name of this type and shape, or None."""
        fits = [name for name, value in self.steps.names.items() if elem in (None, value.elem) and shape in (None, value.view.shape)]
        return self.random.choice(fits) if fits else None

    def slices(self, shape):
        parts = [self.slice(length) for length in shape[:self.random.randint(1, len(shape))]]
        return "[" + ",".join(text for text, _ in parts) + "]", tuple(length for _, length in parts) + shape[len(parts):]

    def slice(self, length):
        step = self.random.choice((1, 1, 1, 2, 3, -1, -1, -2, -3))
        start, stop = sorted((self.random.randint(0, length), self.random.randint(0, length)), reverse=step < 0)
        if step < 0:
            start = min(start, length - 1)
            stop = min(stop, length - 1)
        shown = [self.random.random() < 0.6, self.random.random() < 0.6, step != 1 or self.random.random() < 0.1]
        first, end = (0, length) if step > 0 else (length - 1, -1)
        taken = len(range(start if shown[0] else first, stop if shown[1] else end, step))
        if taken == 0:
            return ":", length
        return (str(start) if shown[0] else "") + ":" + (str(stop) if shown[1] else "") + (f":{step}" if shown[2] else ""), taken

    def strides(self, length, shape):
        """A start and strides by which the shape lies inside a base of this length."""
        strides, room = [], length - 1
        for n in shape:
            stride = self.random.choice((0, 1, 1, 2, 3, 4, -1, -2))
            while (n - 1) * abs(stride) > room:
                stride = abs(stride) - 1
            strides.append(stride)
            room -= (n - 1) * abs(stride)
        lowest = -sum((n - 1) * s for n, s in zip(shape, strides) if s < 0)
        return lowest + self.random.randint(0, room), strides

    def strided(self, name, shape):
        start, strides = self.strides(self.steps.bases[self.steps.names[name].view.base][1], shape)
        return f"strided({name}, {start}, {list(shape)}, {strides})".replace(" ", "" if self.random.random() < 0.1 else " ")

    def changed(self, text, shape, shape_wanted=None):
        """A view of a place or an expression, and its shape."""
        return self.pick((5, lambda: (text, shape)), (5, lambda: self.indexed(text, shape)), (1, lambda: (f"transpose({text})", shape[::-1])),
                         (1, lambda: (f"reshape({text}, [{count(shape)}])", (count(shape),))),
                         (1, lambda: (f"broadcast({text}, {[2, *shape]})", (2, *shape))))

    def indexed(self, text, shape):
        index, taken = self.slices(shape)
        return text + index, taken

    # ---- expressions, of a type and a shape

    def fitted(self, elem, shape):
        name, other = self.named(elem, shape), self.named(elem)
        low = tuple(1 if self.random.random() < 0.5 else n for n in shape)
        return self.pick(
            (12 if name else 0, lambda: name), (6 if other else 0, lambda: self.strided(other, shape)),
            (3 if other else 0, lambda: f"broadcast({self.strided(other, low)}, {list(shape)})"),
            (2, lambda: f"reshape(range({count(shape)}, {elem}), {list(shape)})"), (1, lambda: f"full({list(shape)}, {self.literal(elem)}, {elem})"))

    def side(self, elem, shape, depth):
        """An expression that is spread to the shape, or has it; its rank may be less."""
        low = tuple(1 if self.random.random() < 0.5 else n for n in shape[self.random.randrange(len(shape)):])
        return self.pick((6, lambda: self.value(elem, shape, depth)), (1, lambda: self.value(elem, low, depth)))

    def value(self, elem, shape, depth):
        if depth == 0:
            return self.fitted(elem, shape)
        return self.pick(
            (3, lambda: self.fitted(elem, shape)), (9, lambda: self.binary(elem, shape, depth - 1)),
            (1, lambda: f"~{self.bracketed(elem, shape, depth - 1)}"),
            (1, lambda: f"abs({self.value(elem, shape, depth - 1)})"),
            (1, lambda: f"{self.bracketed(elem, shape, depth - 1)} ** {self.random.choice((0, 1, 2, 3, 5, 64, 2**64 - 1))}"),
            (2, lambda: f"{elem}({self.value(self.random.choice(ELEMS), shape, depth - 1)})"), (3, lambda: self.fold(elem, shape, depth - 1)),
            (2, lambda: f"{self.random.choice(('cumsum', 'cumprod'))}({self.value(elem, shape, depth - 1)}, {self.random.randrange(len(shape))})"))

    def bracketed(self, elem, shape, depth):
        return f"({self.value(elem, shape, depth)})"

    def binary(self, elem, shape, depth):
        inner, signs = elem, SIGNS
        if elem == "u8" and self.random.random() < 0.4:
            inner, signs = self.random.choice(ELEMS), COMPARED
        left, right = self.bracketed(inner, shape, depth), f"({self.side(inner, shape, depth)})"
        right = str(self.literal(inner)) if self.random.random() < 0.4 else right
        if self.random.random() < 0.2:
            left, right = right, left
        if inner == elem and self.random.random() < 0.15:
            return f"{self.random.choice(('minimum', 'maximum'))}({left}, {right})"
        return f"{left} {self.random.choice(signs)} {right}"

    def fold(self, elem, shape, depth):
        if len(shape) == 4:
            return self.fitted(elem, shape)
        axis = self.random.randint(0, len(shape))
        inner = (self.random.randint(1, 4),) if shape == (1,) else shape[:axis] + (self.random.randint(1, 4),) + shape[axis:]
        return f"{self.random.choice(FOLDS)}({self.value(elem, inner, depth)}, {0 if shape == (1,) else axis})"

    # ---- statements

    def statement(self):
        known = self.named() is not None
        return self.pick((6, self.bind), (3 if known else 0, self.alias), (7 if known else 0, self.assign), (2 if known else 0, self.shown),
                         (1 if known else 0, lambda: f"del {self.named()}"), (self.cuts, lambda: "flush"), (self.cuts * 0.6 if known else 0, self.gather),
                         (self.cuts * 0.6 if known else 0, self.scatter), (0.2, lambda: "# " + self.random.choice(PIECES).strip("\n")))

    def bind(self):
        return f"{self.random.choice(NAMES)} = {self.value(self.random.choice(ELEMS), self.shape(), self.random.choice((0, 1, 1, 2)))}"

    def view(self):
        name = self.named()
        shape = self.steps.names[name].view.shape
        return self.pick((5, lambda: self.changed(*self.changed(name, shape))), (2, lambda: self.shaped(name))), self.steps.names[name].elem

    def shaped(self, name):
        shape = self.shape()
        return self.strided(name, shape), shape

    def alias(self):
        return f"{self.random.choice(NAMES)} = {self.view()[0][0]}"

    def shown(self):
        (text, _), _ = self.view()
        return "print " + text

    def target(self):
        (text, shape), elem = self.view()
        return (text + "[:]" if text in self.steps.names else text), shape, elem

    def assign(self):
        text, shape, elem = self.target()
        return f"{text} = " + self.pick((1, lambda: str(self.literal(elem))), (4, lambda: self.value(elem, shape, self.random.choice((0, 1, 1, 2)))),
                                        (1, lambda: self.side(elem, shape, 1)))

    def gather(self):
        return f"{self.random.choice(NAMES)} = gather({self.view()[0][0]}, {self.value(self.random.choice(ELEMS), self.shape(), 1)})"

    def scatter(self):
        text, _, elem = self.target()
        shape = self.shape()
        return f"scatter({text}, {self.value(self.random.choice(ELEMS), shape, 1)}, {self.value(elem, shape, 1)})"


def misused(script, chance):
    """The script with some numbers, names, types and strides changed for others, so that it mostly keeps to the grammar."""
    for _ in range(chance.choice((1, 2, 4))):
        tokens = [token for token in re.finditer(r"-?[0-9]+|\b(?:[a-h]|u8|i32|i64|u64)\b|:|\[[^]]*\]", script)]
        if tokens:
            token = chance.choice(tokens)
            name = "".join(chance.choices(NAMES + "q"))
            kinds = [(NAMES, (name, name + chance.choice(WRONG_SLICES))), (ELEMS, ELEMS), (token[0] if token[0][0] in ":[" else (), WRONG_SLICES)]
            choices = next((choices for tokens, choices in kinds if token[0] in tokens), WRONG_NUMBERS)
            script = script[:token.start()] + chance.choice(choices) + script[token.end():]
    return script.encode("latin-1")


def damaged(script, chance):
    """The script with a few of its bytes or tokens changed."""
    text = script
    for _ in range(chance.choice((1, 1, 1, 2, 3))):
        at = chance.randrange(len(text) + 1)
        until = min(len(text), at + chance.choice((1, 1, 2, 5)))
        text = chance.choice((text[:at] + text[until:], text[:at] + chance.choice(PIECES) + text[at:], text[:at] + chance.choice(PIECES) + text[until:],
                              text[:at] + text[at:until] * 2 + text[until:], text[:at], text.replace(chance.choice("([:,1"), chance.choice(PIECES), 1)))
    return text.encode("latin-1")
