"""From the trees of tools/reading.py to steps: views, and the rules of names, types and shapes as docs/LANGUAGE.md has them, apart from
the program. For tools/evaluate.py and tools/lists.py."""
import collections
import functools
import operator

import reading
from reading import COMPARISONS, Refusal

View = collections.namedtuple("View", "base start shape strides")
Value = collections.namedtuple("Value", "view elem")
Literal = collections.namedtuple("Literal", "number at")
# `operands` are views and constants; `source` is the type of the views among them.
Op = collections.namedtuple("Op", "code to source out operands axis slot frees makes")

MOST_ELEMENTS, MOST_LIVE, MOST_NAMES = 1_048_576, 16_777_216, 1024
SIGNS = {"+": "ADD", "-": "SUBTRACT", "*": "MULTIPLY", "/": "DIVIDE", "%": "MOD", "&": "BITWISE_AND", "|": "BITWISE_OR", "^": "BITWISE_XOR",
         "<<": "LEFT_SHIFT", ">>": "RIGHT_SHIFT", "==": "EQUAL", "!=": "NOT_EQUAL", "<": "LESS", "<=": "LESS_EQUAL", ">": "GREATER",
         ">=": "GREATER_EQUAL", "maximum": "MAXIMUM", "minimum": "MINIMUM"}
FOLDS = {"sum": "ADD_REDUCE", "prod": "MULTIPLY_REDUCE", "min": "MINIMUM_REDUCE", "max": "MAXIMUM_REDUCE",
         "cumsum": "ADD_ACCUMULATE", "cumprod": "MULTIPLY_ACCUMULATE"}
# The trees that are operations and no views.
OPERATIONS = ("unary", "binary", "power", "fold", "range", "full")

BITS = {"u8": 8, "i32": 32, "i64": 64, "u64": 64}


def least(elem):
    return 0 if elem[0] == "u" else -(1 << BITS[elem] - 1)


def greatest(elem):
    return (1 << BITS[elem] - (elem[0] == "i")) - 1


def wrap(elem, number):
    return (number - least(elem)) % (1 << BITS[elem]) + least(elem)


# ---- views


def count(shape):
    return functools.reduce(operator.mul, shape, 1)


def new_view(base, start, shape, strides):
    return View(base, start, tuple(shape), tuple(0 if n == 1 else s for n, s in zip(shape, strides)))


def in_order(base, shape):
    return new_view(base, 0, shape, [count(shape[k + 1:]) for k in range(len(shape))])


@functools.lru_cache(maxsize=64)
def elements(view):
    places = [view.start]
    for length, stride in zip(view.shape, view.strides):
        places = [place + index * stride for place in places for index in range(length)]
    return places


def repeats(view):
    return len(set(elements(view))) < count(view.shape)


def spread(view, shape, at):
    missing = len(shape) - len(view.shape)
    if missing < 0 or any(n not in (1, m) for n, m in zip(view.shape, shape[missing:])):
        raise Refusal(at, "ShapeMismatch")
    return new_view(view.base, view.start, shape, [0] * missing + [0 if n == 1 else s for n, s in zip(view.shape, view.strides)])


def matched(left, right, at):
    rank = max(len(left), len(right))
    pairs = list(zip((1,) * (rank - len(left)) + left, (1,) * (rank - len(right)) + right))
    if any(n != m and 1 not in (n, m) for n, m in pairs):
        raise Refusal(at, "ShapeMismatch")
    shape = tuple(max(pair) for pair in pairs)
    if count(shape) > MOST_ELEMENTS:
        raise Refusal(at, "TooManyElements")
    return shape


def checked_shape(at, lengths):
    for fault, kind in [(not 1 <= len(lengths) <= 4, "RankRange"), (0 in lengths, "EmptyArray"), (count(lengths) > MOST_ELEMENTS, "TooManyElements")]:
        if fault:
            raise Refusal(at, kind)
    return tuple(lengths)


def sliced(length, at, start, stop, step):
    """The indices that a slice takes of a dimension."""
    step = 1 if step is None else step
    if step == 0:
        raise Refusal(at, "ZeroStep")
    past = length if step > 0 else length - 1
    if any(bound is not None and bound > past for bound in (start, stop)):
        raise Refusal(at, "SliceRange")
    first, end = (0, length) if step > 0 else (length - 1, -1)
    indices = range(first if start is None else start, end if stop is None else stop, step)
    if not indices:
        raise Refusal(at, "EmptyArray")
    return indices


# ---- names, types and shapes: from the trees to steps


class Steps:
    """`steps` are tuples that begin with `op`, `gather`, `scatter`, `name`, `forget`, `done` or `cut`; `bases` the type and length of each."""

    def __init__(self, trees):
        self.steps, self.bases, self.names = [], [], {}
        self.extend(trees)

    def extend(self, trees):
        for tree in trees:
            self.live = sum(self.bases[base][1] for base in {value.view.base for value in self.names.values()})
            getattr(self, "do_" + tree[0])(*tree[1:])
            self.steps.append(("done",))

    def do_print(self, at, tree):
        view, elem = self.array(tree)
        self.steps.append(("op", Op("SYNC", elem, elem, None, (view,), None, None, None, False)))

    def do_del(self, at, name):
        self.of_name(at, name)
        del self.names[name]
        self.steps.append(("forget", name))

    def do_flush(self, at):
        self.steps.append(("cut",))

    def do_bind(self, at, name, tree):
        self.bind(at, name, self.array(tree))

    def do_assign(self, at, place, tree):
        target = self.value(place)
        value = self.value(tree, target)
        if isinstance(value, Literal):
            operand, shape = self.held(value, target.elem), None
        else:
            if value.elem != target.elem:
                raise Refusal(at, "TypeMismatch")
            operand, shape = spread(value.view, target.view.shape, at), value.view.shape
        if repeats(target.view):
            raise Refusal(at, "OutputRepeats")
        if not (tree[0] in OPERATIONS and shape == target.view.shape):
            self.operate(at, "IDENTITY", target.elem, target.elem, target.view.shape, (operand,), target)

    def do_gather(self, at, name, word_at, source, index):
        source, index = self.arrays(source, index)
        made = Value(self.make(word_at, source.elem, index.view.shape), source.elem)
        self.steps.append(("gather", made, source, index))
        self.bind(at, name, made)

    def do_scatter(self, at, place, index, values):
        target = self.value(place)
        index, values = self.arrays(index, values)
        for fault, kind in [(values.elem != target.elem, "TypeMismatch"), (index.view.shape != values.view.shape, "ShapeMismatch"),
                            (repeats(target.view), "OutputRepeats")]:
            if fault:
                raise Refusal(at, kind)
        self.steps.append(("scatter", target, index, values))

    def bind(self, at, name, value):
        if name not in self.names and len(self.names) == MOST_NAMES:
            raise Refusal(at, "TooManyNames")
        self.names[name] = value
        self.steps.append(("name", name, value.view.base))

    def make(self, at, elem, shape):
        self.live += count(shape)
        if self.live > MOST_LIVE:
            raise Refusal(at, "TooMuchLive")
        self.bases.append((elem, count(shape)))
        return in_order(len(self.bases) - 1, shape)

    def operate(self, at, code, to, source, shape, operands, into, axis=None):
        """Records an operation; it writes the view of `into` where this has its shape, else a new base."""
        direct = into is not None and into.view.shape == shape
        out = into.view if direct else self.make(at, to, shape)
        self.steps.append(("op", Op(code, to, source, out, operands, axis, None, None, not direct)))
        return Value(out, to)

    def value(self, tree, into=None):
        return getattr(self, "of_" + tree[0])(*tree[1:], *([into] if tree[0] in OPERATIONS else []))

    def array(self, tree):
        return self.arrays(tree)[0]

    def arrays(self, *trees):
        values = [self.value(tree) for tree in trees]
        for value in values:
            if isinstance(value, Literal):
                raise Refusal(value.at, "TypeMismatch")
        return values

    def held(self, literal, elem):
        if not least(elem) <= literal.number <= greatest(elem):
            raise Refusal(literal.at, "LiteralRange")
        return literal.number

    def of_literal(self, at, number):
        return Literal(number, at)

    def of_name(self, at, name):
        if name not in self.names:
            raise Refusal(at, "UnknownName")
        return self.names[name]

    def of_range(self, at, number, number_at, elem, into):
        for fault, kind in [(number == 0, "EmptyArray"), (number > MOST_ELEMENTS, "TooManyElements")]:
            if fault:
                raise Refusal(number_at, kind)
        return self.operate(at, "RANGE", elem, elem, (number,), (), into)

    def of_full(self, at, lengths, literal, elem, into):
        shape = checked_shape(*lengths)
        return self.operate(at, "IDENTITY", elem, elem, shape, (self.held(Literal(*literal), elem),), into)

    def of_unary(self, at, code, to, tree, into):
        view, elem = self.array(tree)
        return self.operate(at, code, to or elem, elem, view.shape, (view,), into)

    def of_power(self, at, tree, exponent, into):
        view, elem = self.array(tree)
        return self.operate(at, "POWER", elem, elem, view.shape, (view, exponent), into)

    def of_binary(self, at, sign, left, right, into):
        sides = self.value(left), self.value(right)
        elems = {side.elem for side in sides if isinstance(side, Value)}
        if len(elems) != 1:
            raise Refusal(at, "TypeMismatch")
        elem = elems.pop()
        sides = [self.held(side, elem) if isinstance(side, Literal) else side.view for side in sides]
        shapes = [side.shape for side in sides if isinstance(side, View)]
        shape = matched(shapes[0], shapes[-1], at)
        operands = tuple(spread(side, shape, at) if isinstance(side, View) else side for side in sides)
        return self.operate(at, SIGNS[sign], "u8" if sign in COMPARISONS else elem, elem, shape, operands, into)

    def of_fold(self, at, word, tree, axis, into):
        view, elem = self.array(tree)
        if axis[0] >= len(view.shape):
            raise Refusal(axis[1], "AxisRange")
        shape = view.shape if word in ("cumsum", "cumprod") else view.shape[:axis[0]] + view.shape[axis[0] + 1:] or (1,)
        return self.operate(at, FOLDS[word], elem, elem, shape, (view,), into, axis[0])

    def of_index(self, at, tree, slices):
        view, elem = self.array(tree)
        if len(slices) > len(view.shape):
            raise Refusal(at, "RankRange")
        taken = [sliced(length, at, *part) for length, part in zip(view.shape, slices)]
        taken += [range(length) for length in view.shape[len(slices):]]
        start = view.start + sum(indices.start * stride for indices, stride in zip(taken, view.strides))
        strides = [indices.step * stride for indices, stride in zip(taken, view.strides)]
        return Value(new_view(view.base, start, [len(indices) for indices in taken], strides), elem)

    def of_broadcast(self, at, tree, lengths):
        view, elem = self.array(tree)
        return Value(spread(view, checked_shape(*lengths), at), elem)

    def of_transpose(self, at, tree):
        view, elem = self.array(tree)
        return Value(View(view.base, view.start, view.shape[::-1], view.strides[::-1]), elem)

    def of_reshape(self, at, tree, lengths):
        view, elem = self.array(tree)
        shape = checked_shape(*lengths)
        if count(shape) != count(view.shape):
            raise Refusal(at, "CountMismatch")
        if view.strides != in_order(view.base, view.shape).strides:
            raise Refusal(at, "NotContiguous")
        return Value(in_order(view.base, shape)._replace(start=view.start), elem)

    def of_strided(self, at, tree, start, lengths, strides):
        view, elem = self.array(tree)
        shape = checked_shape(*lengths)
        if len(strides[1]) != len(shape):
            raise Refusal(strides[0], "RankRange")
        reach = [(n - 1) * s for n, s in zip(shape, strides[1])]
        if start + sum(min(r, 0) for r in reach) < 0 or start + sum(max(r, 0) for r in reach) >= self.bases[view.base][1]:
            raise Refusal(at, "OutsideBase")
        return Value(new_view(view.base, start, shape, strides[1]), elem)


def steps_of(script):
    """The steps of a script, given as bytes."""
    return Steps(reading.trees_of(script))
