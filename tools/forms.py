#!/usr/bin/env python3
"""Makes the cases called `form N`, in crates/vg_cases/data/forms.cases. Each is a description of the form that is built, or
one with a single thing that isn't of the form, in which numbers, types and behaviours are hidden behind constants, aliases,
functions and `let`. The answer is known from what was hidden. With --check it changes nothing, and fails where the table
isn't as it would make it. With a seed and a number it prints other cases."""
import random
import sys

from cases import case, keep
from widths import told

FIELDS = [("f7", 31, 25), ("rs2", 24, 20), ("rs1", 19, 15), ("f3", 14, 12), ("rd", 11, 7), ("op", 6, 0)]
# Few names, among them those of fields, so that inner names hide fields and one another.
INNER = ["a", "b", "c", "d", "rs1", "rs2", "rd", "f3"]
REGISTER, WORD = 5, 32


class Name:
    def __init__(self, text, width):
        self.text, self.width, self.parts = text, width, []

    def free(self):
        return {self.text}

    def over(self, texts):
        return self.text


class Over:
    """An operator over parts: a register, a cast to a word, or a sum. Its width is that of a word."""

    def __init__(self, spelling, *parts):
        self.spelling, self.parts, self.width = spelling, list(parts), WORD

    def free(self):
        return {name for part in self.parts for name in part.free()}

    def over(self, texts):
        return self.spelling % tuple(texts)

    def with_part(self, k, part):
        return Over(self.spelling, *(self.parts[:k] + [part] + self.parts[k + 1 :]))


def register(index):
    return Over("X(%s)", index)


def cast(operand):
    return Over("(%s as Bits<32>)", operand)


def total(left, right):
    return Over("(%s + %s)", left, right)


class Hidden:
    """One description: the items that things are hidden behind, in any order."""

    def __init__(self, draw):
        self.draw, self.items, self.count = draw, [], 0

    def fresh(self, prefix):
        self.count += 1
        return "%s%d" % (prefix, self.count)

    def number(self, value, depth=2):
        """A text that is worth this, where no inner name is in scope."""
        draw, way = self.draw, self.draw.randrange(7 if depth else 2)
        if way < 2:
            return draw.choice([str, hex, bin])(value)
        if way == 2:
            name = self.fresh("k")
            self.items.append("constant %s = %s" % (name, self.number(value, depth - 1)))
            return name
        if way == 3:
            more = draw.randrange(50)
            return self.two(value + more, "-", more, depth)
        if way == 4:
            less = draw.randrange(value + 1)
            return self.two(less, "+", value - less, depth)
        if way == 5:
            times = draw.randrange(1, 9)
            return self.two(value * times + draw.randrange(times), "/", times, depth)
        divisor = value + draw.randrange(1, 9)
        return self.two(value + divisor * draw.randrange(3), "%", divisor, depth)

    def two(self, left, sign, right, depth):
        return "(%s %s %s)" % (self.number(left, depth - 1), sign, self.number(right, depth - 1))

    def type(self, width, depth=2):
        if depth == 0 or self.draw.randrange(2):
            return "Bits<%s>" % self.number(width, 1)
        name = self.fresh("Alias")
        self.items.append("using %s = %s" % (name, self.type(width, depth - 1)))
        return name

    def function(self, parameters, body, depth):
        """A new function of these names and widths, whose body is a word."""
        name = self.fresh("g")
        row = ", ".join("%s : %s" % (text, self.type(width)) for text, width in parameters)
        self.items.append("function %s(%s) -> %s = %s" % (name, row, self.type(body.width), self.text(body, depth)))
        return name

    def inner(self, *taken):
        """A name that none of these trees uses."""
        used = {name for tree in taken for name in tree.free()}
        return self.draw.choice([name for name in INNER if name not in used])

    def text(self, tree, depth):
        """A text for which the tree stands; it uses the names that the tree uses."""
        ways = [self.plain, self.plain, self.parenthesized, self.let_alone, self.called_alone, self.let_part, self.called]
        return self.draw.choice(ways if depth else ways[:1])(tree, depth)

    def plain(self, tree, depth):
        return tree.over([self.text(part, max(depth - 1, 0)) for part in tree.parts])

    def parenthesized(self, tree, depth):
        return "(%s)" % self.text(tree, depth - 1)

    def let_alone(self, tree, depth):
        name = self.draw.choice(INNER)
        return "(let %s = %s in %s)" % (name, self.text(tree, depth - 1), self.text(Name(name, tree.width), depth - 1))

    def called_alone(self, tree, depth):
        name = self.draw.choice(INNER)
        function = self.function([(name, tree.width)], Name(name, tree.width), depth - 1)
        return "%s(%s)" % (function, self.text(tree, depth - 1))

    def split(self, tree, *others):
        """A part of the tree, a name for it that the others don't use, and the tree with this name."""
        k = self.draw.randrange(len(tree.parts))
        name = Name(self.inner(*others, *tree.parts[:k], *tree.parts[k + 1 :]), tree.parts[k].width)
        return tree.parts[k], name.text, tree.with_part(k, name)

    def let_part(self, tree, depth):
        if not tree.parts:
            return self.plain(tree, depth)
        part, name, rest = self.split(tree)
        return "(let %s = %s in %s)" % (name, self.text(part, depth - 1), self.text(rest, depth - 1))

    def called(self, tree, depth):
        if not tree.parts:
            return self.plain(tree, depth)
        names = [Name(text, part.width) for text, part in zip(self.draw.sample(INNER, len(tree.parts)), tree.parts)]
        order = list(range(len(names)))
        self.draw.shuffle(order)
        function = self.function([(names[k].text, names[k].width) for k in order], Over(tree.spelling, *names), depth - 1)
        return "%s(%s)" % (function, ", ".join(self.text(tree.parts[k], depth - 1) for k in order))

    def behaviour(self, value, depth):
        front, target = "", Name("rd", REGISTER)
        if self.draw.randrange(2):
            part, name, value = self.split(value, target)
            front = "let %s = %s in " % (name, self.text(part, depth))
        return "%sX(%s) := %s" % (front, self.text(target, 1), self.text(value, depth))


def declarations(hidden):
    number, type = hidden.number, hidden.type
    fields = ", ".join("%s [%s..%s]" % (name, number(high), number(low)) for name, high, low in FIELDS)
    return [
        "program counter PC : %s" % type(WORD),
        "memory MEM : %s -> %s" % (type(WORD), type(8)),
        "register file X : %s -> %s zero %s" % (type(REGISTER), type(WORD), number(0)),
        "format R : %s = { %s }" % (type(WORD), fields),
    ]


def values():
    """The two values of the form, and some that aren't of it."""
    rd, rs1, rs2 = (Name(text, REGISTER) for text in ("rd", "rs1", "rs2"))
    left, right, wide = register(rs1), register(rs2), cast(rs2)
    good = [total(left, right), total(left, wide)]
    return good, [total(right, left), total(wide, left), total(left, left), total(left, register(rd)), total(left, cast(rs1))]


def description(draw):
    """A text, and what is answered to it."""
    hidden, wrong = Hidden(draw), None
    good, bad = values()
    items = declarations(hidden)
    pairs = draw.randrange(1, 5)
    for k, code in enumerate(draw.sample(range(1 << 17), pairs)):
        value = draw.choice(good)
        f7, f3, op = code >> 10, code >> 7 & 7, code & 127
        if wrong is None and draw.randrange(8) == 0:
            value, wrong = draw.choice(bad), len(items)
        items.append("instruction I%d : R = %s" % (k, hidden.behaviour(value, draw.randrange(5))))
        if wrong is None and draw.randrange(16) == 0:
            f3, wrong = f3 + 8, len(items)
        items.append("encoding I%d = { f7 = %s, f3 = %s, op = %s }" % (k, *map(hidden.number, (f7, f3, op))))
    draw.shuffle(hidden.items)
    places = sorted(draw.randrange(len(items) + 1) for _ in hidden.items)
    lines, line = [], None
    for k in range(len(items) + 1):
        while places and places[0] == k:
            places.pop(0)
            lines.append(hidden.items.pop())
        if k == wrong:
            line = len(lines) + 2
        lines += items[k : k + 1]
    text = "instruction set architecture T = {\n%s}\n" % "".join("  %s\n" % it for it in lines)
    rule = told(text)
    if rule != "accepted":
        return text, "refused: description " + rule
    return text, "ok T %d" % pairs if line is None else "refused: not built at %d:3" % line


def made(seed, number):
    draw = random.Random(seed)
    cases = []
    for k in range(1, number + 1):
        text, answer = description(draw)
        cases.append(case("form %d" % k, "check d.vadl", [("d.vadl", text)], answer))
    return cases


if len(sys.argv) == 3:
    print("".join(made(*map(int, sys.argv[1:]))), end="")
else:
    keep("forms.cases", made(1, 100))
