#!/usr/bin/env python3
"""The rules of names, constants and sizes, written apart from the proved ones, on the trees of reference.py. Tells of a
text that it is accepted, or the first rule that it breaks, and the first place in the text where it does. A place is a
line and a column in bytes, both from 1."""
import re
import sys
from collections import namedtuple
from functools import lru_cache

from reference import Syntax, TokenFault, description

Name = namedtuple("Name", "text at")
Number = namedtuple("Number", "value at")
# anything in parentheses: what it is or what it is called, the place of that, and its parts
Node = namedtuple("Node", "head at parts")


# from the printed trees
def leaf(word):
    text, _, at = word.rpartition("@")
    if text[0].isdigit():
        return Number(int(text), int(at))
    return Node("Bool", int(at), ()) if text == "Bool" else Name(text, int(at))


def tree(line):
    open_nodes = [[]]
    for word in re.findall(r'\(|\)|"[^"]*"|[^\s()"]+', line):
        if word == "(":
            open_nodes.append([])
        elif word == ")":
            head, *parts = open_nodes.pop()
            open_nodes[-1].append(Node(*head, tuple(parts)))
        elif len(open_nodes) > 1 and not open_nodes[-1]:
            text, mark, at = word.rpartition("@")
            open_nodes[-1].append((text, int(at)) if mark else (word, None))
        elif word[0] != '"':
            open_nodes[-1].append(leaf(word))
    return open_nodes[0][0]


def name_of(node):
    """The name of a parameter, a field, a fix or a register, which its node is called by."""
    return Name(node.head, node.at)


class Description:
    def __init__(self, lines):
        self.items, self.roles, self.stages = [], [], []
        self.abi_name = self.micro_name = self.close = None
        part = self.items
        for line in lines.split("\n"):
            if re.fullmatch(r"end@\d+", line):
                self.close = self.close or leaf(line).at
                continue
            node = tree(line)
            if node.head == "isa":
                self.name = node.parts[0]
            elif node.head == "abi":
                self.abi_name, part = node.parts[0], self.roles
            elif node.head == "micro":
                self.micro_name, part = node.parts[0], self.stages
            else:
                part.append(node)
        # where a name is defined twice, its first item: no rule but the first asks
        self.item_of = {}
        for item in self.items:
            if item.head in DEFINING:
                self.item_of.setdefault(item.parts[0].text, item)

    def kind(self, text):
        return self.item_of[text].head if text in self.item_of else None

    def format_fields(self, format_name):
        if self.kind(format_name) != "format":
            return frozenset()
        return frozenset(field.head for field in self.item_of[format_name].parts[2:])

    def instruction_fields(self, instruction_name):
        if self.kind(instruction_name) != "instruction":
            return frozenset()
        return self.format_fields(self.item_of[instruction_name].parts[1].text)


DEFINING = {"constant", "using", "function", "counter", "memory", "register", "file", "format", "instruction"}
REPLACED = {"constant", "using", "function"}


def parameters(function):
    return frozenset(parameter.head for parameter in function.parts[1:-2])


# Duplicate
def claims(d):
    """What stands once in its scope, with the name at which a second one is told."""
    for item in d.items:
        name = item.parts[0]
        if item.head in DEFINING:
            yield ("item", name.text), name
        if item.head in ("counter", "memory"):
            yield (item.head,), name
        if item.head in ("encoding", "assembly"):
            yield (item.head, name.text), name
        if item.head == "function":
            for parameter in item.parts[1:-2]:
                yield ("parameter", item.at, parameter.head), name_of(parameter)
        if item.head == "format":
            for field in item.parts[2:]:
                yield ("field", item.at, field.head), name_of(field)
        if item.head == "assembly":
            for part in item.parts[1:]:
                if part.head == "register":
                    yield ("operand", item.at, part.parts[1].text), part.parts[1]
                elif part.head in ("decimal", "signed", "hex", "target"):
                    yield ("operand", item.at, part.parts[0].text), part.parts[0]
    for line in d.stages:
        if line.head == "stage":
            yield ("stage", line.parts[0].text), line.parts[0]


def duplicates(d):
    met = set()
    for claim, name in claims(d):
        if claim in met:
            yield name.at
        met.add(claim)


# Every use of a name: what its place asks for, the name, and the inner names there. Where the grammar asks for a field,
# the inner names are the fields of the format.
NOTHING = frozenset()


def expression_uses(e, inner=NOTHING):
    if isinstance(e, Number):
        return
    if isinstance(e, Name):
        yield "value", e, inner
    elif e.head == "let":
        name, bound, body = e.parts
        yield from expression_uses(bound, inner)
        yield from expression_uses(body, inner | {name.text})
    elif e.head == "as":
        yield from expression_uses(e.parts[0], inner)
        yield from type_uses(e.parts[1], inner)
    elif e.head in ("call", "access"):
        yield {"call": "callable", "access": "memory"}[e.head], e.parts[0], inner
        for part in e.parts[1:]:
            yield from expression_uses(part, inner)
    else:
        for part in e.parts:
            yield from expression_uses(part, inner)


def type_uses(t, inner=NOTHING):
    if isinstance(t, Name):
        yield "alias", t, inner
    else:
        for width in t.parts:
            yield from expression_uses(width, inner)


def statement_uses(s, inner):
    if s.head == "block":
        for part in s.parts:
            yield from statement_uses(part, inner)
    elif s.head == "let":
        name, bound, body = s.parts
        yield from expression_uses(bound, inner)
        yield from statement_uses(body, inner | {name.text})
    elif s.head == "if":
        yield from expression_uses(s.parts[0], inner)
        for part in s.parts[1:]:
            yield from statement_uses(part, inner)
    else:
        goal, value = s.parts
        if isinstance(goal, Name):
            yield "single goal", goal, inner
        else:
            yield {"index": "register file", "access": "memory"}[goal.head], goal.parts[0], inner
            for part in goal.parts[1:]:
                yield from expression_uses(part, inner)
        yield from expression_uses(value, inner)


def register_uses(register):
    yield "register file", name_of(register), NOTHING
    yield from expression_uses(register.parts[0])


def item_uses(d, item):
    name, *parts = item.parts
    if item.head == "constant":
        yield from expression_uses(parts[0])
    elif item.head == "function":
        for parameter in parts[:-2]:
            yield from type_uses(parameter.parts[0])
        yield from type_uses(parts[-2])
        yield from expression_uses(parts[-1], parameters(item))
    elif item.head == "file":
        yield from type_uses(parts[0])
        yield from type_uses(parts[1])
        for zero in parts[2:]:
            yield from expression_uses(zero)
    elif item.head in ("using", "counter", "memory", "register"):
        for part in parts:
            yield from type_uses(part)
    elif item.head == "format":
        yield from type_uses(parts[0])
        for field in parts[1:]:
            for bounds in field.parts:
                for bound in bounds.parts:
                    yield from expression_uses(bound)
    elif item.head == "instruction":
        yield "format", parts[0], NOTHING
        yield from statement_uses(parts[1], d.format_fields(parts[0].text))
    else:
        yield "instruction", name, NOTHING
        fields = d.instruction_fields(name.text)
        for part in parts:
            yield from (fix_uses if item.head == "encoding" else part_uses)(part, fields)


def fix_uses(fix, fields):
    yield "field", name_of(fix), fields
    yield from expression_uses(fix.parts[0])


def part_uses(part, fields):
    if part.head == "register":
        yield "register file", part.parts[0], NOTHING
        yield "field", part.parts[1], fields
    elif part.head in ("decimal", "signed", "hex", "target"):
        yield "field", part.parts[0], fields
        for shift in part.parts[1:]:
            yield from expression_uses(shift)


def role_uses(role):
    for part in role.parts:
        yield from expression_uses(part) if role.head in ("code", "data", "stack") else register_uses(part)


def line_uses(line):
    resources = [line.parts[0]] if line.head == "forward" else [part for act in line.parts[1:] for part in act.parts]
    for resource in resources:
        yield "resource", resource, NOTHING


def uses(d):
    for item in d.items:
        yield from item_uses(d, item)
    for role in d.roles:
        yield from role_uses(role)
    for line in d.stages:
        yield from line_uses(line)


# Unknown
RIGHT = {
    "value": {"constant", "counter", "register"},
    "callable": {"function", "file"},
    "alias": {"using"},
    "memory": {"memory"},
    "register file": {"file"},
    "single goal": {"counter", "register"},
    "format": {"format"},
    "instruction": {"instruction"},
    "resource": {"memory", "register", "file"},
}


def is_known(d, asked, name, inner):
    if asked == "field":
        return name.text in inner
    # an inner name, a field of the instruction's format as well, hides an item at every use
    if name.text in inner:
        return asked == "value"
    return d.kind(name.text) in RIGHT[asked]


def unknowns(d):
    for asked, name, inner in uses(d):
        if not is_known(d, asked, name, inner):
            yield name.at
    heads = {item.head for item in d.items}
    if not heads >= {"counter", "memory", "instruction"}:
        yield d.close
    encoded = {item.parts[0].text for item in d.items if item.head == "encoding"}
    for item in d.items:
        if item.head == "instruction" and item.parts[0].text not in encoded:
            yield item.parts[0].at
    for other in (d.abi_name, d.micro_name):
        if other and other.text != d.name.text:
            yield other.at


# Cyclic
def cyclics(d):
    used = {}
    for text, item in d.item_of.items():
        if item.head in REPLACED:
            outer = {name.text for asked, name, inner in item_uses(d, item) if name.text not in inner}
            used[text] = {other for other in outer if d.kind(other) in REPLACED}
    for text in used:
        reached, new = set(), list(used[text])
        while new:
            other = new.pop()
            if other not in reached:
                reached.add(other)
                new.extend(used[other])
        if text in reached:
            yield d.item_of[text].parts[0].at


# Overflow: an expression is worth a whole number, or is broken, or is TYPED, which is all that isn't a whole number.
BROKEN, TYPED = "broken", "typed"
COMPUTED = {
    "+": lambda a, b: a + b,
    "-": lambda a, b: a - b,
    "*": lambda a, b: a * b,
    "/": lambda a, b: a // b if b else -1,
    "%": lambda a, b: a % b if b else -1,
}
BINARY = set("| ^ & = != < <= > >= << >> + - * *# / %".split())


def binary_worth(sign, a, b):
    if TYPED in (a, b) or sign not in COMPUTED:
        return TYPED
    if BROKEN in (a, b):
        return BROKEN
    n = COMPUTED[sign](a, b)
    return n if 0 <= n < 2 ** 128 else BROKEN


class Worths:
    """What expressions are worth, and the operators that leave the whole numbers."""

    def __init__(self, d):
        self.d, self.constants, self.faults = d, {}, set()

    def of_name(self, text, inner):
        if text in inner:
            return inner[text]
        if self.d.kind(text) != "constant":
            return TYPED
        if text not in self.constants:
            # a constant whose expression is no whole number is one without a value
            worth = self.of(self.d.item_of[text].parts[1], {})
            self.constants[text] = BROKEN if worth == TYPED else worth
        return self.constants[text]

    def of(self, e, inner):
        if isinstance(e, Number):
            return e.value
        if isinstance(e, Name):
            return self.of_name(e.text, inner)
        if e.head == "paren":
            return self.of(e.parts[0], inner)
        if e.head == "let":
            name, bound, body = e.parts
            return self.of(body, {**inner, name.text: self.of(bound, inner)})
        if e.head == "as":
            self.of(e.parts[0], inner)
            self.of_type(e.parts[1], inner)
            return TYPED
        parts = [self.of(part, inner) for part in (e.parts[1:] if e.head in ("call", "access") else e.parts)]
        if e.head not in BINARY:
            return TYPED
        worth = binary_worth(e.head, *parts)
        if worth == BROKEN and BROKEN not in parts:
            self.faults.add(e.at)
        return worth

    def of_type(self, t, inner):
        if isinstance(t, Node):
            for width in t.parts:
                self.of(width, inner)

    def of_statement(self, s, inner):
        if s.head == "block":
            for part in s.parts:
                self.of_statement(part, inner)
        elif s.head == "let":
            name, bound, body = s.parts
            self.of_statement(body, {**inner, name.text: self.of(bound, inner)})
        elif s.head == "if":
            self.of(s.parts[0], inner)
            for part in s.parts[1:]:
                self.of_statement(part, inner)
        else:
            goal, value = s.parts
            if isinstance(goal, Node):
                for part in goal.parts[1:]:
                    self.of(part, inner)
            self.of(value, inner)

    def of_item(self, item):
        name, *parts = item.parts
        if item.head == "constant":
            self.of_name(name.text, {})
        elif item.head == "function":
            for parameter in parts[:-2]:
                self.of_type(parameter.parts[0], {})
            self.of_type(parts[-2], {})
            self.of(parts[-1], dict.fromkeys(parameters(item), TYPED))
        elif item.head == "instruction":
            self.of_statement(parts[1], dict.fromkeys(self.d.format_fields(parts[0].text), TYPED))
        elif item.head == "format":
            self.of_type(parts[0], {})
            for field in parts[1:]:
                for bounds in field.parts:
                    for bound in bounds.parts:
                        self.of(bound, {})
        elif item.head == "encoding":
            for fix in parts:
                self.of(fix.parts[0], {})
        elif item.head == "assembly":
            for part in parts:
                if part.head == "target":
                    self.of(part.parts[1], {})
        else:
            for part in parts[:2]:
                self.of_type(part, {})
            for zero in parts[2:]:
                self.of(zero, {})


def overflows(d):
    worths = Worths(d)
    for item in d.items:
        worths.of_item(item)
    for role in d.roles:
        for part in role.parts:
            worths.of(part if role.head in ("code", "data", "stack") else part.parts[0], {})
    return worths.faults


# Limit
MOST_NODES = 4096


class Nodes:
    """How many nodes trees have with everything in place of its names. Inner names stand for a worth and a number."""

    def __init__(self, d):
        self.d, self.worths = d, Worths(d)
        self.constants = {}
        self.call = lru_cache(None)(self.call)

    def constant(self, text):
        # the name of a constant is a whole number, so one node; that it has no value is for a later rule
        if text not in self.constants:
            worth = self.of(self.d.item_of[text].parts[1], {})[0]
            self.constants[text] = BROKEN if worth == TYPED else worth, 1
        return self.constants[text]

    def call(self, text, arguments):
        item = self.d.item_of[text]
        if item.head == "file":
            return 1 + sum(arguments)
        names = [parameter.head for parameter in item.parts[1:-2]]
        # how many arguments there are is no matter of these rules: one that lacks has no nodes, one too many isn't put
        # anywhere
        given = arguments + (0,) * len(names)
        return self.of(item.parts[-1], {name: (TYPED, n) for name, n in zip(names, given)})[1]

    def of(self, e, inner):
        """The worth of an expression, and its nodes."""
        if isinstance(e, Number):
            return e.value, 1
        if isinstance(e, Name):
            if e.text in inner:
                return inner[e.text]
            return self.constant(e.text) if self.d.kind(e.text) == "constant" else (TYPED, 1)
        if e.head == "paren":
            return self.of(e.parts[0], inner)
        if e.head == "let":
            name, bound, body = e.parts
            return self.of(body, {**inner, name.text: self.of(bound, inner)})
        if e.head == "call":
            return TYPED, self.call(e.parts[0].text, tuple(self.of(part, inner)[1] for part in e.parts[1:]))
        counted = {"as": e.parts[:1], "slice": e.parts[:1], "access": e.parts[2:]}.get(e.head, e.parts)
        parts = [self.of(part, inner) for part in counted]
        worth = binary_worth(e.head, *(part[0] for part in parts)) if e.head in BINARY else TYPED
        # a whole number is one node, also where a constant in it has no value
        return worth, 1 + sum(part[1] for part in parts) if worth == TYPED else 1

    def of_statement(self, s, inner):
        if s.head == "block":
            return sum(self.of_statement(part, inner) for part in s.parts)
        if s.head == "let":
            name, bound, body = s.parts
            return self.of_statement(body, {**inner, name.text: self.of(bound, inner)})
        if s.head == "if":
            return 1 + self.of(s.parts[0], inner)[1] + sum(self.of_statement(part, inner) for part in s.parts[1:])
        goal, value = s.parts
        # an index or an address is the last part of a goal
        index = self.of(goal.parts[-1], inner)[1] if isinstance(goal, Node) else 0
        return index + self.of(value, inner)[1]


def excesses(d):
    nodes = Nodes(d)
    for item in d.items:
        if item.head == "instruction":
            fields = dict.fromkeys(d.format_fields(item.parts[1].text), (TYPED, 1))
            if nodes.of_statement(item.parts[2], fields) > MOST_NODES:
                yield item.parts[0].at


RULES = [("Duplicate", duplicates), ("Unknown", unknowns), ("Cyclic", cyclics), ("Overflow", overflows), ("Limit", excesses)]


def place(text, at):
    lines = text[:at].split("\n")
    return "%d:%d" % (len(lines), len(lines[-1].encode()) + 1)


def told(text):
    try:
        d = Description(description(text))
    except (TokenFault, Syntax) as fault:
        return "Syntax at " + place(text, fault.args[0])
    for rule, broken_at in RULES:
        places = list(broken_at(d))
        if places:
            return "%s at %s" % (rule, place(text, min(places)))
    return "accepted"


if __name__ == "__main__":
    sys.setrecursionlimit(1000000)
    for row in open(sys.argv[1], encoding="utf-8", newline="").read().split("########\n"):
        title, text = row.split("====\n", 1)
        print(title, end="")
        print(told(text))
