#!/usr/bin/env python3
"""The rules of types, ranges, formats, encodings, behaviours, the binary interface, stages and limits, written apart from
the proved ones, on the trees of reference.py and behind the rules of names.py. Tells of a text that it keeps them all, or
the first rule that it breaks, and the first place in the text where it does. The rules that a whole description is asked
last (encodings that share a word, lines that two instructions share, parts that come too late) aren't here."""
import sys
from collections import namedtuple

import names
from names import BROKEN, Description, Name, Node, Number, Worths, place, told as told_of_names
from reference import Syntax, TokenFault, description

# what an expression is beside a whole number (an int) and a type: a whole number without a value, or nothing that may be asked
UNVALUED, UNTYPED = "unvalued", "untyped"
# what has a type, at a place for a whole number
OF_A_TYPE = "of a type"
Type = namedtuple("Type", "kind width")
BOOL = Type("Bool", 1)
MACHINE = (16, 32, 64)
RESOURCES = ("memory", "register", "file")


def start_of(e):
    """The place of the first token of an expression."""
    if isinstance(e, Node):
        if e.head in names.BINARY or e.head in ("as", "slice"):
            return start_of(e.parts[0])
        if e.head in ("call", "access", "index"):
            return e.parts[0].at
    return e.at


def is_whole(sort):
    return isinstance(sort, int) or sort == UNVALUED


def fits(number, type_):
    return number < 1 << type_.width


def common(a, b):
    """The type of two operands, of which one may be a whole number."""
    if isinstance(a, Type) and (a == b or is_whole(b)):
        return a
    return b if isinstance(b, Type) and is_whole(a) else None


class Types:
    """The places at which the rules of types and of ranges are broken."""

    def __init__(self, d):
        self.d, self.worths, self.widths, self.ranges, self.aliases = d, Worths(d), set(), set(), {}
        self.address = None
        counters = [item for item in d.items if item.head == "counter"]
        width = self.declared(counters[0].parts[1])
        self.counter = width if width and width.width in MACHINE else None
        if width:
            self.address = Type("Bits", width.width)

    # declared types
    def number(self, e):
        worth = self.worths.of(e, {})
        return worth if isinstance(worth, int) else None

    def declared(self, t):
        """What a type is, or nothing where it is at fault."""
        if isinstance(t, Name):
            if t.text not in self.aliases:
                self.aliases[t.text] = self.declared(self.d.item_of[t.text].parts[1])
            return self.aliases[t.text]
        if t.head == "Bool":
            return BOOL
        width = self.number(t.parts[0])
        return Type(t.head, width) if width is not None and 1 <= width <= 128 else None

    def whole_place(self, e, inner):
        """A place where a whole number is asked for: its value, that it has a type, or nothing; and whether a range is broken."""
        sort, broken = self.of(e, inner)
        if isinstance(sort, Type):
            self.widths.add(start_of(e))
            return OF_A_TYPE, broken
        return sort if isinstance(sort, int) else None, broken

    def type_place(self, t, inner={}):
        """A type as it is written: what it is, or nothing; and whether a range is broken in it."""
        if isinstance(t, Name):
            return self.declared(t), False
        if t.head == "Bool":
            return BOOL, False
        width, broken = self.whole_place(t.parts[0], inner)
        if not isinstance(width, int):
            return width, broken
        if not 1 <= width <= 128:
            self.ranges.add(t.at)
            return None, True
        return Type(t.head, width), broken

    # names
    def of_name(self, e, inner):
        if e.text in inner:
            return inner[e.text]
        item = self.d.item_of[e.text]
        if item.head == "constant":
            worth = self.worths.of_name(e.text, {})
            return UNVALUED if worth == BROKEN else worth
        return (self.counter if item.head == "counter" else self.declared(item.parts[1])) or UNTYPED

    # expressions
    def takes(self, e, sort, type_):
        """An expression at a place of a type: a whole number fits it. Whether a range is broken."""
        if type_ and isinstance(sort, int) and not fits(sort, type_):
            self.ranges.add(start_of(e))
            return True
        return False

    def settled(self, e, blocked, broken, type_):
        if blocked or broken:
            return UNTYPED, broken
        if type_ is None:
            self.widths.add(start_of(e))
            return UNTYPED, broken
        return type_, broken

    def of(self, e, inner):
        """What an expression is, and whether a range is broken in it."""
        if isinstance(e, Number):
            return e.value, False
        if isinstance(e, Name):
            return self.of_name(e, inner), False
        return getattr(self, "of_" + WORDS.get(e.head, e.head if e.head.isalpha() else "binary"))(e, inner)

    def of_paren(self, e, inner):
        return self.of(e.parts[0], inner)

    def of_let(self, e, inner):
        name, bound, body = e.parts
        sort, broken = self.of(bound, inner)
        got, behind = self.of(body, {**inner, name.text: sort})
        return UNTYPED if sort == UNTYPED else got, broken or behind

    def of_unary(self, e, inner):
        sort, broken = self.of(e.parts[0], inner)
        right = sort == BOOL if e.head == "!" else isinstance(sort, Type) and sort != BOOL
        return self.settled(e, sort == UNTYPED, broken, sort if right else None)

    def of_binary(self, e, inner):
        (left, a), (right, b) = (self.of(part, inner) for part in e.parts)
        if is_whole(left) and is_whole(right) and e.head in names.COMPUTED:
            if UNVALUED in (left, right):
                return UNVALUED, a or b
            return names.COMPUTED[e.head](left, right), a or b
        broken, blocked = a or b, UNTYPED in (left, right)
        if e.head in ("<<", ">>"):
            amount = is_whole(right) or isinstance(right, Type) and right.kind in ("Bits", "UInt")
            return self.settled(e, blocked, broken, left if isinstance(left, Type) and left != BOOL and amount else None)
        type_ = common(left, right)
        for part, sort in zip(e.parts, (left, right)):
            broken |= self.takes(part, sort, type_)
        if type_ and type_ == BOOL and e.head not in ("&", "|", "^", "=", "!="):
            type_ = None
        elif type_ and e.head == "*#":
            if type_.width > 64:
                self.ranges.add(e.at)
                broken = True
            type_ = Type(type_.kind, 2 * type_.width)
        elif type_ and e.head in ("=", "!=", "<", "<=", ">", ">="):
            type_ = BOOL
        return self.settled(e, blocked, broken, type_)

    def of_cast(self, e, inner):
        sort, broken = self.of(e.parts[0], inner)
        target, behind = self.type_place(e.parts[1], inner)
        broken |= behind
        if target in (None, OF_A_TYPE):
            return self.settled(e, target is None or sort == UNTYPED, broken, None)
        broken |= self.takes(e.parts[0], sort, target)
        right = is_whole(sort) or isinstance(sort, Type) and (target != BOOL or sort.width == 1)
        return self.settled(e, sort == UNTYPED, broken, target if right else None)

    def of_slice(self, e, inner):
        sort, broken = self.of(e.parts[0], inner)
        (high, a), (low, b) = (self.whole_place(part, inner) for part in e.parts[1:])
        broken |= a or b
        if isinstance(high, int) and isinstance(low, int):
            if high < low or isinstance(sort, Type) and sort != BOOL and high >= sort.width:
                self.ranges.add(e.at)
                broken = True
        right = isinstance(sort, Type) and sort != BOOL and OF_A_TYPE not in (high, low)
        blocked = sort == UNTYPED or None in (high, low)
        return self.settled(e, blocked, broken, Type("Bits", high + 1 - low) if right and not blocked and not broken else None)

    def of_join(self, e, inner):
        (high, a), (low, b) = (self.of(part, inner) for part in e.parts)
        broken, right = a or b, all(isinstance(it, Type) and it != BOOL for it in (high, low))
        if right and high.width + low.width > 128:
            self.ranges.add(e.at)
            broken = True
        return self.settled(e, UNTYPED in (high, low), broken, Type("Bits", high.width + low.width) if right else None)

    def of_if(self, e, inner):
        (condition, a), (one, b), (other, c) = (self.of(part, inner) for part in e.parts)
        type_, broken = common(one, other), a or b or c
        for part, sort in zip(e.parts[1:], (one, other)):
            broken |= self.takes(part, sort, type_)
        return self.settled(e, UNTYPED in (condition, one, other), broken, type_ if condition == BOOL else None)

    def parameters(self, item):
        if item.head == "file":
            return [self.declared(item.parts[1])], self.declared(item.parts[2])
        return [self.declared(it.parts[0]) for it in item.parts[1:-2]], self.declared(item.parts[-2])

    def of_call(self, e, inner):
        given = [self.of(part, inner) for part in e.parts[1:]]
        wanted, result = self.parameters(self.d.item_of[e.parts[0].text])
        broken = any(it for _, it in given)
        right = len(wanted) == len(given)
        if right:
            for part, (sort, _), type_ in zip(e.parts[1:], given, wanted):
                broken |= self.takes(part, sort, type_)
        blocked = any(sort == UNTYPED for sort, _ in given) or None in wanted or result is None
        right = right and all(is_whole(sort) or sort == type_ for (sort, _), type_ in zip(given, wanted))
        return self.settled(e, blocked, broken, result if right else None)

    def is_memory_right(self, text):
        item = self.d.item_of[text]
        return self.address and self.declared(item.parts[1]) == self.address and self.declared(item.parts[2]) == Type("Bits", 8)

    def of_access(self, e, inner):
        size, broken = self.whole_place(e.parts[1], inner)
        if isinstance(size, int) and not 1 <= size <= 16:
            self.ranges.add(e.at)
            broken = True
        sort, behind = self.of(e.parts[2], inner)
        broken |= behind
        broken |= self.takes(e.parts[2], sort, self.address)
        blocked = size is None or sort == UNTYPED or not self.is_memory_right(e.parts[0].text)
        right = (is_whole(sort) or sort == self.address) and size != OF_A_TYPE
        return self.settled(e, blocked, broken, Type("Bits", 8 * size) if right and not blocked and not broken else None)

    # places with a type
    def typed_place(self, e, inner, type_):
        sort, broken = self.of(e, inner)
        if type_ is None or sort == UNTYPED:
            return
        if is_whole(sort):
            self.takes(e, sort, type_)
        elif sort != type_:
            self.widths.add(start_of(e))

    def statement(self, s, inner):
        if s.head == "block":
            for part in s.parts:
                self.statement(part, inner)
        elif s.head == "let":
            name, bound, body = s.parts
            self.statement(body, {**inner, name.text: self.of(bound, inner)[0]})
        elif s.head == "if":
            sort, _ = self.of(s.parts[0], inner)
            if sort not in (UNTYPED, BOOL):
                self.widths.add(start_of(s.parts[0]))
            for part in s.parts[1:]:
                self.statement(part, inner)
        else:
            goal, value = s.parts
            if isinstance(goal, Name):
                sort = self.of_name(goal, {})
                type_ = sort if isinstance(sort, Type) else None
            elif goal.head == "index":
                self.of_call(goal, inner)
                type_ = self.parameters(self.d.item_of[goal.parts[0].text])[1]
            else:
                self.of_access(goal, inner)
                size = self.worths.of(goal.parts[1], {k: it if isinstance(it, int) else names.TYPED for k, it in inner.items()})
                type_ = Type("Bits", 8 * size) if isinstance(size, int) and 1 <= size <= 16 else None
            self.typed_place(value, inner, type_)

    # items
    def field_type(self, field):
        bits = 0
        for bounds in field.parts:
            ends = [self.number(it) for it in bounds.parts]
            if None in ends:
                return UNTYPED
            bits += abs(ends[0] - ends[-1]) + 1
        return Type("Bits", bits) if 1 <= bits <= 128 else UNTYPED

    def fields(self, text):
        item = self.d.item_of.get(text)
        return {it.head: self.field_type(it) for it in item.parts[2:]} if item and item.head == "format" else {}

    def other_width(self, t, right):
        """A type is told as a range where its width isn't right; where it has none, nothing is asked."""
        width = self.raw_width(t)
        if width is not None and not right(width):
            self.ranges.add(t.at)

    def raw_width(self, t):
        """The width that a type is declared with, whatever it is."""
        if isinstance(t, Name):
            return self.raw_width(self.d.item_of[t.text].parts[1])
        return 1 if t.head == "Bool" else self.number(t.parts[0])

    def kind_of(self, t):
        return self.kind_of(self.d.item_of[t.text].parts[1]) if isinstance(t, Name) else t.head

    def item(self, item):
        name, *parts = item.parts
        if item.head == "constant":
            self.whole_place(parts[0], {})
        elif item.head == "using":
            self.type_place(parts[0])
        elif item.head == "function":
            for parameter in parts[:-2]:
                self.type_place(parameter.parts[0])
            self.type_place(parts[-2])
            inner = {it.head: self.declared(it.parts[0]) or UNTYPED for it in parts[:-2]}
            self.typed_place(parts[-1], inner, self.declared(parts[-2]))
        elif item.head == "counter":
            self.type_place(parts[0])
            if self.kind_of(parts[0]) == "Bool":
                self.widths.add(parts[0].at)
            self.other_width(parts[0], lambda width: width in MACHINE)
        elif item.head == "memory":
            counter = [it for it in self.d.items if it.head == "counter"][0]
            width = self.raw_width(counter.parts[1])
            for t, wanted in zip(parts, (width, 8)):
                self.type_place(t)
                if wanted is not None:
                    if (self.kind_of(t), self.raw_width(t)) != ("Bits", wanted):
                        self.ranges.add(t.at)
        elif item.head in ("register", "file"):
            for t in parts[:2]:
                self.type_place(t)
            t = parts[0] if item.head == "register" else parts[1]
            if self.kind_of(t) == "Bool":
                self.widths.add(t.at)
            if item.head == "file":
                if self.kind_of(parts[0]) != "Bits":
                    self.widths.add(parts[0].at)
                for zero in parts[2:]:
                    number, _ = self.whole_place(zero, {})
                    self.takes(zero, number, self.declared(parts[0]))
        elif item.head == "format":
            self.type_place(parts[0])
            first = self.raw_width([it for it in self.d.items if it.head == "format"][0].parts[1])
            self.other_width(parts[0], lambda width: width in MACHINE and first in (None, width))
            for field in parts[1:]:
                for bounds in field.parts:
                    for bound in bounds.parts:
                        self.whole_place(bound, {})
        elif item.head == "instruction":
            self.statement(parts[1], self.fields(parts[0].text))
        elif item.head == "encoding":
            for fix in parts:
                self.whole_place(fix.parts[0], {})
        else:
            for part in parts:
                if part.head == "target":
                    number, _ = self.whole_place(part.parts[1], {})
                    if isinstance(number, int) and number > 63:
                        self.ranges.add(start_of(part.parts[1]))

    def role(self, role):
        for part in role.parts:
            if role.head in ("code", "data", "stack"):
                self.whole_place(part, {})
            else:
                number, _ = self.whole_place(part.parts[0], {})
                self.takes(part.parts[0], number, self.declared(self.d.item_of[part.head].parts[1]))

    def judge(self):
        for item in self.d.items:
            self.item(item)
        for role in self.d.roles:
            self.role(role)
        return self


WORDS = {"~": "unary", "neg": "unary", "!": "unary", "as": "cast"}


# formats and encodings
def covers(d, types):
    for item in d.items:
        if item.head != "format":
            continue
        width, named, wrong = types.raw_width(item.parts[1]), set(), []
        for field in item.parts[2:]:
            for bounds in field.parts:
                ends = [types.number(it) for it in bounds.parts]
                high, low = ends[0], ends[-1]
                bits = range(min(high, low), max(high, low) + 1)
                if high < low or bits[-1] >= width or any(bit in named for bit in bits):
                    wrong.append(field.at)
                named.update(bits)
        if not named >= set(range(width)):
            wrong.append(item.parts[0].at)
        yield from wrong


def unfit_values(d, types):
    for item in d.items:
        if item.head == "encoding":
            fields, met = types.fields(d.item_of[item.parts[0].text].parts[1].text), set()
            for fix in item.parts[1:]:
                if fix.head in met or not fits(types.number(fix.parts[0]), fields[fix.head]):
                    yield fix.at
                met.add(fix.head)


# behaviours with everything in place
class Behaviour:
    """The writes, the memory reads and the indices of an instruction, with everything in place of its names."""

    def __init__(self, d, types, item):
        self.d, self.types, self.indices = d, types, []
        self.all_reads, self.all_writes, self.accesses = set(), set(), []
        fields = types.fields(item.parts[1].text)
        inner = {text: (("field", text), type_, True, []) for text, type_ in fields.items()}
        self.paths = self.statement(item.parts[2], inner)

    # A tree is what it is compared by, its type (or whole number), whether it is made of fields, constants and casts
    # alone, and the memory reads in it; as it stands in the text it is put in place of each of its names.
    def tree(self, e, inner):
        if isinstance(e, Number):
            return ("whole", e.value), e.value, True, []
        if isinstance(e, Name):
            if e.text in inner:
                return inner[e.text]
            item = self.d.item_of[e.text]
            sort = self.types.of_name(e, {})
            if item.head == "constant":
                return ("whole", sort), sort, True, []
            self.all_reads.add(e.text)
            return ("read", e.text), sort, False, []
        if e.head == "paren":
            return self.tree(e.parts[0], inner)
        if e.head == "let":
            name, bound, body = e.parts
            return self.tree(body, {**inner, name.text: self.tree(bound, inner)})
        if e.head == "call":
            return self.call(e, inner)
        if e.head == "access":
            return self.access(e, inner)
        if e.head == "as":
            key, sort, plain, reads = self.tree(e.parts[0], inner)
            target = self.types.declared(e.parts[1]) if isinstance(e.parts[1], Name) else self.written_type(e.parts[1], inner)
            if isinstance(sort, int):
                return ("constant", target.width, sort), target, plain, reads
            signed = sort.kind == "SInt" and target.width > sort.width
            return ("as", target.width, signed, key), target, plain, reads
        if e.head == "slice":
            key, sort, _, reads = self.tree(e.parts[0], inner)
            high, low = (self.tree(part, inner)[1] for part in e.parts[1:])
            return ("slice", high, low, key), Type("Bits", high + 1 - low), False, reads
        parts = [self.tree(part, inner) for part in e.parts]
        reads = [it for part in parts for it in part[3]]
        if e.head == "join":
            return ("join", parts[0][0], parts[1][0]), Type("Bits", parts[0][1].width + parts[1][1].width), False, reads
        if e.head == "if":
            type_ = common(parts[1][1], parts[2][1])
            return ("if", parts[0][0], self.put(parts[1], type_), self.put(parts[2], type_)), type_, False, reads
        if len(parts) == 1:
            return (e.head if e.head == "neg" else "~", parts[0][0]), parts[0][1], False, reads
        return self.binary(e.head, parts, reads)

    def written_type(self, t, inner):
        return BOOL if t.head == "Bool" else Type(t.head, self.tree(t.parts[0], inner)[1])

    def put(self, part, type_):
        """A tree at a place of a type, which a whole number takes."""
        return ("constant", type_.width, part[1]) if isinstance(part[1], int) else part[0]

    def binary(self, sign, parts, reads):
        left, right = parts[0][1], parts[1][1]
        if isinstance(left, int) and isinstance(right, int) and sign in names.COMPUTED:
            number = names.COMPUTED[sign](left, right)
            return ("whole", number), number, True, []
        if sign in ("<<", ">>"):
            amount = ("constant", 128, right) if isinstance(right, int) else parts[1][0]
            return (sign, left.kind == "SInt" and sign == ">>", parts[0][0], amount), left, False, reads
        type_ = common(left, right)
        a, b = (self.put(part, type_) for part in parts)
        signed = type_.kind == "SInt"
        if sign in (">", "<="):
            a, b = b, a
        if sign in ("<", ">", "<=", ">="):
            key = ("<", signed, a, b)
            return (key if sign in "<>" else ("~", key)), BOOL, False, reads
        if sign in ("=", "!="):
            return (("=", a, b) if sign == "=" else ("~", ("=", a, b))), BOOL, False, reads
        type_ = Type(type_.kind, 2 * type_.width) if sign == "*#" else type_
        return (sign, signed and sign in ("*#", "/", "%"), a, b), type_, False, reads

    def index_at(self, e, part):
        if not part[2]:
            self.indices.append(start_of(e))

    def call(self, e, inner):
        item = self.d.item_of[e.parts[0].text]
        parts = [self.tree(part, inner) for part in e.parts[1:]]
        wanted, result = self.types.parameters(item)
        if item.head == "file":
            self.index_at(e.parts[1], parts[0])
            self.all_reads.add(e.parts[0].text)
            return ("read", e.parts[0].text, self.put(parts[0], wanted[0])), result, False, parts[0][3]
        given = {}
        for parameter, part, type_ in zip(item.parts[1:-2], parts, wanted):
            key = self.put(part, type_)
            given[parameter.head] = (key, type_, part[2], part[3])
        body = self.tree(item.parts[-1], given)
        return self.put(body, result), result, body[2], body[3]

    def access(self, e, inner):
        size = self.tree(e.parts[1], inner)[1]
        address = self.tree(e.parts[2], inner)
        memory = [it for it in self.d.items if it.head == "memory"][0].parts[0].text
        self.all_reads.add(memory)
        read = (e.parts[0].at, size, self.put(address, self.types.address))
        return ("access",) + read[1:], Type("Bits", 8 * size), False, [read] + address[3]

    # Of a statement: its writes, each with its resource, what it is compared by, its place, and the path that leads to it.
    def statement(self, s, inner, path=()):
        if s.head == "block":
            return [write for part in s.parts for write in self.statement(part, inner, path)]
        if s.head == "let":
            name, bound, body = s.parts
            return self.statement(body, {**inner, name.text: self.tree(bound, inner)}, path)
        if s.head == "if":
            self.accesses += self.tree(s.parts[0], inner)[3]
            own = object()
            return [it for k, part in enumerate(s.parts[1:]) for it in self.statement(part, inner, path + ((own, k),))]
        goal, value = s.parts
        text = goal.text if isinstance(goal, Name) else goal.parts[0].text
        key, at = None, goal.at if isinstance(goal, Name) else goal.parts[0].at
        if isinstance(goal, Node):
            part = self.tree(goal.parts[-1], inner)
            self.accesses += part[3]
            if goal.head == "index":
                self.index_at(goal.parts[-1], part)
                key = self.put(part, self.types.parameters(self.d.item_of[text])[0][0])
            else:
                key = self.put(part, self.types.address), self.tree(goal.parts[1], inner)[1]
                text = [it for it in self.d.items if it.head == "memory"][0].parts[0].text
        self.accesses += self.tree(value, inner)[3]
        self.all_writes.add(text)
        return [(text, key, at, path)]


def are_apart(one, other):
    """No path leads to both."""
    return any(a[0] is b[0] and a[1] != b[1] for a in one for b in other)


class Behaviours:
    def __init__(self, d, types):
        self.all = [Behaviour(d, types, item) for item in d.items if item.head == "instruction"]

    def two_writes(self):
        for behaviour in self.all:
            for k, (text, key, at, path) in enumerate(behaviour.paths):
                for other, other_key, _, other_path in behaviour.paths[:k]:
                    if text == other and (key != other_key or not are_apart(path, other_path)):
                        yield at

    def two_accesses(self):
        for behaviour in self.all:
            for at, *access in behaviour.accesses:
                if any(other_at <= at and other != access for other_at, *other in behaviour.accesses):
                    yield at

    def indices(self):
        for behaviour in self.all:
            yield from behaviour.indices


# the binary interface
ROLES = {"pointer", "address", "value", "arguments", "temporaries", "saved", "code", "data", "stack"}


def are_roles_right(d, types, roles):
    if len({role.head for role in roles}) < len(roles):
        return False
    registers = [(role.head, part) for role in roles if role.head not in ("code", "data", "stack") for part in role.parts]
    if len({part.head for _, part in registers}) > 1:
        return False
    for _, part in registers:
        item = d.item_of[part.head]
        if types.declared(item.parts[2]) != types.address or len(item.parts) < 4:
            return False
        if types.number(part.parts[0]) == types.number(item.parts[3]):
            return False
    index = lambda part: types.number(part.parts[0])
    others = [index(part) for head, part in registers if head not in ("value", "arguments")]
    arguments = [index(part) for head, part in registers if head == "arguments"]
    values = [index(part) for head, part in registers if head == "value"]
    if len(set(others + arguments)) < len(others + arguments) or set(values) & set(others):
        return False
    first = [it for it in d.items if it.head == "format"][0]
    ends = {}
    for role in roles:
        if role.head == "temporaries" and len(role.parts) < 3:
            return False
        if role.head in ("code", "data", "stack"):
            ends[role.head] = [types.number(part) for part in role.parts]
            by = types.raw_width(first.parts[1]) // 8 if role.head == "code" else 16
            if any(end % by for end in ends[role.head]):
                return False
    row = [end for head in ("code", "data", "stack") for end in ends.get(head, [])] + [1 << types.address.width]
    return all(a < b for a, b in zip(row, row[1:]))


def role_breaks(d, types):
    if not d.abi_name:
        return
    for k, role in enumerate(d.roles):
        if not are_roles_right(d, types, d.roles[: k + 1]):
            yield role.at
    if {role.head for role in d.roles} != ROLES:
        yield d.ends[1]


# stages
def stage_breaks(d, behaviours):
    if not d.micro_name:
        return
    acts, forwarded, stage = [], set(), -1
    for line in d.stages:
        if line.head == "forward":
            if line.parts[0].text in forwarded or d.kind(line.parts[0].text) == "memory":
                yield line.at
            forwarded.add(line.parts[0].text)
        else:
            stage += 1
            acts += [(stage, act.head, act.parts[0].text if act.parts else None, act.at) for act in line.parts[1:]]
    for k, (s, word, text, at) in enumerate(acts):
        again = any(other[1:3] == (word, text) for other in acts[:k])
        late = any(
            s > other[0] and other[1] == "write" and (word == "resolve" or word == "read" and other[2] == text) for other in acts
        )
        if again or late:
            yield at
    stand = {act[1:3] for act in acts}
    reads = {text for it in behaviours.all for text in it.all_reads if d.kind(text) in RESOURCES}
    writes = {text for it in behaviours.all for text in it.all_writes if d.kind(text) in RESOURCES}
    lacking = {("compute", None), ("resolve", None)} | {("read", it) for it in reads} | {("write", it) for it in writes}
    if not 1 <= stage + 1 <= 16 or lacking - stand:
        yield d.ends[-1]


# limits
def excesses(d, types):
    met = dict.fromkeys(("instruction", "format", "resource"), 0)
    for item in d.items:
        kind = "resource" if item.head in RESOURCES else item.head
        if kind in met:
            met[kind] += 1
            too_long = item.head == "file" and types.raw_width(item.parts[1]) > 6
            if met[kind] > {"instruction": 512, "format": 64, "resource": 16}[kind] or too_long:
                yield item.parts[0].at


def rules(d):
    """Each rule with its places, in the order in which they are asked; what a rule stands on is made when it is asked."""
    types = Types(d).judge()
    yield 6, "Width", types.widths
    yield 7, "Range", types.ranges
    yield 8, "FieldCover", set(covers(d, types))
    yield 9, "FieldValue", set(unfit_values(d, types))
    behaviours = Behaviours(d, types)
    yield 11, "TwoWrites", set(behaviours.two_writes())
    yield 12, "TwoAccesses", set(behaviours.two_accesses())
    yield 13, "IndexNotField", set(behaviours.indices())
    yield 15, "AbiRole", set(role_breaks(d, types))
    yield 16, "StageOrder", set(stage_breaks(d, behaviours))
    yield 18, "Limit", set(excesses(d, types))


NUMBERS = {"Syntax": 1, "Duplicate": 2, "Unknown": 3, "Cyclic": 4, "Overflow": 5, "Limit": 18}


def told(text):
    """`accepted`, or the number, the name and the place of the first rule that is broken."""
    front = told_of_names(text)
    if front != "accepted":
        return "%d %s" % (NUMBERS[front.split()[0]], front)
    lines = description(text)
    d = Description(lines)
    d.ends = [int(line[4:]) for line in lines.split("\n") if line.startswith("end@")]
    for number, rule, places in rules(d):
        if places:
            return "%d %s at %s" % (number, rule, place(text, min(places)))
    return "accepted"


if __name__ == "__main__":
    sys.setrecursionlimit(1000000)
    for file in sys.argv[1:]:
        print(told(open(file, encoding="utf-8", newline="").read()))
