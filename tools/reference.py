#!/usr/bin/env python3
"""A reader of descriptions, written apart from the proved one: tokens, grammar by backtracking-free descent with a
token index, pieces and the place where a text leaves the grammar. Prints trees as crates/vg_trees does."""
import sys

WORDS = """instruction set architecture constant using function program counter memory register file zero format encoding
assembly mnemonic decimal signed hex target Bits UInt SInt Bool let in if then else as join application binary interface
for stack pointer return address value arguments temporaries saved code data micro stage forward read write compute
resolve""".split()
SIGNS = [":=", "->", "..", "*#", "<<", ">>", "<=", ">=", "!="] + list("{}()[]<>,:=+-*/%&|^~!")
SIGNS.sort(key=lambda s: -len(s))


class TokenFault(Exception):
    pass


class Syntax(Exception):
    pass


def tokens(text):
    out, i = [], 0
    while i < len(text):
        c = text[i]
        if c in " \t\r\n":
            i += 1
        elif text.startswith("//", i):
            j = text.find("\n", i)
            i = len(text) if j < 0 else j
        elif text.startswith("/*", i):
            j = text.find("*/", i + 2)
            if j < 0:
                raise TokenFault(i)
            i = j + 2
        elif c == "_" or c.isidentifier():
            j = i
            while j < len(text) and (text[j] == "_" or ("a" + text[j]).isidentifier()):
                j += 1
            w = text[i:j]
            out.append(("word" if w in WORDS else "name", w, i, j))
            i = j
        elif c.isdigit():
            base, digits, j = 10, "0123456789", i
            if text[i:i + 2] == "0x" and i + 2 < len(text) and text[i + 2] in "0123456789abcdefABCDEF":
                base, digits, j = 16, "0123456789abcdefABCDEF", i + 2
            elif text[i:i + 2] == "0b" and i + 2 < len(text) and text[i + 2] in "01":
                base, digits, j = 2, "01", i + 2
            s = ""
            while j < len(text):
                if text[j] in digits:
                    s += text[j]
                    j += 1
                elif text[j] == "'" and s and j + 1 < len(text) and text[j + 1] in digits:
                    j += 1
                else:
                    break
            v = int(s, base)
            if v >= 2 ** 128:
                raise TokenFault(i)
            if j < len(text) and ("a" + text[j]).isidentifier():
                raise TokenFault(j)
            out.append(("number", v, i, j))
            i = j
        elif c == '"':
            j = i + 1
            while j < len(text) and 0x20 <= ord(text[j]) <= 0x7E and text[j] not in '"\\;:':
                j += 1
            if j == i + 1 or j >= len(text) or text[j] != '"':
                raise TokenFault(i)
            out.append(("string", text[i + 1:j], i, j + 1))
            i = j + 1
        else:
            for s in SIGNS:
                if text.startswith(s, i):
                    out.append(("sign", s, i, i + len(s)))
                    i += len(s)
                    break
            else:
                raise TokenFault(i)
    return out


LEADING = set("""constant using function program memory register format instruction encoding assembly stack return
arguments temporaries saved code data stage forward""".split())


def pieces(ts):
    out, braces, parens, fresh = [], 0, 0, True
    for t in ts:
        closes = braces == 1 and t[:2] == ("sign", "}")
        if fresh or closes or (braces == 1 and parens == 0 and t[0] == "word" and t[1] in LEADING):
            out.append([])
        out[-1].append(t)
        fresh = closes
        if t[0] == "sign":
            braces += {"{": 1, "}": -1}.get(t[1], 0)
            parens += {"(": 1, ")": -1}.get(t[1], 0)
    return out


# trees are (text, depth); expressions are (text, depth, level)
BINARY = [{"|"}, {"^"}, {"&"}, {"=", "!="}, {"<", "<=", ">", ">="}, {"<<", ">>"}, {"+", "-"}, {"*", "*#", "/", "%"}]


class Reader:
    def __init__(self, ts):
        self.ts, self.i = ts, 0

    def peek(self, k=0):
        return self.ts[self.i + k][:2] if self.i + k < len(self.ts) else (None, None)

    def take(self, kind, what=None):
        k, w = self.peek()
        if k != kind or (what is not None and w != what):
            raise Syntax()
        self.i += 1
        return self.ts[self.i - 1]

    def sign(self, s):
        return self.take("sign", s)[2]

    def word(self, w):
        return self.take("word", w)[2]

    def name(self):
        t = self.take("name")
        return "%s@%d" % (t[1], t[2])

    def is_sign(self, s):
        return self.peek() == ("sign", s)

    def is_word(self, w):
        return self.peek() == ("word", w)

    def deep(self, text, parts):
        d = 1 + max(parts, default=0)
        if d > 64:
            raise Syntax()
        return text, d

    def attempt(self, f):
        start = self.i
        try:
            return f()
        except Syntax:
            self.i = start
            return None

    # expressions
    def expr(self):
        if self.is_word("if"):
            at = self.word("if")
            c = self.expr()
            self.word("then")
            a = self.expr()
            self.word("else")
            b = self.expr()
            return self.deep("(if@%d %s %s %s)" % (at, c[0], a[0], b[0]), [c[1], a[1], b[1]])
        if self.is_word("let"):
            at = self.word("let")
            n = self.name()
            self.sign("=")
            b = self.expr()
            self.word("in")
            e = self.expr()
            return self.deep("(let@%d %s %s %s)" % (at, n, b[0], e[0]), [b[1], e[1]])
        return self.level(0)

    def level(self, k):
        if k == len(BINARY):
            return self.cast()
        left = self.level(k + 1)
        while self.peek()[0] == "sign" and self.peek()[1] in BINARY[k]:
            op = self.take("sign")
            right = self.level(k + 1)
            left = self.deep("(%s@%d %s %s)" % (op[1], op[2], left[0], right[0]), [left[1], right[1]])
            if k in (3, 4):
                break
        return left

    def sum(self):
        return self.level(6)

    def cast(self):
        left = self.unary()
        while self.is_word("as"):
            at = self.word("as")
            t = self.type()
            left = self.deep("(as@%d %s %s)" % (at, left[0], t[0]), [left[1], t[1]])
        return left

    def unary(self):
        for s, shown in (("~", "~"), ("-", "neg"), ("!", "!")):
            if self.is_sign(s):
                at = self.sign(s)
                e = self.unary()
                return self.deep("(%s@%d %s)" % (shown, at, e[0]), [e[1]])
        e = self.primary()
        while self.is_sign("["):
            at = self.sign("[")
            h = self.expr()
            self.sign("..")
            l = self.expr()
            self.sign("]")
            e = self.deep("(slice@%d %s %s %s)" % (at, e[0], h[0], l[0]), [e[1], h[1], l[1]])
        return e

    def access(self):
        n = self.name()
        less = self.sign("<")
        size = self.sum()
        self.sign(">")
        self.sign("(")
        a = self.expr()
        self.sign(")")
        return self.deep("(access@%d %s %s %s)" % (less, n, size[0], a[0]), [size[1], a[1]])

    def looks_like_access(self):
        """Whether NAME < sum > ( stands here, by trying."""
        start = self.i
        try:
            self.name()
            self.sign("<")
            self.sum()
            self.sign(">")
            self.sign("(")
            return True
        except Syntax:
            return False
        finally:
            self.i = start

    def primary(self):
        k, w = self.peek()
        if k == "number":
            t = self.take("number")
            return "%d@%d" % (t[1], t[2]), 1
        if k == "name":
            if self.peek(1) == ("sign", "("):
                n = self.name()
                self.sign("(")
                args = []
                if not self.is_sign(")"):
                    args.append(self.expr())
                    while self.is_sign(","):
                        self.sign(",")
                        args.append(self.expr())
                self.sign(")")
                return self.deep("(call %s%s)" % (n, "".join(" " + a[0] for a in args)), [a[1] for a in args])
            if self.peek(1) == ("sign", "<") and self.looks_like_access():
                return self.access()
            return self.name(), 1
        if self.is_word("join"):
            at = self.word("join")
            self.sign("(")
            a = self.expr()
            self.sign(",")
            b = self.expr()
            self.sign(")")
            return self.deep("(join@%d %s %s)" % (at, a[0], b[0]), [a[1], b[1]])
        if self.is_sign("("):
            at = self.sign("(")
            e = self.expr()
            self.sign(")")
            return self.deep("(paren@%d %s)" % (at, e[0]), [e[1]])
        raise Syntax()

    def type(self):
        for k in ("Bits", "UInt", "SInt"):
            if self.is_word(k):
                at = self.word(k)
                self.sign("<")
                e = self.sum()
                self.sign(">")
                return "(%s@%d %s)" % (k, at, e[0]), e[1]
        if self.is_word("Bool"):
            return "Bool@%d" % self.word("Bool"), 1
        return self.name(), 1

    # statements
    def statement(self):
        if self.is_sign("{"):
            at = self.sign("{")
            inner = []
            while not self.is_sign("}"):
                inner.append(self.statement())
            self.sign("}")
            return self.deep("(block@%d%s)" % (at, "".join(" " + s[0] for s in inner)), [s[1] for s in inner])
        if self.is_word("let"):
            at = self.word("let")
            n = self.name()
            self.sign("=")
            b = self.expr()
            self.word("in")
            s = self.statement()
            return self.deep("(let@%d %s %s %s)" % (at, n, b[0], s[0]), [b[1], s[1]])
        if self.is_word("if"):
            at = self.word("if")
            c = self.expr()
            self.word("then")
            s = self.statement()
            if self.is_word("else"):
                self.word("else")
                t = self.statement()
                return self.deep("(if@%d %s %s %s)" % (at, c[0], s[0], t[0]), [c[1], s[1], t[1]])
            return self.deep("(if@%d %s %s)" % (at, c[0], s[0]), [c[1], s[1]])
        if self.peek(1) == ("sign", "("):
            n = self.name()
            self.sign("(")
            e = self.expr()
            self.sign(")")
            goal = self.deep("(index %s %s)" % (n, e[0]), [e[1]])
        elif self.peek(1) == ("sign", "<"):
            goal = self.access()
        else:
            goal = self.name(), 1
        self.sign(":=")
        e = self.expr()
        return "(:= %s %s)" % (goal[0], e[0]), max(goal[1], e[1])

    # rows
    def row(self, one, close=None):
        if close is not None and self.is_sign(close):
            return []
        out = [one()]
        while self.is_sign(","):
            self.sign(",")
            out.append(one())
        return out

    def item(self):
        k, w = self.peek()
        if k != "word":
            raise Syntax()
        at = self.word(w)
        if w == "constant":
            n = self.name()
            self.sign("=")
            return "(constant@%d %s %s)" % (at, n, self.expr()[0])
        if w == "using":
            n = self.name()
            self.sign("=")
            return "(using@%d %s %s)" % (at, n, self.type()[0])
        if w == "function":
            n = self.name()
            self.sign("(")

            def one():
                p = self.name()
                self.sign(":")
                return " (%s %s)" % (p, self.type()[0])
            ps = self.row(one, ")")
            self.sign(")")
            self.sign("->")
            t = self.type()
            self.sign("=")
            e = self.expr()
            return "(function@%d %s%s %s %s)" % (at, n, "".join(ps), t[0], e[0])
        if w == "program":
            self.word("counter")
            n = self.name()
            self.sign(":")
            return "(counter@%d %s %s)" % (at, n, self.type()[0])
        if w == "memory":
            n = self.name()
            self.sign(":")
            a = self.type()
            self.sign("->")
            b = self.type()
            return "(memory@%d %s %s %s)" % (at, n, a[0], b[0])
        if w == "register":
            if self.is_word("file"):
                self.word("file")
                n = self.name()
                self.sign(":")
                a = self.type()
                self.sign("->")
                b = self.type()
                z = ""
                if self.is_word("zero"):
                    self.word("zero")
                    z = " " + self.expr()[0]
                return "(file@%d %s %s %s%s)" % (at, n, a[0], b[0], z)
            n = self.name()
            self.sign(":")
            return "(register@%d %s %s)" % (at, n, self.type()[0])
        if w == "format":
            n = self.name()
            self.sign(":")
            t = self.type()
            self.sign("=")
            self.sign("{")

            def ranged():
                h = self.expr()[0]
                if self.is_sign(".."):
                    self.sign("..")
                    return " (range %s %s)" % (h, self.expr()[0])
                return " (range %s)" % h

            def field():
                f = self.name()
                self.sign("[")
                rs = self.row(ranged)
                self.sign("]")
                return " (%s%s)" % (f, "".join(rs))
            fs = self.row(field)
            self.sign("}")
            return "(format@%d %s %s%s)" % (at, n, t[0], "".join(fs))
        if w == "instruction":
            n = self.name()
            self.sign(":")
            f = self.name()
            self.sign("=")
            return "(instruction@%d %s %s %s)" % (at, n, f, self.statement()[0])
        if w == "encoding":
            n = self.name()
            self.sign("=")
            self.sign("{")

            def fix():
                f = self.name()
                self.sign("=")
                return " (%s %s)" % (f, self.expr()[0])
            fs = self.row(fix, "}")
            self.sign("}")
            return "(encoding@%d %s%s)" % (at, n, "".join(fs))
        if w == "assembly":
            n = self.name()
            self.sign("=")
            self.sign("(")
            ps = self.row(self.part)
            self.sign(")")
            return "(assembly@%d %s%s)" % (at, n, "".join(ps))
        raise Syntax()

    def part(self):
        k, w = self.peek()
        if k == "string":
            t = self.take("string")
            return ' (text@%d "%s")' % (t[2], t[1])
        if k != "word":
            raise Syntax()
        if w == "mnemonic":
            return " (mnemonic@%d)" % self.word(w)
        if w == "register":
            at = self.word(w)
            self.sign("(")
            a = self.name()
            self.sign("(")
            b = self.name()
            self.sign(")")
            self.sign(")")
            return " (register@%d %s %s)" % (at, a, b)
        if w in ("decimal", "signed", "hex"):
            at = self.word(w)
            self.sign("(")
            a = self.name()
            self.sign(")")
            return " (%s@%d %s)" % (w, at, a)
        if w == "target":
            at = self.word(w)
            self.sign("(")
            a = self.name()
            self.sign(",")
            e = self.expr()
            self.sign(")")
            return " (target@%d %s %s)" % (at, a, e[0])
        raise Syntax()

    def reg(self):
        n = self.name()
        self.sign("(")
        e = self.expr()
        self.sign(")")
        return " (%s %s)" % (n, e[0])

    def role(self):
        k, w = self.peek()
        if k != "word":
            raise Syntax()
        at = self.word(w)
        if w == "stack" and self.is_word("pointer"):
            self.word("pointer")
            self.sign("=")
            return "(pointer@%d%s)" % (at, self.reg())
        if w == "return":
            what = self.take("word")[1]
            if what not in ("address", "value"):
                raise Syntax()
            self.sign("=")
            return "(%s@%d%s)" % (what, at, self.reg())
        if w in ("arguments", "temporaries", "saved"):
            self.sign("=")
            return "(%s@%d%s)" % (w, at, "".join(self.row(self.reg)))
        if w in ("code", "data"):
            self.sign("=")
            return "(%s@%d %s)" % (w, at, self.expr()[0])
        if w == "stack":
            self.sign("=")
            a = self.expr()[0]
            self.sign("..")
            return "(stack@%d %s %s)" % (at, a, self.expr()[0])
        raise Syntax()

    def act(self):
        k, w = self.peek()
        if k != "word" or w not in ("read", "write", "compute", "resolve"):
            raise Syntax()
        at = self.word(w)
        if w in ("read", "write"):
            return " (%s@%d %s)" % (w, at, self.name())
        return " (%s@%d)" % (w, at)

    def mitem(self):
        k, w = self.peek()
        if k != "word":
            raise Syntax()
        at = self.word(w)
        if w == "stage":
            n = self.name()
            acts = []
            if self.is_sign(":"):
                self.sign(":")
                acts = self.row(self.act)
            return "(stage@%d %s%s)" % (at, n, "".join(acts))
        if w == "forward":
            return "(forward@%d %s)" % (at, self.name())
        raise Syntax()

    def heading(self, words, shown):
        at = self.word(words[0])
        for w in words[1:]:
            self.word(w)
        n = self.name()
        self.sign("=")
        self.sign("{")
        return "(isa %s)" % n if shown == "isa" else "(%s@%d %s)" % (shown, at, n)


def whole(piece, f):
    r = Reader(piece)
    out = f(r)
    if r.i != len(piece):
        raise Syntax()
    return out


ISA = ["instruction", "set", "architecture"]
ABI = ["application", "binary", "interface", "for"]
MICRO = ["micro", "architecture", "for"]


def description(text):
    """The tree of a text, or raises TokenFault(at) or Syntax(at)."""
    ts = tokens(text)
    lines, state = [], "start"
    for p in pieces(ts):
        try:
            closing = len(p) == 1 and p[0][:2] == ("sign", "}")
            if state == "start":
                lines.append(whole(p, lambda r: r.heading(ISA, "isa")))
                state = "isa"
            elif state in ("isa", "abi", "micro"):
                if closing:
                    lines.append("end@%d" % p[0][2])
                    state = "after " + state
                else:
                    one = {"isa": Reader.item, "abi": Reader.role, "micro": Reader.mitem}[state]
                    lines.append(whole(p, one))
            elif state in ("after isa", "after abi") and p[0][:2] == ("word", "micro"):
                lines.append(whole(p, lambda r: r.heading(MICRO, "micro")))
                state = "micro"
            elif state == "after isa":
                lines.append(whole(p, lambda r: r.heading(ABI, "abi")))
                state = "abi"
            else:
                raise Syntax()
        except Syntax:
            raise Syntax(p[0][2])
    if not state.startswith("after"):
        raise Syntax(ts[-1][3] if ts else 0)
    return "\n".join(lines)


def place(text, at):
    before = text[:at]
    return "%d:%d" % (before.count("\n") + 1, at - (before.rfind("\n") + 1) + 1)


def shown(text):
    try:
        return description(text)
    except TokenFault as f:
        return "no token at " + place(text, f.args[0])
    except Syntax as f:
        return "no tree at " + place(text, f.args[0])


if __name__ == "__main__":
    rows = open(sys.argv[1]).read()
    for row in rows.split("########\n"):
        title, text = row.split("====\n", 1)
        print(title, end="")
        print(shown(text))
