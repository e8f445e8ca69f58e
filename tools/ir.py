#!/usr/bin/env python3
"""Reads modules of textual LLVM IR, apart from the reader in crates/: by the same grammar, from left to right, with no tree.

    tools/ir.py FILE..    prints for each file what it has, or its fault: `module`, or `syntax L:C`, or `named L:C WHAT`
    tools/ir.py --check   reads the texts at the end of this script, and fails where one hasn't the answer beside it
"""
import re
import sys

LEXEME = re.compile(
    rb'[%@](?:[-a-zA-Z$._][-a-zA-Z$._0-9]*|[0-9]+|"[^"]*")|c?"[^"]*"|[-a-zA-Z0-9$._#]+|[^ \t\r\n]', re.S)
GAP = re.compile(rb"(?:[ \t\r\n]|;[^\n]*)*")
WORD_NAME = re.compile(rb"[-a-zA-Z$._][-a-zA-Z$._0-9]*\Z")
BARE = re.compile(rb'(?:[-a-zA-Z$._][-a-zA-Z$._0-9]*|[0-9]+|"[^"]*")\Z', re.S)
NUMBER = re.compile(rb"-?[0-9]+\Z")
DIGITS = re.compile(rb"[0-9]+\Z")
WIDTHS = {b"i1": 1, b"i8": 8, b"i16": 16, b"i32": 32, b"i64": 64}
LINKAGES = b"private internal common".split()
CONVENTIONS = b"ccc fastcc coldcc".split()
ADDRESSES = b"unnamed_addr local_unnamed_addr".split()
ATTRIBUTES = b"noundef signext zeroext nonnull noalias nocapture readonly readnone writeonly returned".split()
FUNCTION_WORDS = b"nounwind noinline noreturn willreturn mustprogress optnone".split()
CONSTANTS = b"true false null undef poison".split()
PREDICATES = b"eq ne ugt uge ult ule sgt sge slt sle".split()
FLAGS = {}
for names, flags in (("add sub mul shl", "nuw nsw"), ("udiv sdiv lshr ashr", "exact"), ("urem srem and or xor", "disjoint")):
    for name in names.split():
        FLAGS[name.encode()] = flags.encode().split()
CASTS = {b"zext": [b"nneg"], b"sext": [b"nneg"], b"trunc": [b"nuw", b"nsw"], b"ptrtoint": [], b"inttoptr": [], b"bitcast": []}
INSTRUCTIONS = set(FLAGS) | set(CASTS) | set(
    b"icmp select freeze alloca load store getelementptr call br switch ret phi unreachable".split())
NAMED = {}
for what, names in (
        ("floating point", "half bfloat float double fp128 x86_fp80 fadd fsub fmul fdiv frem fneg fcmp fptoui fptosi uitofp "
                           "sitofp fpext fptrunc"),
        ("vector", "extractelement insertelement shufflevector"),
        ("atomic", "atomic cmpxchg atomicrmw fence"),
        ("exceptions", "invoke landingpad resume personality callbr"),
        ("varargs", "... va_arg"), ("indirect call", "indirectbr"), ("thread local", "thread_local"),
        ("inline assembly", "asm module"), ("external global", "external extern_weak"),
        ("linkage", "weak weak_odr linkonce linkonce_odr available_externally appending"),
        ("aggregate value", "extractvalue insertvalue"), ("by value argument", "byval sret inalloca preallocated"),
        ("musttail", "musttail")):
    for name in names.split():
        NAMED[name.encode()] = what


class Fault(Exception):
    """Where a text is no module: a place, and the name of the construct there or None."""

    def __init__(self, at, what=None):
        super().__init__(at, what)
        self.at, self.what = at, what


class Lexeme:
    """The bytes of a lexeme, where they stand, and whether it is the first on its line."""

    def __init__(self, text, at, fresh):
        self.text, self.at, self.fresh = text, at, fresh


def lexemes(text):
    """The lexemes of a text."""
    found, at, fresh = [], 0, True
    while True:
        gap = GAP.match(text, at)
        fresh = fresh or b"\n" in re.sub(rb";[^\n]*", b"", gap.group())
        at = gap.end()
        if at == len(text):
            return found
        lexeme = LEXEME.match(text, at)
        found.append(Lexeme(lexeme.group(), at, fresh))
        at, fresh = lexeme.end(), False


def name_of(text):
    """The bytes of a name without its `%` or `@`."""
    if not text.startswith(b'"'):
        return text
    return re.sub(rb"\\(\\|[0-9a-fA-F]{2})", lambda m: b"\\" if m.group(1) == b"\\" else bytes([int(m.group(1), 16)]), text[1:-1])


def is_local(text):
    return text[:1] == b"%" and bool(BARE.match(text[1:]))


def is_global(text):
    return text[:1] == b"@" and bool(BARE.match(text[1:]))


def fits(text, width):
    """A number, where a width is given one of so many bits."""
    return bool(NUMBER.match(text)) and (width is None or -(1 << (width - 1)) <= int(text) < 1 << width)


class Reader:
    """The lexemes, and how far they are read."""

    def __init__(self, text):
        self.size, self.all, self.next = len(text), lexemes(text), 0
        self.behind_type = False
        self.functions, self.globals, self.addresses, self.callees, self.repeats = set(), set(), [], [], []

    # -- one lexeme

    def text(self, ahead=0):
        return self.all[self.next + ahead].text if self.next + ahead < len(self.all) else None

    def at(self):
        return self.all[self.next].at if self.next < len(self.all) else self.size

    def take(self):
        self.next += 1
        self.behind_type = False
        return self.all[self.next - 1]

    def leave(self, *wanted):
        """The text leaves the grammar at this lexeme, where this is wanted."""
        raise Fault(self.at(), self.named(self.text(), wanted))

    def named(self, text, wanted):
        """The name of the construct that the text leaves the grammar at."""
        if text is None or "fixed type" in wanted:
            return None
        at_type = "type" in wanted or "value type" in wanted
        if text in NAMED:
            return NAMED[text]
        if text == b"<" and at_type:
            return "packed struct" if self.text(1) == b"{" else "vector"
        if re.match(rb"i[0-9]+\Z", text) and text not in WIDTHS:
            return "integer type"
        if text == b"*" and self.behind_type:
            return "typed pointer"
        if text == b"alloca" and "operation" in wanted:
            return "dynamic alloca"
        if text in INSTRUCTIONS and ("operand" in wanted or "initial" in wanted):
            return "constant expression"
        if "value type" in wanted and (text in (b"[", b"{") or is_local(text)):
            return "aggregate value"
        if "callee" in wanted and is_local(text):
            return "indirect call"
        if "callee" in wanted and is_global(text) and name_of(text[1:]).startswith(b"llvm."):
            return "intrinsic"
        if re.match(rb"#dbg_[a-zA-Z]*\Z", text):
            return "debug record"
        return None

    def one(self, test, *wanted):
        """A lexeme that passes a test."""
        if self.text() is None or not test(self.text()):
            self.leave(*wanted)
        return self.take()

    def word(self, text, *wanted):
        return self.one(lambda found: found == text, *wanted)

    def maybe(self, *texts):
        """One of these words, if it stands here."""
        return self.take() if self.text() in texts else None

    def local(self):
        return self.one(is_local)

    def digits(self):
        return self.one(lambda text: bool(DIGITS.match(text)))

    # -- types: the width of an integer, or None

    def type(self, *wanted):
        wanted = wanted or ("type",)
        text = self.text()
        if text in WIDTHS or text == b"ptr" or (text is not None and is_local(text) and "value type" not in wanted):
            self.take()
        elif text == b"[" and "value type" not in wanted:
            self.take()
            self.one(lambda found: bool(DIGITS.match(found)) and int(found) < 1 << 64)
            self.word(b"x")
            self.type()
            self.word(b"]")
        elif text == b"{" and "value type" not in wanted:
            self.take()
            self.type()
            while self.maybe(b","):
                self.type()
            self.word(b"}")
        else:
            self.leave(*wanted)
        self.behind_type = True
        return WIDTHS.get(text)

    def fixed(self, *texts):
        """One of the types that may stand here alone."""
        found = self.one(lambda text: text in texts, "fixed type")
        self.behind_type = True
        return WIDTHS.get(found.text)

    def result(self):
        if self.text() == b"void":
            self.take()
            self.behind_type = True
            return None
        return self.type("value type")

    # -- operands, initialisers, attributes

    def operand(self, width, keep=True):
        found = self.one(lambda text: is_local(text) or is_global(text) or text in CONSTANTS or fits(text, width), "operand")
        if is_global(found.text):
            self.addresses.append((name_of(found.text[1:]), found.at))

    def initial(self, width):
        text = self.text()
        if text in (b"[", b"{"):
            self.take()
            while True:
                self.initial(self.type())
                if not self.maybe(b","):
                    break
            self.word(b"]" if text == b"[" else b"}")
            return
        found = self.one(lambda it: is_global(it) or it in CONSTANTS or it == b"zeroinitializer" or it[:2] == b'c"' or fits(it, width), "initial")
        if is_global(found.text):
            self.addresses.append((name_of(found.text[1:]), found.at))

    def until(self, closing):
        """Any lexemes up to a sign."""
        while self.text() != closing:
            self.one(lambda text: len(text) > 1 or text[0] < 128)
        self.take()

    def attributes(self):
        while True:
            if self.maybe(*ATTRIBUTES):
                continue
            if self.maybe(b"align"):
                self.digits()
            elif self.maybe(b"dereferenceable"):
                self.word(b"(")
                self.digits()
                self.word(b")")
            elif self.maybe(b"captures", b"range"):
                self.word(b"(")
                self.until(b")")
            else:
                return

    def function_attributes(self):
        while True:
            if self.maybe(*FUNCTION_WORDS):
                continue
            if self.text() is not None and re.match(rb"#[0-9]+\Z", self.text()):
                self.take()
            elif self.maybe(b"align"):
                self.digits()
            else:
                return

    def flags(self, words):
        for flag in words:
            self.maybe(flag)

    # -- instructions

    def pointer(self):
        self.fixed(b"ptr")
        self.operand(None)

    def label(self):
        self.word(b"label")
        self.local()

    def tail(self, *firsts):
        """Commas with what may stand behind them, in this order, and then the pairs. Each first is a test and a reader."""
        for test, read, again in firsts:
            while self.text() == b"," and self.text(1) is not None and test(self.text(1)):
                self.take()
                read()
                if not again:
                    break
        while self.maybe(b","):
            if self.text() != b"!":
                fixed = any(test(b"i32") for test, _, _ in firsts)
                self.leave(*(["fixed type"] if fixed else []))
            self.take()
            self.one(lambda text: bool(WORD_NAME.match(text)))
            self.word(b"!")
            self.digits()

    def align(self):
        return (lambda text: text == b"align", lambda: (self.take(), self.digits()), False)

    def call(self, role):
        if self.maybe(b"tail", b"notail") and self.text() != b"call":
            self.leave(role)
        self.word(b"call", role)
        self.maybe(*CONVENTIONS)
        self.attributes()
        self.result()
        kept = len(self.addresses)
        callee = self.one(lambda text: is_global(text) and (not name_of(text[1:]).startswith(b"llvm.")
                                                             or name_of(text[1:]).startswith(b"llvm.lifetime.")), "callee")
        name = name_of(callee.text[1:])
        self.word(b"(")
        if self.text() != b")":
            while True:
                width = self.type("value type")
                self.attributes()
                self.operand(width)
                if not self.maybe(b","):
                    break
        self.word(b")")
        if name.startswith(b"llvm.lifetime."):
            del self.addresses[kept:]
        else:
            self.callees.append((name, callee.at))
        self.function_attributes()
        self.tail()

    def two(self, width):
        self.operand(width)
        self.word(b",")
        self.operand(width)

    def alloca(self):
        at = self.all[self.next - 1].at
        self.type()

        def count():
            width = self.fixed(*WIDTHS)
            text = self.text()
            if text is not None and (is_local(text) or is_global(text) or text in CONSTANTS):
                raise Fault(at, "dynamic alloca")
            self.one(lambda found: fits(found, width))
        self.tail((lambda text: text in WIDTHS, count, False), self.align())

    def operation(self, entry, phis):
        """What stands behind `%r =`. Whether it is a phi."""
        word = self.text()
        if word in (b"tail", b"notail", b"call"):
            self.call("operation")
            return False
        if word == b"phi" and phis:
            self.take()
            width = self.type("value type")

            def incoming():
                self.word(b"[")
                self.operand(width)
                self.word(b",")
                self.local()
                self.word(b"]")
            incoming()
            self.tail((lambda text: text == b"[", incoming, True))
            return True
        if word in FLAGS:
            self.take()
            self.flags(FLAGS[word])
            self.two(self.type("value type"))
            self.tail()
        elif word in CASTS:
            self.take()
            self.flags(CASTS[word])
            self.operand(self.type())
            self.word(b"to")
            self.type("value type")
            self.tail()
        elif word == b"icmp":
            self.take()
            self.maybe(b"samesign")
            self.one(lambda text: text in PREDICATES)
            self.two(self.type())
            self.tail()
        elif word == b"select":
            self.take()
            self.operand(self.fixed(b"i1"))
            self.word(b",")
            self.operand(self.type("value type"))
            self.word(b",")
            self.operand(self.type())
            self.tail()
        elif word == b"freeze":
            self.take()
            self.operand(self.type("value type"))
            self.tail()
        elif word == b"alloca" and entry:
            self.take()
            self.alloca()
        elif word == b"load":
            self.take()
            self.maybe(b"volatile")
            self.type("value type")
            self.word(b",")
            self.pointer()
            self.tail(self.align())
        elif word == b"getelementptr":
            self.take()
            while self.maybe(b"inbounds", b"nusw", b"nuw"):
                pass
            self.type()
            self.word(b",")
            self.pointer()
            self.tail((lambda text: text in WIDTHS, lambda: self.operand(self.fixed(*WIDTHS)), True))
        else:
            self.leave("operation")
        return False

    def switch(self):
        width = self.type()
        self.operand(width)
        self.word(b",")
        self.label()
        self.word(b"[")
        seen = set()
        while self.text() != b"]":
            case = self.type()
            found = self.one(lambda text: fits(text, case))
            if width is not None:
                number = int(found.text) % (1 << width)
                if number in seen:
                    self.repeats.append(found.at)
                seen.add(number)
            self.word(b",")
            self.label()
        self.take()
        self.tail()

    def terminator(self):
        """Whether one was read."""
        if self.maybe(b"unreachable"):
            self.tail()
        elif self.maybe(b"ret"):
            if self.text() == b"void":
                self.take()
            else:
                self.operand(self.type())
            self.tail()
        elif self.maybe(b"switch"):
            self.switch()
        elif self.maybe(b"br"):
            if self.text() == b"label":
                self.label()
            else:
                self.operand(self.fixed(b"i1"))
                self.word(b",")
                self.label()
                self.word(b",")
                self.label()
            self.tail()
        else:
            return False
        return True

    def block(self, entry, named):
        """A block, before which a name may stand, or must."""
        text = self.text()
        if named or (text is not None and BARE.match(text) and self.text(1) == b":"):
            self.one(lambda found: bool(BARE.match(found)))
            self.word(b":")
        elif text is not None and BARE.match(text) and not text.startswith(b'c"') and not (
                text in INSTRUCTIONS and text in (b"store", b"call", b"br", b"switch", b"ret", b"unreachable")) and text not in (b"tail", b"notail"):
            self.take()
            self.leave()
        phis = True
        while not self.terminator():
            if self.text() is not None and is_local(self.text()):
                self.take()
                self.word(b"=")
                phis = self.operation(entry, phis)
            elif self.text() == b"store":
                self.take()
                self.maybe(b"volatile")
                self.operand(self.type("value type"))
                self.word(b",")
                self.pointer()
                self.tail(self.align())
                phis = False
            elif self.text() in (b"tail", b"notail", b"call"):
                self.call("instruction")
                phis = False
            else:
                self.leave("instruction")

    # -- items

    def function(self):
        self.maybe(*LINKAGES)
        self.maybe(b"dso_local")
        self.maybe(*CONVENTIONS)
        self.attributes()
        self.result()
        name = self.one(is_global)
        self.functions.add(name_of(name.text[1:]))
        self.word(b"(")
        if self.text() != b")":
            while True:
                self.type("value type")
                self.attributes()
                if self.text() is not None and is_local(self.text()):
                    self.take()
                if not self.maybe(b","):
                    break
        self.word(b")")
        self.maybe(*ADDRESSES)
        self.function_attributes()
        self.word(b"{")
        self.block(True, False)
        while self.text() != b"}":
            self.block(False, True)
        self.take()

    def line(self):
        while self.next < len(self.all) and not self.all[self.next].fresh:
            self.one(lambda text: len(text) > 1 or text[0] < 128)

    def string(self):
        self.one(lambda text: len(text) > 1 and text[:1] == b'"')

    def item(self):
        text = self.text()
        if text == b"!" and self.all[self.next].fresh:
            self.take()
            self.line()
        elif text == b"declare":
            self.take()
            self.line()
        elif text == b"source_filename":
            self.take()
            self.word(b"=")
            self.string()
        elif text == b"target":
            self.take()
            self.one(lambda found: found in (b"datalayout", b"triple"))
            self.word(b"=")
            self.string()
        elif text == b"attributes":
            self.take()
            self.one(lambda found: bool(re.match(rb"#[0-9]+\Z", found)))
            self.word(b"=")
            self.word(b"{")
            self.until(b"}")
        elif text == b"define":
            self.take()
            self.function()
        elif is_local(text):
            self.take()
            self.word(b"=")
            self.word(b"type")
            if self.text() != b"{":
                self.leave("type")
            self.type()
        elif is_global(text):
            self.globals.add(name_of(self.take().text[1:]))
            self.word(b"=")
            self.maybe(*LINKAGES)
            self.maybe(b"dso_local")
            self.maybe(*ADDRESSES)
            self.one(lambda found: found in (b"global", b"constant"))
            self.initial(self.type())
            if self.maybe(b","):
                self.word(b"align")
                self.digits()
        else:
            self.leave()

    def module(self):
        while self.next < len(self.all):
            self.item()
        if self.repeats:
            raise Fault(min(self.repeats))
        found = [at for name, at in self.addresses if name in self.functions]
        if found:
            raise Fault(min(found), "function address")
        found = [at for name, at in self.callees if name not in self.functions and name not in self.globals]
        if found:
            raise Fault(min(found), "external function")


def answer(text):
    """What a text has, in a line."""
    try:
        Reader(text).module()
    except Fault as fault:
        line = text.count(b"\n", 0, fault.at) + 1
        column = fault.at - (text.rfind(b"\n", 0, fault.at) + 1) + 1
        return ("named %d:%d %s" % (line, column, fault.what)) if fault.what else "syntax %d:%d" % (line, column)
    return "module"


def body(text):
    return "define i32 @f(i32 %a, ptr %p) {\n" + text + "\n}\n"


TEXTS = (
    ("", "module"),
    ("define float @z() { unreachable }", "named 1:8 floating point"),
    ("!0 = !{}\ndeclare void @g(float, ...)\n; x\nattributes #0 = { \"}\" <4 x i8> }\nsource_filename = \"a\"", "module"),
    ("x !0", "syntax 1:1"), ("@a = global i8 1 !0", "syntax 1:18"),
    ("@a = global i8 256", "syntax 1:16"), ("@a = global i8 -128, align 4", "module"), ("@a = global ptr 99999999999999999999", "module"),
    ("@a = private unnamed_addr constant [2 x i8] c\"\\00a\"", "module"), ("@a = external global i8", "named 1:6 external global"),
    ("@a = global [2 x i8] [i8 1, i8 add (i8 1, i8 1)]", "named 1:32 constant expression"), ("@a = global [0 x i8] []", "syntax 1:23"),
    ("%s = type { i8, [2 x ptr] }", "module"), ("%s = type <{ i8 }>", "named 1:11 packed struct"), ("%s = type {}", "syntax 1:12"),
    ("@v = global <4 x i8> zeroinitializer", "named 1:13 vector"), ("module asm \"x\"", "named 1:1 inline assembly"),
    (body("%r = add nsw nuw i32 %a, 1\nret i32 %r"), "syntax 2:14"), (body("%r = add i128 %a, 1\nret i32 %r"), "named 2:10 integer type"),
    (body("%r = load i32, i32* %p\nret i32 %r"), "syntax 2:16"), (body("%r = freeze i32* %p\nret i32 %r"), "named 2:16 typed pointer"),
    (body("fence seq_cst\nret i32 0"), "syntax 2:7"), (body("store i32 0, ptr %p\nfence seq_cst"), "named 3:1 atomic"),
    (body("%r = alloca i32, i32 %a\nret i32 0"), "named 2:6 dynamic alloca"), (body("%r = alloca i8, i8 256\nret i32 0"), "syntax 2:20"),
    (body("%r = alloca i32, i32 2, align 8, !x !0\nret i32 0"), "module"), (body("br label %b\nb: %r = alloca i8\nret i32 0"), "named 3:9 dynamic alloca"),
    (body("br label %b\nb:\nstore i8 0, ptr %p\n%x = phi i32 [ 0, %b ]\nret i32 0"), "syntax 5:6"),
    (body("switch i8 0, label %b [ i8 1, label %b i8 -255, label %b ]\nb: ret i32 0"), "syntax 2:43"),
    (body("switch i8 0, label %b [ i8 1, label %b i8 -1, label %b i8 255, label %b ]\nb: ret i32 0"), "syntax 2:59"),
    (body("call void @g()\nret i32 0"), "named 2:11 external function"), (body("call void @g(\nret i32 0"), "syntax 3:1"),
    (body("call void %p()\nret i32 0"), "named 2:11 indirect call"), (body("call void @llvm.trap()\nret i32 0"), "named 2:11 intrinsic"),
    (body("call void @llvm.lifetime.start.p0(i64 4, ptr @f)\nret i32 0"), "module"), (body("store ptr @f, ptr %p\nret i32 0"), "named 2:11 function address"),
    (body("%r = tail call i32 @f(i32 signext 1, ptr %p) #0\nret i32 %r"), "module"), (body("%r = musttail call i32 @f()"), "named 2:6 musttail"),
    (body("%r = load [2 x i8], ptr %p\nret i32 0"), "named 2:11 aggregate value"), (body("ret %s zeroinitializer"), "syntax 2:8"),
    (body("ret %s undef"), "module"), (body("#dbg_value(i32 0)\nret i32 0"), "named 2:1 debug record"), (body("ret i32 0\n%x"), "syntax 3:1"),
    ("define void @f(i8 byval(i8) %x) { ret void }", "named 1:19 by value argument"), ("define void @f(i8, ...) { ret void }", "named 1:20 varargs"),
    ("define void @f() { ret void }\ndefine void @g() #0 align 4 { \"a\\62\": ret void, !dbg !4 }", "module"), ("define void @f() {", "syntax 1:19"),
)


def main(words):
    if words == ["--check"]:
        wrong = [(text, want, answer(text.encode())) for text, want in TEXTS if answer(text.encode()) != want]
        for text, want, found in wrong:
            print("%r: %s, and not %s" % (text, found, want))
        return 1 if wrong else 0
    for word in words:
        with open(word, "rb") as it:
            print(word, answer(it.read()))
    return 0


if __name__ == "__main__":
    sys.exit(main(sys.argv[1:]))
