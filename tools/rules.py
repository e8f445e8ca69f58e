#!/usr/bin/env python3
"""Makes crates/vg_cases/data/rules.cases: descriptions, and the first rule that each breaks, by the readers in names.py and
widths.py. Of one that breaks none this reader doesn't know whether it is built: such an answer is kept as the
table has it, and must be `ok` with the name and the number of instructions, or `not built`. With --check it changes nothing,
and fails where the table isn't as it would make it."""
import os
import re
import sys

sys.setrecursionlimit(1000000)
from cases import answers, case, keep
from widths import told

HERE = os.path.dirname(os.path.abspath(__file__))
OLD = answers("rules.cases")
rows = []


def row(title, text):
    rows.append((title, text))


def isa(body, behind=""):
    return "instruction set architecture T = {\n%s\n}\n%s" % (body, behind)


ABI = "application binary interface for T = { %s }\n"
MICRO = "micro architecture for T = { %s }\n"
COUNTER, MEMORY, FORMAT = "program counter PC : Bool", "memory MEM : Bool -> Bool", "format F : Bool = { f [1], g [0] }"
INSTRUCTION, ENCODING = "instruction I : F = { }", "encoding I = { f = 0 }"


def a(word):
    return ("an " if word[0] in "aeiou" else "a ") + word


def whole(items, behind="", behaviour="{ }", encoding="f = 0"):
    """A text in which nothing lacks, with these items in front."""
    needed = [COUNTER, MEMORY, FORMAT, "instruction I : F = " + behaviour, "encoding I = { %s }" % encoding]
    return isa("\n".join([items] * (items != "") + needed), behind)


# what lies outside of these rules
row("the least description that is accepted", isa("\n".join([COUNTER, MEMORY, "format F : Bool = { f [0] }", INSTRUCTION, "encoding I = { }"])))
row("a text that has no tokens", whole("constant A = $"))
row("a text that leaves the grammar", whole("constant A = 1\nconstant B = (2"))
row("an empty text", "")

# defined twice
DEFINITIONS = {
    "constant": "constant %s = 1",
    "alias": "using %s = Bool",
    "function": "function %s() -> Bool = 1",
    "program counter": "program counter %s : Bool",
    "memory": "memory %s : Bool -> Bool",
    "register": "register %s : Bool",
    "register file": "register file %s : Bool -> Bool",
    "format": "format %s : Bool = { h [0] }",
    "instruction": "instruction %s : F = { }",
}
for one in DEFINITIONS:
    for other in DEFINITIONS:
        row("%s, and then %s of the same name" % (a(one), a(other)), isa(DEFINITIONS[one] % "D" + "\n" + DEFINITIONS[other] % "D"))
row("three of the same name", isa("constant D = 1\nconstant E = 1\nconstant D = 2\nconstant D = 3"))
row("two names that stand twice", isa("constant D = 1\nconstant E = 1\nregister E : Bool\nregister D : Bool"))
row("a second program counter of another name", whole("program counter D : Bool"))
row("a second memory of another name", whole("memory D : Bool -> Bool"))
row("a second memory whose name stands twice too", whole("constant D = 1\nmemory D : Bool -> Bool"))
row("a second encoding", whole("encoding I = { }"))
row("a second encoding of an unknown name", whole("encoding D = { }\nencoding D = { }"))
row("a second assembly", whole("assembly I = (mnemonic)\nassembly I = (mnemonic)"))
row("a second assembly of an unknown name", whole("assembly D = (mnemonic)\nassembly D = (mnemonic)"))
row("an encoding and an assembly of one name", whole("assembly I = (mnemonic)"))
row("a field twice in one format", whole("format G : Bool = { h [1], i [2], h [0] }"))
row("a field in two formats", whole("format G : Bool = { f [0] }"))
row("a parameter twice in one function", whole("function h(a : Bool, b : Bool, a : Bool) -> Bool = 1"))
row("a parameter in two functions", whole("function h(a : Bool) -> Bool = a\nfunction i(a : Bool) -> Bool = a"))
row("a parameter that is named as its function", whole("function h(h : Bool) -> Bool = h"))
row("a field that is named as its format", whole("format G : Bool = { G [0] }"))
row("an item that is named as the architecture", whole("constant T = 1"))
row("a stage twice", whole("", MICRO % "stage S stage S"))
row("a stage that is named as an item", whole("constant S = 1", MICRO % "stage S stage PC stage T"))
row("a stage twice, and an item twice behind it no more", whole("constant S = 1\nregister S : Bool", MICRO % "stage S stage S"))
PARTS = ["register(X(f))", "decimal(f)", "signed(f)", "hex(f)", "target(f, 1)"]
for k, part in enumerate(PARTS):
    other = PARTS[(k + 1) % len(PARTS)]
    row("a field twice in one assembly, by %s and %s" % (part, other), whole("register file X : Bool -> Bool\nassembly I = (%s, decimal(g), %s)" % (part, other)))
row("a register file twice in one assembly", whole("register file X : Bool -> Bool\nassembly I = (register(X(f)), register(X(g)))"))
row("the same field in two assemblies", whole("instruction J : F = { }\nencoding J = { }\nassembly I = (decimal(f))\nassembly J = (decimal(f))"))
row("a field twice in one encoding is no matter of these rules", whole("", encoding="f = 0, f = 1"))
row("a let in a let of the same name", whole("constant A = let a = 1 in let a = 2 in a"))
row("names that differ in the case of a letter", whole("constant d = 1\nconstant D = 1"))
row("names that look the same", whole("constant gr\u00f6n = 1\nconstant gro\u0308n = 1"))
row("columns are counted in bytes", whole("constant gr\u00f6n = 1 /* \u4e2d\u6587 */ register gr\u00f6n : Bool"))

# each kind of name, used as each other
NAMED = ["constant", "alias", "function", "program counter", "memory", "register", "register file", "format", "instruction"]
KINDS = NAMED + ["field", "parameter", "stage", "architecture", "nothing"]


def used(kind, items="", behaviour="{ }", fixes="", behind=""):
    """A text in which D is such a thing and in which it is used so. IT is the instruction's name."""
    needed = {"program counter": COUNTER, "memory": MEMORY, "format": FORMAT, "instruction": "instruction I : F = " + behaviour}
    name = {"format": "F", "instruction": "I"}
    if kind in ("program counter", "memory"):
        needed[kind] = DEFINITIONS[kind] % "D"
    elif kind in name:
        name[kind] = "D"
        needed["format"] = "format %s : Bool = { f [1], g [0] }" % name["format"]
        needed["instruction"] = "instruction %s : %s = %s" % (name["instruction"], name["format"], behaviour)
    elif kind == "field":
        needed["format"] = "format F : Bool = { f [1], D [0] }"
    elif kind == "parameter":
        needed["function"] = "function h(D : Bool) -> Bool = 1"
    elif kind in DEFINITIONS:
        needed["own"] = DEFINITIONS[kind] % "D"
    elif kind == "stage":
        behind += MICRO % "stage D" if "micro" not in behind else ""
        behind = behind.replace("stage S", "stage D")
    body = [items] * (items != "") + list(needed.values()) + ["encoding IT = { %s }" % fixes]
    text = isa("\n".join(body), behind).replace("IT", name["instruction"])
    return text.replace("architecture T", "architecture D").replace("for T", "for D") if kind == "architecture" else text


def use_rows(kind):
    yield "a value", used(kind, "constant K = D")
    yield "a value in a behaviour", used(kind, "register R : Bool", "R := D")
    yield "what is called", used(kind, "constant K = D(0)")
    yield "an alias", used(kind, "register R : D")
    yield "what is accessed", used(kind, "constant K = D<1>(0)")
    yield "a goal", used(kind, "", "D := 0")
    yield "an indexed goal", used(kind, "", "D(0) := 0")
    yield "an accessed goal", used(kind, "", "D<1>(0) := 0")
    yield "the format of an instruction", used(kind, "instruction J : D = { }\nencoding J = { }")
    yield "the name of an encoding", used(kind, "" if kind == "instruction" else "encoding D = { }")
    yield "the name of an assembly", used(kind, "assembly D = (mnemonic)")
    yield "the file of a register in an assembly", used(kind, "assembly IT = (register(D(f)))")
    yield "a field in an assembly", used(kind, "assembly IT = (hex(D))")
    yield "a field in an encoding", used(kind, fixes="D = 0")
    yield "the register of a role", used(kind, behind=ABI % "stack pointer = D(0)")
    yield "what a stage reads", used(kind, behind=MICRO % "stage S : read D")
    yield "what a stage writes", used(kind, behind=MICRO % "stage S : compute, write D")
    yield "what is forwarded", used(kind, behind=MICRO % "stage S forward D")


for kind in KINDS:
    for use, text in use_rows(kind):
        row("%s as %s" % ("no name" if kind == "nothing" else kind + " D", use), text)
row("a function without its parentheses", whole("function h() -> Bool = 1\nconstant A = h"))
row("a register file without an index", whole("register file X : Bool -> Bool\nconstant A = X"))
row("a register file without an index as a goal", whole("register file X : Bool -> Bool", behaviour="X := 0"))
row("a register with an index", whole("register R : Bool\nconstant A = R(0)"))
row("a register with an index as a goal", whole("register R : Bool", behaviour="R(0) := 0"))
row("a register file with two indices is no matter of these rules", whole("register file X : Bool -> Bool\nconstant A = X(0, 1) + X()"))
row("a call with too few and too many arguments is no matter of these rules", whole("function h(a : Bool) -> Bool = a\nconstant A = h() + h(1, 2)"))
row("a goal that is a constant", whole("constant A = 1", behaviour="A := 0"))
row("a goal that is a field", whole("", behaviour="f := 0"))
row("a name that differs in the case of a letter", whole("constant a = 1\nconstant b = A"))

# each place where an expression may stand, in items and behind them
PLACES = {
    "the value of a constant": lambda e: whole("constant A = " + e),
    "the width of an alias": lambda e: whole("using A = Bits<%s>" % e),
    "the width of a parameter": lambda e: whole("function h(a : Bool, p : UInt<%s>) -> Bool = 1" % e),
    "the width of a result": lambda e: whole("function h(p : Bool) -> SInt<%s> = 1" % e),
    "the body of a function": lambda e: whole("function h(p : Bool) -> Bool = " + e),
    "the width of the program counter": lambda e: whole("").replace("PC : Bool", "PC : Bits<%s>" % e),
    "the width of an address": lambda e: whole("").replace("MEM : Bool", "MEM : Bits<%s>" % e),
    "the width of a cell": lambda e: whole("").replace("-> Bool", "-> Bits<%s>" % e),
    "the width of a register": lambda e: whole("register R : Bits<%s>" % e),
    "the width of an index": lambda e: whole("register file X : Bits<%s> -> Bool" % e),
    "the width of a register file": lambda e: whole("register file X : Bool -> Bits<%s> zero 0" % e),
    "the register that is zero": lambda e: whole("register file X : Bool -> Bool zero " + e),
    "the width of a format": lambda e: whole("format G : Bits<%s> = { f [0] }" % e),
    "the high end of a range": lambda e: whole("format G : Bool = { f [0], h [2, %s .. 0] }" % e),
    "the low end of a range": lambda e: whole("format G : Bool = { f [0], h [2, 1 .. %s] }" % e),
    "a range of one bit": lambda e: whole("format G : Bool = { f [%s] }" % e),
    "a condition in a behaviour": lambda e: whole("", behaviour="if %s then { }" % e),
    "an assignment behind then": lambda e: whole("", behaviour="if 1 then PC := " + e),
    "an assignment behind else": lambda e: whole("", behaviour="if 1 then { } else PC := " + e),
    "what a let in a behaviour binds": lambda e: whole("", behaviour="let l = %s in { }" % e),
    "an assignment under a let": lambda e: whole("", behaviour="let l = 1 in { { } PC := %s }" % e),
    "the index of a goal": lambda e: whole("register file X : Bool -> Bool", behaviour="X(%s) := 0" % e),
    "the size of a goal": lambda e: whole("", behaviour="MEM<%s>(0) := 0" % e),
    "the address of a goal": lambda e: whole("", behaviour="MEM<1>(%s) := 0" % e),
    "the value of an encoding": lambda e: whole("", encoding="f = " + e),
    "the shift of a target": lambda e: whole("assembly I = (mnemonic, target(f, %s))" % e),
    "the index of a register of a role": lambda e: whole("register file X : Bool -> Bool", ABI % ("stack pointer = X(0) return address = X(%s) return value = X(1)" % e)),
    "the index of a second argument": lambda e: whole("register file X : Bool -> Bool", ABI % ("temporaries = X(0) saved = X(1) arguments = X(0), X(%s)" % e)),
    "the base of the code": lambda e: whole("", ABI % ("code = " + e)),
    "the base of the data": lambda e: whole("", ABI % ("code = 0 data = " + e)),
    "the low end of the stack": lambda e: whole("", ABI % ("stack = %s .. 0" % e)),
    "the high end of the stack": lambda e: whole("", ABI % ("stack = 0 .. " + e)),
}
# and within expressions
WITHIN = {
    "parentheses": "(%s)",
    "the operand of a minus": "-(%s)",
    "the left of an operator": "(%s) & 1",
    "the right of an operator": "1 << (%s)",
    "the first argument": "h(%s, 1)",
    "the second argument": "h(1, %s)",
    "the index of a register": "X(%s)",
    "the size of an access": "MEM<%s>(1)",
    "the address of an access": "MEM<1>(%s)",
    "the high half of a join": "join(%s, 1)",
    "the low half of a join": "join(1, %s)",
    "the operand of a cast": "(%s) as Bool",
    "the width of a cast": "1 as Bits<%s>",
    "the operand of a slice": "(%s)[1..0]",
    "the high bound of a slice": "1[%s..0]",
    "the low bound of a slice": "1[1..%s]",
    "a condition": "if %s then 1 else 1",
    "the value behind then": "if 1 then %s else 1",
    "the value behind else": "if 1 then 1 else %s",
    "what a let binds": "let l = %s in 1",
    "the body of a let": "let l = 1 in %s",
}
INSIDE = "function h(a : Bool, b : Bool) -> Bool = 1\nregister file X : Bool -> Bool\nconstant A = "
for place, text in PLACES.items():
    row("an unknown name as " + place, text("D"))
    row("a field as " + place, text("f"))
    row("a parameter as " + place, text("p"))
    row("a minus below 0 as " + place, text("0 - 1"))
for place, form in WITHIN.items():
    row("an unknown name as " + place, whole(INSIDE + form % "D"))
    row("a division by 0 as " + place, whole(INSIDE + form % "1 / 0"))
row("a call of no function, and an unknown argument", whole("constant A = h(D)"))
row("an unknown argument before an unknown access", whole("function h(a : Bool) -> Bool = 1\nconstant A = h(D) + E<1>(D)"))
row("an unknown condition before an unknown value", whole("constant A = if D then E else E"))

# what lacks
for title, lacking in [("program counter", [COUNTER]), ("memory", [MEMORY]), ("format", [FORMAT]), ("instruction", [INSTRUCTION]), ("encoding", [ENCODING]), ("instruction and no encoding", [INSTRUCTION, ENCODING]),
                       ("program counter and no memory", [COUNTER, MEMORY]), ("format, instruction or encoding", [FORMAT, INSTRUCTION, ENCODING])]:
    row("no " + title, isa("\n".join(item for item in [COUNTER, MEMORY, FORMAT, INSTRUCTION, ENCODING] if item not in lacking)))
row("nothing at all", "instruction set architecture T = { }")
row("no program counter, and an unknown name in front", isa("\n".join([MEMORY, FORMAT, INSTRUCTION, ENCODING, "register R : D"])))
row("no program counter, and an unknown name behind", isa("\n".join([MEMORY, FORMAT, INSTRUCTION, ENCODING]), ABI % "code = D"))
row("the second instruction has no encoding", whole("instruction J : F = { }"))
row("an instruction without an encoding, and an unknown format", whole("instruction J : D = { }"))
row("an encoding in front of its instruction", isa("\n".join([ENCODING, INSTRUCTION, FORMAT, MEMORY, COUNTER])))
row("an encoding whose instruction has an unknown format", isa("\n".join(["encoding I = { f = 0 }", "instruction I : D = { }", FORMAT, MEMORY, COUNTER])))
row("an interface for another name", whole("", ABI.replace("T", "U") % ""))
row("an interface for another name, and an unknown name in it", whole("", ABI.replace("T", "U") % "code = D"))
row("a micro architecture for another name", whole("", MICRO.replace("T", "U") % "stage S"))
row("both for another name", whole("", ABI.replace("T", "U") % "" + MICRO.replace("T", "V") % ""))
row("an interface for the name of an item", whole("constant U = 1", ABI.replace("T", "U") % ""))
row("both for the right name", whole("", ABI % "" + MICRO % "stage S"))
row("an interface for another name, where a memory lacks", isa(COUNTER, ABI.replace("T", "U") % ""))

# inner names hide outer ones
OUTER = "constant C = 1\nusing A = Bool\nfunction h(a : Bool) -> Bool = 1\nregister R : Bool\nregister file X : Bool -> Bool\n"
VALUE_USES = [("a constant as a value", "C", "C"), ("a register as a value", "R", "R"), ("the program counter as a value", "PC", "PC"), ("a function", "h", "h(0)"), ("a register file", "X", "X(0)"), ("an alias", "A", "0 as A"), ("a memory", "MEM", "MEM<1>(0)")]
GOALS = [("a register as a goal", "R", "R := 0"), ("the program counter as a goal", "PC", "PC := 0"), ("a register file as a goal", "X", "X(0) := 0"), ("a memory as a goal", "MEM", "MEM<1>(0) := 0")]
for use, name, e in VALUE_USES:
    row("a let over " + use, whole(OUTER + "constant K = let %s = 0 in %s" % (name, e)))
    row("a parameter over " + use, whole(OUTER + "function k(%s : Bool) -> Bool = %s" % (name, e)))
for use, name, e in [(use, name, "X(1) := " + e if name != "X" else "R := " + e) for use, name, e in VALUE_USES] + GOALS:
    row("a let in a behaviour over " + use, whole(OUTER.strip(), behaviour="let %s = 0 in %s" % (name, e)))
    row("a field over " + use, whole(OUTER.strip(), behaviour=e).replace("g [0]", name + " [0]"))
    row("a let in a behaviour doesn't reach behind it to " + use, whole(OUTER.strip(), behaviour="{ let %s = 0 in { } %s }" % (name, e)))
row("a let over a field", whole("", behaviour="let f = 1 in PC := f"))
row("a let over a parameter", whole("function h(a : Bool) -> Bool = let a = 1 in a"))
row("a let over a let", whole("", behaviour="let l = 1 in let l = l in PC := l"))
row("what a let binds isn't under it", whole("constant K = let l = l in 1"))
row("what a let binds isn't under it, over a constant", whole("constant l = 1\nconstant K = let l = l in l"))
row("a let of a sum in parentheses doesn't reach behind them", whole("constant K = (let l = 1 in l) + l"))
row("a let in a condition doesn't reach the values", whole("constant K = if (let l = 1 in l) then l else 1"))
row("a let under then doesn't reach the else", whole("", behaviour="if 1 then let l = 1 in PC := l else PC := l"))
row("a let isn't known in another instruction", whole("instruction J : F = let l = 1 in { PC := l }\nencoding J = { }", behaviour="PC := l"))
row("a parameter doesn't hide in the types of its function", whole("using A = Bool\nfunction k(A : A, b : A) -> A = b"))
row("a parameter isn't known in the types of its function", whole("function k(a : Bool, b : Bits<a>) -> Bool = b"))
row("a parameter isn't known in the result", whole("function k(a : Bool) -> Bits<a> = a"))
row("a parameter is known in a width of the body", whole("function k(a : Bool) -> Bool = 1 as Bits<a>"))
row("a let is known in a size", whole("", behaviour="let l = 1 in MEM<l>(l) := MEM<l + 1>(l)[l..l] as Bits<l>"))
row("a let over an alias in a width", whole("using A = Bool\nconstant K = let A = 1 in 1 as Bits<A>"))
row("a field over an alias in a cast of a behaviour", whole("using g = Bool", behaviour="PC := 1 as g"))
row("a field over the file of an assembly hides nothing there", whole("register file f : Bool -> Bool\nassembly I = (register(f(f)))"))
row("a field over a constant hides nothing in the encoding", whole("constant f = 1", encoding="f = f"))
row("a field is no value in the encoding", whole("", encoding="f = g"))
row("a field is no value in the shift of an assembly", whole("assembly I = (target(f, g))"))
row("a field of another format", whole("format G : Bool = { h [0] }", behaviour="PC := h"))
row("a field of another format in the encoding", whole("format G : Bool = { h [0] }", encoding="h = 1"))
row("a field of another format in the assembly", whole("format G : Bool = { h [0] }\nassembly I = (hex(h))"))
row("a field of another format hides nothing", whole("format G : Bool = { R [0] }\nregister R : Bool", behaviour="R := 0"))
row("a format that is named as its field", whole("format G : Bool = { G [0] }\ninstruction J : G = PC := G\nencoding J = { G = 0 }"))

# things that use themselves
for title, items in [
    ("a constant of itself", "constant A = A"),
    ("an alias of itself", "using A = A"),
    ("a function of itself", "function h() -> Bool = h()"),
    ("a function of itself with an argument", "function h(a : Bool) -> Bool = if a then h(a - 1) else a"),
    ("a constant of itself in a sum", "constant A = 1 + (2 * A)"),
    ("an alias of itself in a width", "constant B = 1 as A\nusing A = Bits<B>"),
    ("a constant through another", "constant A = B\nconstant B = A"),
    ("a constant through a function", "constant A = h()\nfunction h() -> Bool = A"),
    ("a constant as an argument of a function", "constant A = h(A)\nfunction h(a : Bool) -> Bool = a"),
    ("a constant through an alias", "using A = Bits<B>\nconstant B = 1 as A"),
    ("a function in the type of its parameter", "function h(a : Bits<h(1)>) -> Bool = a"),
    ("a function through the type of its parameter", "using A = Bits<h(1)>\nfunction h(a : A) -> Bool = 1"),
    ("a function through its result", "function h() -> A = 1\nusing A = Bits<h()>"),
    ("a constant in the bound of a slice", "constant A = 7[A..0]"),
    ("a constant in the low bound of a slice", "constant A = 7[1..A]"),
    ("a constant in the width of a cast", "constant A = 7 as Bits<A>"),
    ("a constant in the size of an access", "constant A = MEM<A>(0)"),
    ("a constant in the address of an access", "constant A = MEM<1>(A)"),
    ("a constant in a join", "constant A = join(1, A)"),
    ("a constant in a condition", "constant A = if 1 then 1 else A"),
    ("a constant in what a let binds", "constant A = let A = A in A"),
    ("a constant under a let of another name", "constant A = let B = 1 in A"),
    ("a circle of five", "constant A = B\nusing D = Bits<E()>\nfunction C() -> D = 1\nconstant B = C()\nfunction E() -> Bool = A"),
    ("the first in the text leads into a circle, and isn't on it", "constant A = B\nconstant B = C\nconstant C = B"),
    ("two circles, the first in the text is told", "constant A = D\nconstant B = C\nconstant C = B\nconstant D = A"),
    ("a circle behind an item that the circle uses", "constant A = 1\nconstant B = A + C\nconstant C = A + B"),
    ("a circle in which one is used twice", "function h() -> Bool = i() + i()\nfunction i() -> Bool = j() + h()\nfunction j() -> Bool = 1"),
    ("no circle: two uses of one", "constant A = B + C\nconstant B = D\nconstant C = D\nconstant D = 1"),
    ("no circle: a let over it", "constant A = let A = 1 in A"),
    ("no circle: a let over an alias", "using A = Bits<(let A = 1 in A)>"),
    ("no circle: a let over a constant between", "constant A = let B = 1 in B\nconstant B = A"),
    ("no circle: a parameter over it", "constant A = h(1)\nfunction h(A : Bool) -> Bool = A"),
    ("no circle: a parameter that is named as its function", "function h(h : Bool) -> Bool = h"),
    ("a parameter hides nothing in a type", "using A = Bits<h(1)>\nfunction h(A : A) -> Bool = A"),
    ("no circle: through a register", "constant A = R\nregister R : Bits<A>"),
    ("no circle: through a register file", "constant A = X(0)\nregister file X : Bool -> Bits<A> zero A"),
    ("no circle: through the program counter and the memory", "constant A = D + M<1>(0)"),
    ("a chain turned round", "\n".join("constant A%d = A%d" % (k, k + 1) for k in range(60)) + "\nconstant A60 = 1"),
    ("a chain that closes", "\n".join("constant A%d = A%d" % (k, (k + 1) % 60) for k in range(60))),
    ("a chain that closes in its middle", "\n".join("constant A%d = A%d" % (k, k + 1) for k in range(60)) + "\nconstant A60 = A30"),
]:
    text = whole(items)
    if "M<1>(0)" in items and "MEM" not in items:
        text = text.replace("PC : Bool", "D : Bits<A>").replace("MEM : Bool", "M : Bits<A>")
    row(title, text)
row("no circle: an instruction that writes what it reads", whole("register R : Bool", behaviour="R := R"))

# operators that leave the whole numbers
TOP = 2 ** 128 - 1
for title, e in [
    ("0 - 0", "0 - 0"), ("0 - 1", "0 - 1"), ("1 - 1", "1 - 1"), ("1 - 2", "1 - 2"),
    ("the greatest number + 0", "%d + 0" % TOP), ("the greatest number + 1", "%d + 1" % TOP), ("1 + the greatest number", "1 + 0x" + "F" * 32),
    ("the greatest number - itself", "%d - %d" % (TOP, TOP)), ("0 - the greatest number", "0 - %d" % TOP), ("the greatest number less 1 + 1", "%d + 1" % (TOP - 1)),
    ("2^127 + 2^127", "%d + %d" % (2 ** 127, 2 ** 127)),
    ("2^64 * 2^64", "%d * %d" % (2 ** 64, 2 ** 64)), ("2^64 * (2^64 - 1)", "%d * %d" % (2 ** 64, 2 ** 64 - 1)), ("(2^64 + 1) * (2^64 - 1)", "%d * %d" % (2 ** 64 + 1, 2 ** 64 - 1)),
    ("2^127 * 2", "%d * 2" % 2 ** 127), ("(2^127 - 1) * 2", "%d * 2" % (2 ** 127 - 1)), ("the greatest number * itself", "%d * %d" % (TOP, TOP)), ("0 * the greatest number", "0 * %d" % TOP), ("the greatest number * 1", "%d * 1" % TOP),
    ("1 / 0", "1 / 0"), ("0 / 0", "0 / 0"), ("0 / 1", "0 / 1"), ("5 / 6 is 0, and no divisor", "1 / (5 / 6)"), ("the greatest number / 1", "%d / 1" % TOP), ("7 / 2 is 3", "(7 / 2) - 3"), ("7 / 2 isn't 4", "(7 / 2) - 4"),
    ("1 % 0", "1 % 0"), ("0 % 0", "0 % 0"), ("0 % 1 is 0", "1 / (0 % 1)"), ("7 % 4 is 3", "(7 % 4) - 3"), ("7 % 4 isn't 4", "(7 % 4) - 4"), ("the greatest number % itself is 0", "1 % ({0} % {0})".format(TOP)),
    ("operators group from the left", "1 - 2 + 3"), ("a product binds tighter", "2 - 1 * 3"), ("parentheses first", "3 - (2 - 1) * 3"), ("a sum too great, and less again", "%d + 1 - 1" % TOP), ("a product too great in a remainder", "%d * 2 %% 3" % TOP),
    ("over a broken left", "(0 - 1) - 1"), ("over a broken right", "1 - (1 - 2)"), ("over two broken ones", "(0 - 1) / (0 - 2)"), ("a division by 0 over a broken one", "(0 - 1) / 0"), ("a broken one under typed ones", "~(PC + (0 - 1))"),
    ("a typed one over two broken ones", "(1 / 0) << (0 - 1)"), ("broken behind a broken one over typed", "(0 - 1) & (1 / 0)"), ("a broken one and a typed one", "(0 - PC) + (1 % 0)"),
    ("a minus before a number has a type", "0 - -1"), ("a minus before a number isn't below 0", "-1"), ("not of a number has a type", "~0 + %d" % TOP), ("a cast has a type", "(0 as Bits<8>) - 1"), ("a slice has a type", "0[7..0] - 1"),
    ("a join has a type", "join(0, 0) - 1"), ("a conditional has a type", "(if 1 then 0 else 0) - 1"), ("an access has a type", "MEM<1>(0) - 1"), ("the program counter has a type", "0 - PC"), ("a division of the program counter", "PC / 0"),
    ("a remainder of what has a type", "(1 & 1) % 0"), ("a wide product isn't a whole number", "%d *# 2" % TOP), ("a shift isn't a whole number", "(1 << 200) - (1 >> 1)"), ("a comparison isn't a whole number", "(1 < 2) - (2 = 3)"),
    ("a let of a whole number", "let a = 1 in a - 2"), ("a let of what has a type", "let a = 1 as Bool in a - 2"), ("a let that isn't used", "let a = 0 - 1 in 5"), ("a let of a broken one", "let a = 0 - 1 in a - 2"),
    ("a let in an operand", "(let a = 3 in a * 2) - 7"), ("a let of a let", "let a = (let b = 2 in b + 1) in a - 4"), ("a let over a let", "let a = 1 in let a = a + 1 in a - 3"), ("a let of a number, then of a type", "let a = 0 in let a = PC in a - 1"),
    ("an operator in front of a broken let that isn't used", "0 - (let a = 0 - 1 in 5)"), ("an operator behind a broken let that isn't used", "(let a = 0 - 1 in 5) / 0"),
    ("a call has a type", "h(0) - 1"), ("what is broken in an argument", "0 - h(0 - 1)"), ("a register with an index has a type", "X(0) - 1"),
]:
    row("whole numbers: " + title, whole("function h(a : Bool) -> Bool = a\nregister file X : Bool -> Bool\nconstant A = " + e if "h(" in e or "X(" in e else "constant A = " + e))
for title, items in [
    ("a constant of a constant", "constant A = 1\nconstant B = A - 2"),
    ("a constant behind its use", "constant B = A - 2\nconstant A = 1"),
    ("a broken constant is told once, where it is broken", "constant B = A - 2\nconstant A = 0 - 1\nconstant C = A / 0"),
    ("a constant that has a type", "constant A = 1 as Bits<8>\nconstant B = A - 2"),
    ("a chain of products", "constant A = 65536 * 65536\nconstant B = A * A\nconstant C = B * B - 1\nconstant D = C + 1"),
    ("a chain of products within the limit", "constant A = 65536 * 65536\nconstant B = A * A\nconstant C = (B - 1) * B + (B - 1)"),
    ("a parameter over a constant has a type", "constant A = 1\nfunction h(A : Bool) -> Bool = A - 2"),
    ("a constant in the body of a function", "constant A = 1\nfunction h(a : Bool) -> Bool = a + (A - 2)"),
    ("an argument is no let", "function h(a : Bool) -> Bool = a - 2\nconstant A = h(1)"),
    ("a let over a constant", "constant A = 1\nconstant B = let A = 2 in A - 2"),
    ("a let of a constant over it", "constant A = 1\nconstant B = let A = A in A - 2"),
    ("a function of no parameter has a type", "function h() -> Bool = 1\nconstant A = h() - 2"),
    ("a register has a type", "register R : Bool\nconstant A = R - 1"),
    ("the second of two in the text is on the level above", "constant A = 1 - (2 / 1)\nconstant B = 1 / 0"),
]:
    row("whole numbers: " + title, whole(items))
row("whole numbers: a field has a type", whole("", behaviour="PC := f - 1"))
row("whole numbers: a field over a constant has a type", whole("constant g = 0", behaviour="PC := g - 1"))
row("whole numbers: a constant beside fields", whole("constant K = 0", behaviour="PC := f + (K - 1)"))
row("whole numbers: a let in a behaviour", whole("", behaviour="let l = 1 in { PC := l - 1 PC := l - 2 }"))
row("whole numbers: a let of a field in a behaviour", whole("", behaviour="let l = f in PC := l - 2"))
row("whole numbers: a let over a field in a behaviour", whole("", behaviour="let f = 0 in PC := f - 1"))
row("whole numbers: a let doesn't reach behind it", whole("constant l = 5", behaviour="{ let l = 0 in PC := l PC := l - 1 }"))
row("whole numbers: an operator in the size of a goal before one in its value", whole("", behaviour="MEM<0 - 1>(0) := 1 / 0"))
row("whole numbers: the interface is behind all items", whole("", ABI % "code = 1 - 2", encoding="f = 1 / 0"))

# numbers of nodes
def tower(leaf, steps, top):
    """A tower of lets, each of which stands twice in the next, with an operator over them: it doubles the nodes and adds 1."""
    lets = ["let l0 = %s in" % leaf] + ["let l{0} = l{1} + l{1} in".format(k + 1, k) for k in range(steps)]
    return " ".join(lets) + " " + top.replace("TOP", "l%d" % steps)


MANY = "4,095 nodes and "
DOUBLE = "function h(a : Bool) -> Bool = a + a\n"
for title, top in [("none", "TOP"), ("one", "~TOP"), ("two", "~~TOP"), ("a cast", "TOP as Bool"), ("a cast and a cast", "TOP as Bool as Bool"), ("a slice", "TOP[TOP..TOP]"), ("a slice of a slice", "TOP[1..0][TOP..0]"),
                   ("an access", "MEM<TOP>(TOP)"), ("an access of an access", "MEM<1>(MEM<TOP>(TOP))"), ("a width of as many", "TOP as Bits<TOP>"), ("parentheses", "((TOP))"), ("a join with a number", "join(TOP, 1)"), ("a sum with a number", "TOP + 1"),
                   ("a conditional of a number", "if 1 then TOP else 1"), ("as many in a let that isn't used", "let u = TOP + TOP in ~TOP"), ("a whole number of many operators", "TOP & (1 + 2 * (3 - 1) % 5)"), ("a register with its index", "TOP + X(0)")]:
    row(MANY + title, whole("register file X : Bool -> Bool", behaviour=tower("PC", 11, "PC := " + top)))
row("a tower of lets in an expression", whole("", behaviour="PC := ~(%s)" % tower("PC", 11, "TOP")))
row("a tower of lets in an expression, and one more", whole("", behaviour="PC := ~~(%s)" % tower("PC", 11, "TOP")))
row("a tower of lets of a whole number is one node", whole("", behaviour=tower("1", 40, "PC := TOP")))
row("a tower of lets of a constant is one node", whole("constant A = 7", behaviour=tower("A + A", 30, "PC := TOP")))
row("a constant that is no whole number is one node", whole("constant A = " + tower("PC", 12, "TOP"), behaviour="PC := A"))
row("a sum with a constant that is no whole number is one node", whole("constant A = PC", behaviour=tower("A + 1", 30, "PC := TOP")))
row("a constant of a sum with one that is no whole number is one node", whole("constant A = PC\nconstant B = 1 + A", behaviour=tower("B", 30, "PC := TOP")))
row("whole-number operators over a constant that is no whole number are one node", whole("constant A = PC", behaviour=tower("A - A * 2 / A % 3", 30, "PC := TOP")))
row("a conjunction with a constant that is no whole number is three nodes", whole("constant A = PC", behaviour=tower("A & 1", 10, "PC := ~TOP")))
row("a conjunction with a constant that is no whole number is three nodes, and one more", whole("constant A = PC", behaviour=tower("A & 1", 10, "PC := ~~TOP")))
row("a tower of lets of a field", whole("", behaviour=tower("f", 11, "PC := ~TOP")))
row("a tower of lets of a field, and one more", whole("", behaviour=tower("f", 11, "PC := ~~TOP")))
row("a tower of lets of a register", whole("register R : Bool", behaviour=tower("R", 11, "R := ~~TOP")))
row("a tower of lets of a register with its index", whole("register file X : Bool -> Bool", behaviour=tower("X(X(0))", 10, "PC := TOP")))
row("a tower of lets of a register with its index, and one more", whole("register file X : Bool -> Bool", behaviour=tower("X(X(0))", 10, "PC := ~(TOP & 1)")))
row("a tower of lets that isn't used", whole("", behaviour=tower("PC", 60, "PC := 1")))
row("a tower of lets far above", whole("", behaviour=tower("PC", 60, "PC := TOP")))
row("a tower of lets in two assignments", whole("", behaviour=tower("PC", 10, "{ PC := ~TOP PC := ~TOP }")))
row("a tower of lets in two assignments, and one more", whole("", behaviour=tower("PC", 10, "{ PC := ~TOP PC := ~~TOP }")))
row("a tower of lets in an if without an else", whole("", behaviour=tower("PC", 10, "if TOP then PC := ~TOP")))
row("a tower of lets in an if without an else, and one more", whole("", behaviour=tower("PC", 10, "if TOP then PC := ~~TOP")))
row("a tower of lets in an if with an else", whole("", behaviour=tower("PC", 10, "if 1 then PC := TOP else PC := TOP")))
row("a tower of lets in an if with an else, and one more", whole("", behaviour=tower("PC", 10, "if 1 then PC := TOP else PC := ~TOP")))
row("a tower of lets in the index of a goal", whole("register file X : Bool -> Bool", behaviour=tower("PC", 11, "X(TOP) := 1")))
row("a tower of lets in the index of a goal, and one more", whole("register file X : Bool -> Bool", behaviour=tower("PC", 11, "X(TOP) := ~1")))
row("a tower of lets in the address of a goal, and its size", whole("", behaviour=tower("PC", 11, "MEM<TOP>(TOP) := 1")))
row("a tower of lets in the address of a goal, and one more", whole("", behaviour=tower("PC", 11, "MEM<TOP>(TOP) := ~1")))
CALLS = "".join("function h%d(a : Bool) -> Bool = h%d(a) + h%d(a)\n" % (k, k - 1, k - 1) for k in range(2, 12))
row("a tower of functions", whole("function h1(a : Bool) -> Bool = a + a\n" + CALLS.strip(), behaviour="PC := ~h11(PC)"))
row("a tower of functions, and one more", whole("function h1(a : Bool) -> Bool = a + a\n" + CALLS.strip(), behaviour="PC := ~~h11(PC)"))
BARE = "function h1() -> Bool = PC + PC\n" + CALLS.replace("a : Bool", "").replace("(a)", "()").strip()
row("a tower of functions without parameters", whole(BARE, behaviour="PC := ~h11()"))
row("a tower of functions without parameters, and one more", whole(BARE, behaviour="PC := ~~h11()"))
WHOLES = "function h1(a : Bool) -> Bool = 1 + 2\n" + CALLS.strip()
row("a tower of functions of whole numbers isn't one node", whole(WHOLES, behaviour="{ PC := h11(PC) PC := h11(PC) PC := ~PC }"))
row("a tower of functions of whole numbers isn't one node, and one more", whole(WHOLES, behaviour="{ PC := h11(PC) PC := h11(PC) PC := ~~PC }"))
row("a tower of functions that isn't called", whole("function h1(a : Bool) -> Bool = a + a\n" + CALLS.strip() + "\nfunction i(a : Bool) -> Bool = h11(h11(a))"))
row("a tower of functions whose argument isn't used", whole("function h1(a : Bool) -> Bool = 1\n" + CALLS.strip(), behaviour="PC := h10(h10(h10(PC)))"))
row("arguments that are used twice", whole(DOUBLE.strip(), behaviour="PC := ~%sPC%s" % ("h(" * 11, ")" * 11)))
row("arguments that are used twice, and one more", whole(DOUBLE.strip(), behaviour="PC := ~~%sPC%s" % ("h(" * 11, ")" * 11)))
row("a whole number as an argument that is used twice", whole(DOUBLE.strip(), behaviour="PC := ~%s1%s" % ("h(" * 11, ")" * 11)))
row("a whole number as an argument that is used twice, and one more", whole(DOUBLE.strip(), behaviour="PC := ~~%s1 + 2%s" % ("h(" * 11, ")" * 11)))
row("an argument that isn't used", whole("function h(a : Bool, b : Bool) -> Bool = b", behaviour=tower("PC", 30, "PC := h(TOP, 1)")))
row("an argument that is used once", whole("function h(a : Bool, b : Bool) -> Bool = a + b", behaviour=tower("PC", 11, "PC := h(TOP, 1)")))
row("a parameter under a let of its name", whole("function h(a : Bool) -> Bool = let a = 1 in a", behaviour=tower("PC", 30, "PC := h(TOP)")))
row("a let in a function, over its parameter", whole("function h(a : Bool) -> Bool = let a = a + a in a + a", behaviour=tower("PC", 9, "PC := ~h(TOP)")))
row("a let in a function, over its parameter, and one more", whole("function h(a : Bool) -> Bool = let a = a + a in a + a", behaviour=tower("PC", 9, "PC := ~~h(TOP)")))
row("an argument too many counts nothing", whole("function h() -> Bool = 1", behaviour=tower("PC", 30, "PC := h(TOP)")))
row("a parameter without an argument counts nothing", whole("function h(a : Bool, b : Bool) -> Bool = a + b", behaviour=tower("PC", 11, "PC := h(TOP)")))
row("a parameter without an argument counts nothing, and one more", whole("function h(a : Bool, b : Bool) -> Bool = a + b", behaviour=tower("PC", 11, "PC := ~h(TOP)")))
row("a function that is named as an inner name elsewhere", whole("function l9(a : Bool) -> Bool = a + a\nfunction i(a : Bool) -> Bool = l9(a)", behaviour=tower("PC", 11, "PC := ~i(1)")))
row("the second instruction has too many nodes", whole("instruction J : F = { }\nencoding J = { }", behaviour=tower("PC", 12, "PC := TOP")))
row("two instructions have too many nodes", whole("instruction J : F = %s\nencoding J = { }" % tower("PC", 12, "PC := TOP"), behaviour=tower("PC", 12, "PC := TOP")))
row("two instructions have many nodes, each within the limit", whole("instruction J : F = %s\nencoding J = { }" % tower("PC", 11, "PC := TOP"), behaviour=tower("PC", 11, "PC := ~TOP")))

# two faults in one text: that of the rule that is asked first is told, though the other stands in front
FAULTS = {
    "Syntax": "constant 1 = 1",
    "Duplicate": "register Y : Bool\nregister Y : Bool",
    "Unknown": "register Z : D",
    "Cyclic": "constant W = W",
    "Overflow": "register V : Bits<0 - 1>",
    "Limit": "instruction L : F = %s\nencoding L = { }" % tower("PC", 12, "PC := TOP"),
}
for k, first in enumerate(FAULTS):
    for later in list(FAULTS)[k + 1:]:
        row("%s and %s, with %s in front" % (first, later, later), whole(FAULTS[later] + "\n" + FAULTS[first]))
row("all faults, the last one in front", whole("\n".join(list(FAULTS.values())[:0:-1])))
row("an unknown name in the micro architecture, and a circle", whole(FAULTS["Cyclic"], MICRO % "stage S : read D"))
row("a stage twice, and an unknown name in front", whole(FAULTS["Unknown"], MICRO % "stage S stage S"))

# the example, with each of these mistakes
TWO = open(os.path.join(HERE, "..", "examples", "two.vadl"), encoding="utf-8").read()


def two(title, old, new, count=1):
    if old not in TWO:
        sys.exit("rules.py: two.vadl has no " + old)
    row("two.vadl: " + title, TWO.replace(old, new, count))


ADDED = "  program counter"
two("as it is", "", "")
two("ADD as a second ADDI", "instruction ADD :", "instruction ADDI :")
two("the second encoding for ADDI too", "encoding ADD ", "encoding ADDI ")
two("a field twice", "f3 [14..12]", "rs1 [14..12]")
two("a second program counter", "  register file", "  program counter X : Bits<5>\n  register file")
two("a register file of the memory's name", "register file X", "register file MEM")
two("no memory", "  memory MEM : Bits<32> -> Bits<8>\n", "")
two("no program counter", "  program counter PC : Bits<32>\n", "")
two("no encoding of ADD", "  encoding ADD = { f7 = 0, f3 = 0, op = 0x33 }\n", "")
two("a field that isn't in the format", "X(rs1) + X(rs2)", "X(rs1) + X(rs3)")
two("a field that isn't in the format, in the encoding", "f3 = 0, op = 0x33", "f3 = 0, opcode = 0x33")
two("a register file that isn't there", "X(rs1) + rs2", "Y(rs1) + rs2")
two("a format that isn't there", "ADD : R", "ADD : I")
two("a type that isn't there", "rs2 as Bits<32>", "rs2 as Word")
two("a register without its file", "X(rd) := X(rs1) + X(rs2)", "rd := X(rs1) + X(rs2)")
two("a let that hides the register file", "X(rd) := X(rs1) + X(rs2)", "let X = X(rs1) in X(rd) := X + X(rs2)")
two("a let of the sum", "X(rd) := X(rs1) + X(rs2)", "let sum = X(rs1) + X(rs2) in X(rd) := sum")
two("a width that uses itself", ADDED, "  constant XLEN = WORD * 4\n  constant WORD = XLEN / 4\n  program counter")
two("widths by constants", ADDED, "  constant XLEN = WORD * 4\n  constant WORD = 8\n  program counter")
two("an alias that uses itself through a function", ADDED, "  using Word = Bits<(width(1))>\n  function width(n : Word) -> Word = n\n  program counter")
two("a range below 0", "f7 [31..25]", "f7 [32 - 1..25 - 32]")
two("a divisor of 0", "op = 0x33", "op = 0x33 / 0")
two("an address too great", "op = 0x33", "op = 0x%s + 1" % ("F" * 32))
two("a sum of many", "X(rd) := X(rs1) + X(rs2)", tower("X(rs1)", 11, "X(rd) := TOP"))
two("a sum of fewer", "X(rd) := X(rs1) + X(rs2)", tower("X(rs1)", 9, "X(rd) := TOP"))
two("an interface and a micro architecture", "\n}\n", "\n}\napplication binary interface for T = {\n  stack pointer = X(2) arguments = X(10), X(11) code = 0x1000 stack = 0x800 .. 0x1000 - 1\n}\nmicro architecture for T = {\n  stage F\n  stage E : read X, compute, write X\n  forward X\n}\n")
two("an interface for another architecture", "\n}\n", "\n}\napplication binary interface for RV32 = { code = 0x1000 }\n")
two("a stage that reads a format", "\n}\n", "\n}\nmicro architecture for T = { stage E : read R }\n")
TREES = open(os.path.join(HERE, "..", "crates", "vg_trees", "data", "texts.txt"), encoding="utf-8", newline="").read()
RV32IM = next(r for r in TREES.split("########\n") if r.startswith("RISC-V RV32IM\n")).split("====\n", 1)[1]
row("RISC-V RV32IM", RV32IM)

if len({title for title, text in rows}) != len(rows):
    sys.exit("rules.py: a title stands twice")


def answer(title, text):
    """The line that `check` writes."""
    rule = told(text)
    if rule != "accepted":
        return "refused: description " + rule
    old = OLD.get(title, "refused: not built")
    if not re.fullmatch(r"ok \w+ \d+|refused: not built at \d+:\d+", old):
        sys.exit("rules.py: no answer is known to " + title)
    return old


keep("rules.cases", [case(title, "check d.vadl", [("d.vadl", text)], answer(title, text)) for title, text in rows])
