#!/usr/bin/env python3
"""Makes the table of texts of crates/vg_trees, and the trees that they are held to, by the reader in reference.py.
With --check it changes nothing, and fails where a file isn't as it would make it."""
import os
import re
import sys

sys.setrecursionlimit(1000000)
from reference import shown

CRATE = os.path.join(os.path.dirname(os.path.abspath(__file__)), "..", "crates", "vg_trees")
rows = []
def row(title, text):
    rows.append((title, text))
def isa(body):
    return "instruction set architecture T = {\n" + body + "\n}\n"
def expr(title, e):
    row(title, isa("constant A = " + e))
def stmt(title, s):
    row(title, isa("instruction I : R = " + s))
ABI = "application binary interface for T = {\n%s\n}\n"
MICRO = "micro architecture for T = {\n%s\n}\n"
# items
row("the least description", "instruction set architecture T = { }")
row("comments and white space", "/* a */instruction// b\nset\tarchitecture\r\nT={}")
row("a constant and an alias", isa("constant A = 0x1F\nusing B = Bits<A>\nusing C = B\nusing D = Bool\nusing E = UInt<8 + A> using F = SInt<2 * A>"))
row("functions", isa("function f() -> Bool = 1\nfunction g(a : Bits<4>, b : B) -> UInt<8> = f() + g(a, b)"))
row("counter, memory and registers", isa("program counter PC : Bits<32>\nmemory MEM : Bits<32> -> Bits<8>\nregister S : Bits<1>\nregister file X : Bits<5> -> Bits<32> zero 0\nregister file Y : Bits<2> -> Bits<8>"))
row("a format", isa("format B : Bits<32> = { imm [31, 7, 30..25, 11..8], rs2 [24..20], one [3] }"))
row("encodings", isa("encoding A = { }\nencoding B = { a = 1 }\nencoding C = { a = 1, b = 2 + 3, c = 0b11 }"))
row("an assembly of all parts", isa('assembly A = (mnemonic, " ", register(X(rd)), ",", decimal(a), signed(b), hex(c), target(d, 1 + 1))'))
# expressions
expr("left grouping", "a - b - c")
expr("a minus behind parentheses", "a - (b - c)")
expr("all levels", "a | b ^ c & d = e < f << g + h * i as Bits<8>")
expr("all levels turned round", "a as Bits<8> * i + h << g < f = e & d ^ c | b")
expr("each operator", "a | b ^ c & d != e >= f >> g - h *# i / j % k")
expr("as binds tighter than a product", "2 * x as Bits<8>")
expr("casts of a cast", "x as SInt<4> as SInt<8> as B as Bool")
expr("an operator before its operand and a cast", "-a as B")
expr("operators before an operand", "~ - ! a")
expr("a slice of a slice", "a[7..4][1..0]")
expr("a minus before a slice", "-a[3..0]")
expr("a slice behind parentheses", "(a + b)[if c then 1 else 2..0]")
expr("joins and calls", "join(a, join(b, f()))[7..0] + g(a, b + 1, h(c))")
expr("if and let", "if a = b then let c = d in c + 1 else if e then f else g | h")
expr("a let in parentheses", "(let a = 1 in a) * 2")
expr("an access", "M<4>(X(rs1) + 1)")
expr("a comparison", "a < b")
expr("an access in a sum, and comparisons", "x + a<1>(y) < b & c < d")
expr("an access in the size of an access", "M<N<1>(a) + 1>(b)")
expr("two closing signs without a space are a shift", "M<(a < b) as Bits<1>>(c < d)")
expr("a comparison in the address of an access", "M<(a < b) as Bits<1> >(c < d)")
expr("what looks like two comparisons is an access", "a < b > (c)")
expr("a comparison with a cast at its right", "a < b as Bits<3>")
expr("a cast before an order", "x as Bits<8> > (y)")
expr("an alias before an order", "x as B < y")
expr("comparisons of comparisons in parentheses", "(a < b) < (c > d)")
expr("numbers", "0 + 0xFf + 0b10 + 1'000 + 340282366920938463463374607431768211455")
expr("an access with a shift behind it", "a<2>(b) << c < d")
# refused expressions
expr("a second comparison", "a < b < c")
expr("a second equality", "a = b = c")
expr("an order in the size", "M<a < b>(c)")
expr("a shift in the size", "M<a << b>(c)")
expr("if as an operand", "1 + if a then b else c")
expr("no operand", "1 +")
expr("an open parenthesis", "(1")
expr("a trailing comma", "f(a,)")
expr("a word as an operand", "read")
expr("two operands", "1 2")
expr("else is missing", "if a then b")
expr("a slice of one bound", "a[1]")
expr("an access without parentheses", "M<4>")
# statements
stmt("assignments", "{ PC := 1 X(rd) := a M<4>(b) := c < d }")
stmt("an empty block", "{ }")
stmt("blocks in blocks", "{ { } { A := 1 } }")
stmt("else of the nearest if", "if a then if b then A := 1 else B := 2")
stmt("else behind a block", "if a then { if b then A := 1 } else B := 2")
stmt("two elses", "if a then if b then A := 1 else B := 2 else C := 3")
stmt("a let of a block", "let a = b < c in { A := a if a then B := 1 }")
stmt("a comparison before an access", "{ A := a < b M<4>(x) := y }")
stmt("a comparison before an indexed goal", "{ A := a < b X(x) := y > z }")
stmt("a comparison before a goal", "{ A := a < b C := d > (e) }")
stmt("a comparison before a block", "{ A := a < b { } A := a < b if c then D := e }")
stmt("an if of expressions in an if of statements", "if a then A := if b then c else d else B := e")
stmt("no goal", "1 := 2")
stmt("an equals sign for the assignment", "A = 2")
stmt("an open block", "{ A := 1")
stmt("a statement too many", "A := 1 B := 2")
# depth
P = lambda n, e: "(" * n + e + ")" * n
expr("63 parentheses around a leaf", P(63, "a"))
expr("64 parentheses around a leaf", P(64, "a"))
expr("a sum of 64", " + ".join(["a"] * 64))
expr("a sum of 65", " + ".join(["a"] * 65))
expr("a call adds 1, an empty one is a leaf", P(62, "f(g())"))
expr("a call of a call is too deep", P(62, "f(g(h()))"))
expr("the type of a cast is a part", P(61, "a as Bits<1 + 2>"))
expr("the type of a cast is too deep", P(62, "a as Bits<1 + 2>"))
expr("63 minuses", "-" * 63 + "a")
expr("64 minuses", "- " * 64 + "a")
row("a type adds nothing", isa("using A = Bits<" + P(63, "1") + ">"))
row("a type that is too deep", isa("using A = Bits<" + P(64, "1") + ">"))
stmt("63 blocks", "{ " * 63 + "A := 1" + " }" * 63)
stmt("64 blocks", "{ " * 64 + "A := 1" + " }" * 64)
stmt("64 blocks, the last one empty", "{ " * 64 + " }" * 64)
stmt("an index in 62 blocks", "{ " * 62 + "X(a) := 1" + " }" * 62)
stmt("an index in 63 blocks", "{ " * 63 + "X(a) := 1" + " }" * 63)
# parts
row("an interface", isa("") + ABI % "stack pointer = X(2) return address = X(1) return value = X(10)\narguments = X(10), X(11)\ntemporaries = X(5)\nsaved = X(8), X(9)\ncode = 0x1000 data = 0x800000 stack = 0xC00000 .. 0xD00000")
row("a micro architecture", isa("") + MICRO % "stage F\nstage D : read X\nstage E : compute, resolve\nstage M : read MEM, write MEM\nforward X")
row("both", isa("") + ABI % "" + MICRO % "")
row("both turned round", isa("") + MICRO % "" + ABI % "")
row("two interfaces", isa("") + ABI % "" + ABI % "")
row("a stage without a part", MICRO % "stage F")
row("words that stand in two places of the grammar", isa('register R : Bits<1>\nassembly A = (register(X(rd)))\ninstruction J : F = A := 1') + ABI % "stack = 1 .. 2\nstack pointer = X(1)" + MICRO % "stage S : read R, write R, compute, resolve")
# places
row("an empty text", "")
row("a comment alone", "// nothing")
row("a lacking name", "instruction set architecture T = { constant = 1 }")
row("a fault in the heading", "instruction architecture T = {\nconstant A = 1\n}")
row("a fault in the heading of the interface", isa("constant A = 1") + "application binary interface T = { }")
row("a fault in the heading of the micro architecture", isa("") + "micro T = { }")
for k, item in enumerate(["constant A : 1", "using A = 1", "function f(a) -> B = 1", "function f(a : B) = 1", "program PC : B", "memory M : B", "register A -> B", "register file X : B", "register file X : B -> C zero", "format F : B = { }", "format F : B = { a [] }", "instruction I = A := 1", "encoding A = { a }", "encoding A = { a = 1, }", "assembly A = ()", "assembly A = (signed(a, 1))", "assembly A = (register(a))", "stage F", "A := 1", "set A"]):
    row("a wrong item, number %d" % (k + 1), isa("constant A = 1\n" + item + "\nconstant B = 2"))
for k, role in enumerate(["stack pointer = X", "return = X(1)", "return pointer = X(1)", "arguments =", "saved = X(1),", "code 1", "stack = 1", "stack = 1 ..", "constant A = 1", "pointer = X(1)"]):
    row("a wrong role, number %d" % (k + 1), isa("") + ABI % ("code = 1\n" + role + "\ndata = 2"))
for k, line in enumerate(["stage", "stage F :", "stage F : read", "stage F : compute resolve", "stage F : read A write B", "forward", "forward A, B", "code = 1", "register A : B"]):
    row("a wrong stage line, number %d" % (k + 1), isa("") + MICRO % ("stage A\n" + line + "\nstage B"))
row("an open brace at the end", "instruction set architecture T = {\nconstant A = 1\n")
row("an open brace in the interface", isa("") + "application binary interface for T = {\ncode = 1")
row("an open block at the end", "instruction set architecture T = {\ninstruction I : R = {")
row("a heading alone", "instruction set architecture T = {")
row("a heading without its brace", "instruction set architecture T =")
row("text behind the last brace", isa("") + "x")
row("a brace behind the last brace", isa("") + "}")
row("text behind the micro architecture", isa("") + MICRO % "" + "micro")
row("a second instruction set part", isa("") + isa(""))
row("a closing parenthesis too many", isa("constant A = 1)\nconstant B = 2"))
row("an opening parenthesis too many hides the items behind it", isa("constant A = (1\nconstant B = 2\nconstant C = 3"))
row("a brace too many in an item", isa("constant A = {\nconstant B = 2\n}\nconstant C = 3"))
row("an item behind an item without its end", isa("instruction I : R = {\nconstant B = 2\n}\nconstant C = 3"))
row("a byte that is no token", isa("constant A = $"))
row("an open comment", isa("constant A = 1 /* x"))

def rv32im():
    L = []
    a, b, m, h = "X(rs1)", "X(rs2)", "X(rs1) + sx(imm)", "X(rs2) as Bits<5>"
    def sub(s):
        return re.sub(r"[A-Za-z_0-9]+", lambda t: {"a": a, "b": b, "m": m, "h": h}.get(t.group(), t.group()), s)
    L.append("""instruction set architecture RV32IM = {
  program counter PC : Bits<32>
  memory MEM : Bits<32> -> Bits<8>
  register file X : Bits<5> -> Bits<32> zero 0
  function sx(v : Bits<12>) -> Bits<32> = v as SInt<12> as SInt<32> as Bits<32>
  function jx(v : Bits<20>) -> Bits<32> = v as SInt<20> as SInt<32> as Bits<32>
  function s(v : Bits<32>) -> SInt<32> = v as SInt<32>
  format R : Bits<32> = { funct7 [31..25], rs2 [24..20], rs1 [19..15], funct3 [14..12], rd [11..7], opcode [6..0] }
  format I : Bits<32> = { imm [31..20], rs1 [19..15], funct3 [14..12], rd [11..7], opcode [6..0] }
  format S : Bits<32> = { imm [31..25, 11..7], rs2 [24..20], rs1 [19..15], funct3 [14..12], opcode [6..0] }
  format B : Bits<32> = { imm [31, 7, 30..25, 11..8], rs2 [24..20], rs1 [19..15], funct3 [14..12], opcode [6..0] }
  format U : Bits<32> = { imm [31..12], rd [11..7], opcode [6..0] }
  format J : Bits<32> = { imm [31, 19..12, 20, 30..21], rd [11..7], opcode [6..0] }""")
    classes = {
        "r": 'mnemonic, " ", register(X(rd)), ",", register(X(rs1)), ",", register(X(rs2))',
        "i": 'mnemonic, " ", register(X(rd)), ",", register(X(rs1)), ",", signed(imm)',
        "h": 'mnemonic, " ", register(X(rd)), ",", register(X(rs1)), ",", decimal(rs2)',
        "l": 'mnemonic, " ", register(X(rd)), ",", signed(imm), "(", register(X(rs1)), ")"',
        "s": 'mnemonic, " ", register(X(rs2)), ",", signed(imm), "(", register(X(rs1)), ")"',
        "b": 'mnemonic, " ", register(X(rs1)), ",", register(X(rs2)), ",", target(imm, 1)',
        "j": 'mnemonic, " ", register(X(rd)), ",", target(imm, 1)',
        "u": 'mnemonic, " ", register(X(rd)), ",", hex(imm)',
    }
    def ins(name, form, behaviour, fixes, cls):
        L.append("  instruction %s : %s = %s" % (name, form, behaviour))
        L.append("  encoding %s = { %s }" % (name, ", ".join("%s = %s" % f for f in fixes)))
        L.append("  assembly %s = (%s)" % (name, classes[cls]))
    for n, f3, f7, v in [("ADD",0,0,"a + b"),("SUB",0,0x20,"a - b"),("SLL",1,0,"a << (h)"),("SLT",2,0,"(s(a) < s(b)) as Bits<32>"),("SLTU",3,0,"(a < b) as Bits<32>"),("XOR",4,0,"a ^ b"),("SRL",5,0,"a >> (h)"),("SRA",5,0x20,"(s(a) >> (h)) as Bits<32>"),("OR",6,0,"a | b"),("AND",7,0,"a & b"),
                         ("MUL",0,1,"a * b"),("MULH",1,1,"(s(a) *# s(b))[63..32]"),("MULHSU",2,1,"((s(a) as SInt<64> as Bits<64>) * (b as Bits<64>))[63..32]"),("MULHU",3,1,"(a *# b)[63..32]"),("DIV",4,1,"(s(a) / s(b)) as Bits<32>"),("DIVU",5,1,"a / b"),("REM",6,1,"(s(a) % s(b)) as Bits<32>"),("REMU",7,1,"a % b")]:
        ins(n, "R", "X(rd) := " + sub(v), [("opcode","0x33"),("funct3",f3),("funct7","0x%02X" % f7)], "r")
    for n, f3, v in [("ADDI",0,"a + sx(imm)"),("SLTI",2,"(s(a) < s(sx(imm))) as Bits<32>"),("SLTIU",3,"(a < sx(imm)) as Bits<32>"),("XORI",4,"a ^ sx(imm)"),("ORI",6,"a | sx(imm)"),("ANDI",7,"a & sx(imm)")]:
        ins(n, "I", "X(rd) := " + sub(v), [("opcode","0x13"),("funct3",f3)], "i")
    for n, f3, f7, v in [("SLLI",1,0,"a << rs2"),("SRLI",5,0,"a >> rs2"),("SRAI",5,0x20,"(s(a) >> rs2) as Bits<32>")]:
        ins(n, "R", "X(rd) := " + sub(v), [("opcode","0x13"),("funct3",f3),("funct7","0x%02X" % f7)], "h")
    for n, f3, v in [("LB",0,"MEM<1>(m) as SInt<8> as SInt<32> as Bits<32>"),("LH",1,"MEM<2>(m) as SInt<16> as SInt<32> as Bits<32>"),("LW",2,"MEM<4>(m)"),("LBU",4,"MEM<1>(m) as Bits<32>"),("LHU",5,"MEM<2>(m) as Bits<32>")]:
        ins(n, "I", "X(rd) := " + sub(v), [("opcode","0x03"),("funct3",f3)], "l")
    ins("LUI", "U", "X(rd) := (imm as Bits<32>) << 12", [("opcode","0x37")], "u")
    ins("AUIPC", "U", "X(rd) := PC + ((imm as Bits<32>) << 12)", [("opcode","0x17")], "u")
    for n, f3, v in [("SB",0,"MEM<1>(m) := b as Bits<8>"),("SH",1,"MEM<2>(m) := b as Bits<16>"),("SW",2,"MEM<4>(m) := b")]:
        ins(n, "S", sub(v), [("opcode","0x23"),("funct3",f3)], "s")
    for n, f3, v in [("BEQ",0,"a = b"),("BNE",1,"a != b"),("BLT",4,"s(a) < s(b)"),("BGE",5,"s(a) >= s(b)"),("BLTU",6,"a < b"),("BGEU",7,"a >= b")]:
        ins(n, "B", "if " + sub(v) + " then PC := PC + (sx(imm) << 1)", [("opcode","0x63"),("funct3",f3)], "b")
    ins("JAL", "J", "{ X(rd) := PC + 4 PC := PC + (jx(imm) << 1) }", [("opcode","0x6F")], "j")
    ins("JALR", "I", sub("{ X(rd) := PC + 4 PC := (m) & 0xFFFFFFFE }"), [("opcode","0x67"),("funct3",0)], "l")
    L.append("""}
application binary interface for RV32IM = {
  stack pointer = X(2)  return address = X(1)  return value = X(10)
  arguments = X(10), X(11), X(12), X(13), X(14), X(15), X(16), X(17)
  temporaries = X(5), X(6), X(7)
  saved = X(8), X(9), X(18), X(19), X(20), X(21), X(22), X(23), X(24), X(25), X(26), X(27)
  code = 0x1000  data = 0x800000  stack = 0xC00000 .. 0xD00000
}
micro architecture for RV32IM = {
  stage F
  stage D : read X
  stage E : compute, resolve
  stage M : read MEM, write MEM
  stage W : write X
  forward X
}
""")
    return "\n".join(L)
row("RISC-V RV32IM", rv32im())


FILES = {
    "data/texts.txt": "########\n".join("%s\n====\n%s" % r for r in rows),
    "stdout": "".join("%s\n%s\n" % (title, shown(text)) for title, text in rows),
}
for name, made in FILES.items():
    path = os.path.join(CRATE, name)
    if "--check" in sys.argv:
        if open(path, encoding="utf-8", newline="").read() != made:
            sys.exit("trees.py: %s isn't as it is made" % name)
    else:
        open(path, "w", encoding="utf-8", newline="").write(made)
