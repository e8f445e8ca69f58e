#!/usr/bin/env python3
"""Descriptions whose answers were worked out by hand, asked of the reader in widths.py. Each row is the small description
with one change, and what is told of it. Fails where a row has another answer."""
import sys

sys.setrecursionlimit(1000000)
from widths import told

T = """instruction set architecture T = {
  program counter PC : Bits<32>
  memory MEM : Bits<32> -> Bits<8>
  register file X : Bits<5> -> Bits<32> zero 0
  format R : Bits<32> = { f7 [31..25], rs2 [24..20], rs1 [19..15], f3 [14..12], rd [11..7], op [6..0] }
  instruction ADDI : R = X(rd) := X(rs1) + rs2 as Bits<32>
  encoding ADDI = { f7 = 0, f3 = 0, op = 0x13 }
  instruction ADD : R = X(rd) := X(rs1) + X(rs2)
  encoding ADD = { f7 = 0, f3 = 0, op = 0x33 }
}
"""
ABI = """application binary interface for T = {
  stack pointer = X(2)  return address = X(1)  return value = X(10)
  arguments = X(10), X(11)
  temporaries = X(5), X(6), X(7)
  saved = X(8)
  code = 0x1000  data = 0x800000  stack = 0xC00000 .. 0xD00000
}
"""
MICRO = """micro architecture for T = {
  stage F
  stage D : read X
  stage E : compute, resolve
  stage W : write X
  forward X
}
"""


def line(number, text, whole=T):
    """The description with this line put in behind the line of that number."""
    lines = whole.split("\n")
    return "\n".join(lines[:number] + [text] + lines[number:])


def addi(behaviour):
    return T.replace("X(rd) := X(rs1) + rs2 as Bits<32>", behaviour)


def value(expression):
    return addi("X(rd) := " + expression)


def abi(old="", new=""):
    assert old in ABI
    return T + ABI.replace(old, new, 1)


def micro(old="", new="", whole=T):
    assert old in MICRO
    return whole + MICRO.replace(old, new, 1)


ROWS = [
    (T, "accepted"),
    # types
    (value("X(rs1) + rs2"), "6 Width at 6:35"),
    (value("rs2"), "6 Width at 6:35"),
    (value("X(rs1) & (rs2 = 1)"), "6 Width at 6:35"),
    (value("PC as UInt<32>"), "6 Width at 6:35"),
    (value("PC + (PC as SInt<32>)"), "6 Width at 6:35"),
    (value("~(rs1 = rs2) as Bits<32>"), "6 Width at 6:35"),
    (value("!rs1 as Bits<32>"), "6 Width at 6:35"),
    (value("PC << (rs1 as SInt<5>)"), "6 Width at 6:35"),
    (value("PC << 200"), "accepted"),
    (value("1 << rs1"), "6 Width at 6:35"),
    (value("if rs1 = 1 then 1 else 2"), "6 Width at 6:35"),
    (value("if rs1 then PC else PC"), "6 Width at 6:35"),
    (value("if rs1 = 1 then PC else 2"), "accepted"),
    (value("PC as Bool as Bits<32>"), "6 Width at 6:35"),
    (value("(rs1 < rs2) as Bits<32>"), "accepted"),
    (value("(1 = 1) as Bits<32>"), "6 Width at 6:36"),
    (value("let y = rs1 + rs1[1..0] in PC"), "6 Width at 6:43"),
    (value("MEM<4>(rs1)"), "6 Width at 6:35"),
    (value("MEM<2>(PC)"), "6 Width at 6:35"),
    (addi("X(rs1 = rs2) := PC"), "6 Width at 6:26"),
    (addi("if rs1 then X(rd) := PC"), "6 Width at 6:29"),
    (addi("if 1 then X(rd) := PC"), "6 Width at 6:29"),
    (line(1, "  constant A = PC"), "6 Width at 2:16"),
    (line(1, "  function f(a : Bits<8>) -> Bits<8> = a as Bits<9>"), "6 Width at 2:40"),
    (line(1, "  function f(a : Bits<8>) -> Bits<8> = 255"), "accepted"),
    (line(1, "  register Q : Bool"), "6 Width at 2:16"),
    (line(1, "  register file Y : UInt<3> -> Bits<8>"), "6 Width at 2:21"),
    (T.replace("PC : Bits<32>", "PC : Bool"), "6 Width at 2:24"),
    (T.replace("op = 0x13", "op = PC"), "6 Width at 7:42"),
    # ranges
    (line(1, "  using Big = Bits<129>"), "7 Range at 2:15"),
    (line(1, "  using None = UInt<0>"), "7 Range at 2:16"),
    (line(1, "  function f(a : Bits<8>) -> Bits<8> = 256"), "7 Range at 2:40"),
    (value("PC + 0x100000000"), "7 Range at 6:40"),
    (value("PC[32..0] as Bits<32>"), "7 Range at 6:37"),
    (value("PC[3..4] as Bits<32>"), "7 Range at 6:37"),
    (value("(join(PC, join(PC, join(PC, join(PC, rs1))))) as Bits<32>"), "7 Range at 6:36"),
    (value("((PC *# PC) *# (PC *# PC)) as Bits<32>"), "accepted"),
    (value("(((PC *# PC) *# (PC *# PC)) *# 1) as Bits<32>"), "7 Range at 6:63"),
    (value("MEM<17>(PC) as Bits<32>"), "7 Range at 6:38"),
    (value("MEM<16>(PC) as Bits<32>"), "accepted"),
    (T.replace("PC : Bits<32>", "PC : Bits<24>"), "7 Range at 2:24"),
    (T.replace("-> Bits<8>", "-> Bits<9>"), "7 Range at 3:28"),
    (T.replace("MEM : Bits<32>", "MEM : Bits<16>"), "7 Range at 3:16"),
    (line(5, "  format S : Bits<16> = { a [15..0] }"), "7 Range at 6:14"),
    (line(1, "  register file Y : Bits<3> -> Bits<8> zero 8"), "7 Range at 2:45"),
    (abi("X(2)", "X(32)"), "7 Range at 12:21"),
    (value("(PC[32..0]) & rs1"), "7 Range at 6:38"),
    # formats and encodings
    (T.replace("[31..25]", "[31..26]"), "8 FieldCover at 5:10"),
    (T.replace("[31..25]", "[31..24]"), "8 FieldCover at 5:40"),
    (T.replace("f3 [14..12]", "f3 [12..14]"), "8 FieldCover at 5:68"),
    (T.replace("[31..25]", "[31..25, 32]"), "8 FieldCover at 5:27"),
    (T.replace("[14..12]", "[14, 12, 13]"), "accepted"),
    (T.replace("op = 0x13", "op = 0x80"), "9 FieldValue at 7:37"),
    (T.replace("op = 0x13", "f3 = 0"), "9 FieldValue at 7:37"),
    # behaviours
    (addi("{ X(rd) := PC X(rd) := PC }"), "11 TwoWrites at 6:40"),
    (addi("{ X(rd) := PC X(rs1) := PC }"), "11 TwoWrites at 6:40"),
    (addi("if rd = 1 then X(rd) := PC else X(rd) := X(rs1)"), "accepted"),
    (addi("if rd = 1 then X(rd) := PC else X(rs1) := PC"), "11 TwoWrites at 6:58"),
    (addi("{ if rd = 1 then X(rd) := PC PC := PC if rs1 = 1 then X(rd) := PC }"), "11 TwoWrites at 6:80"),
    (addi("if rd = 1 then MEM<4>(PC) := PC else MEM<2>(PC) := PC as Bits<16>"), "11 TwoWrites at 6:63"),
    (value("MEM<4>(PC) + MEM<4>(X(rs1))"), "12 TwoAccesses at 6:48"),
    (value("MEM<4>(PC) + MEM<4>(let z = PC in (z))"), "accepted"),
    (value("(MEM<4>(PC)) + (MEM<2>(PC) as Bits<32>)"), "12 TwoAccesses at 6:51"),
    (value("X(X(rs1) as Bits<5>)"), "13 IndexNotField at 6:37"),
    (value("X(rs1 + 1)"), "13 IndexNotField at 6:37"),
    (value("X(rs1 as UInt<9> as Bits<5>)"), "accepted"),
    (value("X(1 + 2)"), "accepted"),
    # the binary interface
    (abi(), "accepted"),
    (abi("  saved = X(8)\n"), "15 AbiRole at 16:1"),
    (abi("X(2)", "X(0)"), "15 AbiRole at 12:3"),
    (abi("X(1)", "X(2)"), "15 AbiRole at 12:25"),
    (abi("X(5), X(6), X(7)", "X(5), X(6)"), "15 AbiRole at 14:3"),
    (abi("return value = X(10)", "return value = X(9)"), "accepted"),
    (abi("return value = X(10)", "return value = X(5)"), "15 AbiRole at 14:3"),
    (abi("0x1000", "0x1002"), "15 AbiRole at 16:3"),
    (abi("0x800000", "0x800008"), "15 AbiRole at 16:18"),
    (abi("0x800000", "0xC00000"), "15 AbiRole at 16:35"),
    (abi("0xD00000", "0x100000000"), "15 AbiRole at 16:35"),
    (T.replace(" zero 0", "") + ABI, "15 AbiRole at 12:3"),
    # stages
    (micro(), "accepted"),
    (micro("resolve", "resolve, compute"), "16 StageOrder at 14:31"),
    (micro("compute, resolve", "compute"), "16 StageOrder at 17:1"),
    (micro("  stage D : read X\n  stage E : compute, resolve\n  stage W : write X", "  stage D : write X\n  stage W : compute, resolve, read X"), "16 StageOrder at 14:22"),
    (micro("forward X", "forward X\n  forward X"), "16 StageOrder at 17:3"),
    (micro("forward X", "forward MEM"), "16 StageOrder at 16:3"),
    (micro("write X", "write X, read MEM"), "accepted"),
    (micro("stage W : write X", "stage W"), "16 StageOrder at 17:1"),
    (micro("stage D : read X", "stage D : read X, read X"), "16 StageOrder at 13:21"),
    # limits
    (line(1, "  register file Y : Bits<7> -> Bits<8>"), "18 Limit at 2:17"),
    (line(1, "\n".join("  register Q%d : Bits<8>" % k for k in range(14))), "accepted"),
    (line(1, "\n".join("  register Q%d : Bits<8>" % k for k in range(15))), "18 Limit at 19:17"),
    # two rules at once, in both orders of their places
    (T.replace("[31..25]", "[31..26]").replace("op = 0x13", "op = 0x80"), "8 FieldCover at 5:10"),
    (addi("{ X(rd) := MEM<1>(PC) as Bits<32> X(rd) := MEM<2>(PC) as Bits<32> }"), "11 TwoWrites at 6:60"),
    (value("X(rs1 + rs2 as Bits<32>)").replace("op = 0x13", "op = 0x80"), "6 Width at 6:37"),
    (addi("{ X(rd) := PC X(rd) := PC }").replace("op = 0x13", "op = 0x80"), "9 FieldValue at 7:37"),
    (value("MEM<4>(PC) + MEM<4>(X(rs1 + 1))"), "12 TwoAccesses at 6:48"),
    (value("X(rs1 + 1) + MEM<4>(PC) + MEM<4>(X(rs1))"), "12 TwoAccesses at 6:61"),
    (addi("{ X(rd) := MEM<4>(PC) + MEM<4>(X(rs1)) X(rd) := PC }"), "11 TwoWrites at 6:65"),
    # more of behaviours
    (addi("{ PC := X(rs1) PC := X(rs1) }"), "11 TwoWrites at 6:41"),
    (addi("{ X(rd) := PC PC := X(rs1) MEM<4>(PC) := PC }"), "accepted"),
    (addi("{ MEM<4>(PC) := PC MEM<4>(PC) := PC }"), "11 TwoWrites at 6:45"),
    (addi("if rd = 1 then { X(rd) := PC PC := PC } else { PC := X(rs1) X(rd) := PC PC := PC }"), "11 TwoWrites at 6:98"),
    (addi("if rd = 1 then X(rd) := PC else if rs1 = 1 then X(rd) := PC else X(rs2) := PC"), "11 TwoWrites at 6:91"),
    (addi("{ if rd = 1 then PC := PC else X(rd) := PC X(rd) := PC }"), "11 TwoWrites at 6:69"),
    (addi("if rd = 1 then MEM<4>(let z = PC in z) := PC else MEM<4>(PC) := X(rs1)"), "accepted"),
    (addi("if rd = 1 then X(rd as Bits<5>) := PC else X(rd) := PC"), "11 TwoWrites at 6:69"),
    (addi("if MEM<4>(PC) = 1 then { } else if MEM<4>(X(rs1)) = 1 then { }"), "12 TwoAccesses at 6:61"),
]


if __name__ == "__main__":
    wrong = [(text, answer, told(text)) for text, answer in ROWS if told(text) != answer]
    for text, answer, got in wrong:
        print("%s--- expected: %s\n--- told: %s\n" % (text, answer, got))
    print("%d rows, %d of them wrong" % (len(ROWS), len(wrong)))
    sys.exit(bool(wrong))
