#!/usr/bin/env python3
"""Makes crates/vg_cases/data/widths.cases: what was worked out by hand (widths_worked.py), and operators at operands of all kinds,
by the reader in widths.py. Of a description that keeps all rules this reader doesn't know what of it is built: such an answer is
kept as the table has it. With --check it changes nothing, and fails where the table isn't as it would make it."""
import re
import sys

sys.setrecursionlimit(1000000)
from cases import answers, case, keep, section
from widths import told
from widths_worked import ROWS, T, value

OLD = answers("widths.cases")
OPERANDS = {
    "Bits<32>": "PC",
    "UInt<32>": "(PC as UInt<32>)",
    "SInt<32>": "(PC as SInt<32>)",
    "Bits<5>": "rs1",
    "Bits<1>": "rs1[0..0]",
    "Bool": "(rs1 = rs2)",
    "Bits<64>": "join(PC, PC)",
    "SInt<65>": "(PC as SInt<65>)",
    "Bits<128>": "(PC as Bits<128>)",
    "a number": "3",
    "a great number": "0x100000000",
}
BINARY = "| ^ & = != < <= > >= << >> + - * *# / %".split()
TARGETS = "Bits<1> Bits<32> Bits<128> UInt<5> SInt<64> Bool Bits<0> SInt<129>".split()


def pairs():
    """Each operand with itself, with bits of one width and with a number, on both sides."""
    for kind in OPERANDS:
        yield from dict.fromkeys(((kind, kind), (kind, "Bits<32>"), ("Bits<32>", kind), (kind, "a number"), ("a number", kind)))


def expressions():
    for sign in BINARY:
        for left, right in dict.fromkeys(pairs()):
            yield "%s %s %s" % (left, sign, right), "%s %s %s" % (OPERANDS[left], sign, OPERANDS[right])
    for kind, operand in OPERANDS.items():
        for sign in "~-!":
            yield "%s of %s" % (sign, kind), sign + operand
        for target in TARGETS:
            yield "%s as %s" % (kind, target), "%s as %s" % (operand, target)
        for high, low in ((0, 0), (4, 1), (31, 0), (32, 0), (1, 2), (127, 127)):
            yield "bits %d to %d of %s" % (high, low, kind), "%s[%d..%d]" % (operand, high, low)
        for other in ("Bits<32>", "SInt<65>", "Bool", "a number"):
            yield "%s joined with %s" % (kind, other), "join(%s, %s)" % (operand, OPERANDS[other])
            yield "a choice of %s and %s" % (kind, other), "if rs1 = rs2 then %s else %s" % (operand, OPERANDS[other])
        yield "a choice by " + kind, "if %s then PC else X(rs1)" % operand
        yield "memory at " + kind, "MEM<4>(%s)" % operand
        yield "a register of number " + kind, "X(%s)" % operand


def worked(number, text, answer):
    title = "worked out %d" % number
    if answer != "accepted":
        return case(title, "check d.vadl", [("d.vadl", text)], "refused: description " + answer)
    kept = OLD.get(title, "refused: not built")
    if not re.fullmatch(r"ok T \d+|refused: not built at \d+:\d+", kept):
        sys.exit("widths_cases.py: no answer is known to " + title)
    return case(title, "check d.vadl", [("d.vadl", text)], kept)


def expression(title, text):
    """The description with this expression in place of the sum of its first instruction, which isn't built then."""
    whole = value("(%s) as Bits<32>" % text)
    rule = told(whole)
    answer = "refused: not built at 6:3" if rule == "accepted" else "refused: description " + rule
    parts = [section("case " + title, ""), section("words check d.vadl", ""), section("file d.vadl: use T", "")]
    parts += [section("with line 6 = " + whole.split("\n")[5], ""), section("answer 1", answer + "\n")]
    return "".join(parts)


cases = [section("text T", T)]
cases += [worked(number, text, answer) for number, (text, answer) in enumerate(ROWS, 1)]
cases += [expression(title, text) for title, text in expressions()]
keep("widths.cases", cases)
