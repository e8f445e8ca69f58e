#!/usr/bin/env python3
"""Makes crates/vg_cases/data/lines.cases: images whose texts are cut at every byte, and images with each line broken in turn,
with the line at which each is refused; images at both ends of the address space, and of the greatest length. The judge goes by
the definition: a text is refused at the first line such that no spelling begins with the lines up to and with it, or at one
more than there are lines."""
import re

from cases import file, keep, section

T = """instruction set architecture T = {
  program counter PC : Bits<32>
  memory MEM : Bits<32> -> Bits<8>
  register file X : Bits<5> -> Bits<32> zero 0
  format R : Bits<32> = { f7 [31..25], rs2 [24..20], rs1 [19..15], f3 [14..12], rd [11..7], op [6..0] }
  instruction ADDI : R = X(rd) := X(rs1) + rs2 as Bits<32>
  encoding ADDI = { f7 = 0, f3 = 0, op = 0x13 }
  instruction ADD : R = X(rd) := X(rs1) + X(rs2)
  encoding ADD = { f7 = 0, f3 = 0, op = 0x33 }
}
"""

SPACE = 1 << 32
ADDRESS = "0x[0-9a-f]{8}"
HEAD = ["image T", "base " + ADDRESS, "entry " + ADDRESS, "stop " + ADDRESS, "full " + ADDRESS]
TAGS = [
    ("c", "code [0-9a-f]{8}"),
    ("d", "data " + ADDRESS),
    ("b", "bytes [0-9a-f]{32}"),
    ("s", "bytes ([0-9a-f]{2}){1,15}"),
    ("y", "symbol [A-Za-z0-9_.+-]+ " + ADDRESS),
    ("e", "end"),
]


def tag(line):
    for name, pattern in TAGS:
        if re.fullmatch(pattern, line):
            return name
    return "x"


def number(line):
    return int(line.split(" 0x")[1], 16)


def is_beginning(lines):
    """Whether some spelling begins with these lines."""
    if not all(re.fullmatch(pattern, line) for pattern, line in zip(HEAD, lines)):
        return False
    if len(lines) > 1 and number(lines[1]) % 4 != 0:
        return False
    rest = lines[len(HEAD):]
    tags = "".join(map(tag, rest))
    if not re.fullmatch("c*(d(b*(s?(y*e?))))?", tags):
        return False
    if rest and number(lines[1]) + 4 * tags.count("c") > SPACE:
        return False
    data = [number(line) for line in rest if line.startswith("data ")]
    bytes_ = sum(len(line) // 2 - 3 for line in rest if line.startswith("bytes "))
    return not data or data[0] + bytes_ <= SPACE


def lines_of(text):
    lines = text.split("\n")
    return lines if lines[-1] else lines[:-1]


def answer(text):
    lines = lines_of(text)
    for count in range(1, len(lines) + 1):
        if not is_beginning(lines[:count]):
            return "refused: image line %d" % count
    if not lines or lines[-1] != "end" or not text.endswith("\n"):
        return "refused: image line %d" % (len(lines) + 1)
    first = [k for k, line in enumerate(lines) if line.startswith(("bytes ", "symbol "))]
    return "refused: not built at %d:1" % (first[0] + 1)


def case(title, text, given=None):
    status_and_answer = answer(text) if given is None else given
    status = 1 if status_and_answer.startswith("refused: ") else 0
    return (
        section("case " + title, "")
        + section("words run d.vadl i.image 10", "")
        + section("file d.vadl: use T", "")
        + file("i.image", text)
        + section("answer %d" % status, status_and_answer + "\n")
    )


SMALL = [
    "image T",
    "base 0x00001000",
    "entry 0x00001000",
    "stop 0x00001008",
    "full 0x00001008",
    "code 00500093",
    "code 002081b3",
    "data 0x00002000",
    "bytes 000102030405060708090a0b0c0d0eff",
    "bytes 5a",
    "symbol a.b+c 0x00001000",
    "symbol a.b+c 0xffffffff",
    "end",
]


def text(lines):
    return "".join(line + "\n" for line in lines)


def cuts():
    whole = text(SMALL)
    return [case("an image cut at %d" % at, whole[:at]) for at in range(len(whole))]


def broken(line):
    """Other lines in place of one."""
    word, space, rest = line.partition(" ")
    yield "left out", []
    yield "twice", [line, line]
    yield "with a space behind", [line + " "]
    yield "with a space before", [" " + line]
    yield "with an empty line before", ["", line]
    yield "with upper case", [line.upper()]
    yield "with its last byte lacking", [line[:-1]]
    yield "with one byte more", [line + ("x" if word == "image" else "0")]
    yield "with two spaces", [word + "  " + rest]
    yield "with another word", ["x" + line]
    yield "with a byte that is no digit", [line[:-1] + "g"]


def breaks():
    for at, line in enumerate(SMALL):
        for how, lines in broken(line):
            yield case("line %d %s" % (at + 1, how), text(SMALL[:at] + lines + SMALL[at + 1:]))


def with_lines(changes):
    return text(line for k, old in enumerate(SMALL) for line in changes.get(k + 1, [old]))


def names():
    for name in ["a", "_", ".", "+", "-", "0", "a:b", "a,b", "a b", "", "a\tb", ".L0", "end", "image"]:
        yield case("a symbol named %r" % name, with_lines({11: ["symbol %s 0x00001000" % name]}))


def ends():
    """Code and data at both ends of the address space."""
    bare = {9: [], 10: [], 11: [], 12: []}
    top = {2: ["base 0xfffffffc"], 3: ["entry 0xfffffffc"], 4: ["stop 0x00000000"], 7: []}
    yield case("code up to the end of the address space", with_lines({**bare, **top}), "ended after 1\npc 0x00000000\nX[1] 0x00000005")
    yield case("a code word more", with_lines({**bare, **top, 7: [SMALL[6]]}))
    low = {2: ["base 0x00000000"], 3: ["entry 0x00000000"], 4: ["stop 0x00000008"]}
    yield case("code at 0", with_lines({**bare, **low}), "ended after 2\npc 0x00000008\nX[1] 0x00000005\nX[3] 0x00000005")
    yield case("no code at the last word", with_lines({**bare, 2: ["base 0xfffffffc"], 3: ["entry 0x00001008"], 6: [], 7: []}), "ended after 0\npc 0x00001008")
    for base in ["0xffffffef", "0xfffffff0", "0xfffffff1", "0xffffffff", "0x00000000"]:
        yield case("17 bytes of data at %s" % base, with_lines({8: ["data " + base]}))
    yield case("a byte at the last address", with_lines({8: ["data 0xffffffff"], 9: []}))
    yield case("two bytes at the last address", with_lines({8: ["data 0xffffffff"], 9: [], 10: ["bytes 5a5a"]}))


def rows():
    """Lines of data of each length, alone and in front of another."""
    for count in range(0, 18):
        digits = "".join("%02x" % k for k in range(count))
        yield case("a line of %d bytes" % count, with_lines({9: [], 10: ["bytes " + digits]}))
        yield case("a line of %d bytes in front of another" % count, with_lines({9: ["bytes " + digits]}))


LIMIT = 8 << 20


def filled(lines, repeated, more=0):
    """How many times a line is to stand so that a text has 8 MiB and so many bytes more, and a name that takes up the rest."""
    size = len(repeated) + 1
    times, rest = divmod(LIMIT + more - len(text(lines)) + size, size)
    return times, "T" * (1 + rest)


def long_case(title, lines, repeated, given, changes=(), more=0):
    """A case of an image of 8 MiB and so many bytes more, in which one of the lines is repeated."""
    times, name = filled(lines, repeated, more)
    made = ["line %d times %d" % (lines.index(repeated) + 1, times), *changes]
    return (
        section("case " + title, "")
        + section("words run d.vadl i.image 10", "")
        + section("file d.vadl: use T", "")
        + section("with line 1 = instruction set architecture %s = {" % name, "")
        + file("i.image", text(["image " + name] + lines[1:]))
        + "".join(section("with " + change, "") for change in made)
        + section("answer %d" % given.startswith("refused: "), given + "\n")
    )


def longest():
    """Images of the greatest length, and of one byte more."""
    code, data = SMALL[5], "bytes " + 32 * "0"
    lines = SMALL[:8] + SMALL[12:]
    times, _ = filled(lines, code)
    end = 0x1000 + 4 * (times + 1)
    lines[2:4] = ["entry 0x%08x" % (end - 8), "stop 0x%08x" % end]
    last = len(lines) + times - 1
    done = "ended after 2\npc 0x%08x\nX[1] 0x00000005\nX[3] 0x00000005" % end
    broken_at = ["line %d = ene" % last]
    yield long_case("8 MiB of code", lines, code, done)
    yield long_case("8 MiB of code and a byte", lines, code, "refused: too long i.image", more=1)
    yield long_case("8 MiB of code, the last line broken", lines, code, "refused: image line %d" % last, broken_at)
    yield long_case("8 MiB of data", SMALL[:8] + [data] + SMALL[9:], data, "refused: not built at 9:1")


keep("lines.cases", [section("text T", T), *cuts(), *breaks(), *names(), *ends(), *rows(), *longest()])
