#!/usr/bin/env python3
"""How the scripts of this folder write a table of crates/vg_cases: each gives its cases, and `kept` writes the table, or with
--check fails where the file isn't as it would be made."""
import os
import sys

DATA = os.path.join(os.path.dirname(os.path.abspath(__file__)), "..", "crates", "vg_cases", "data")


def section(line, body):
    """A line of a table, and the lines that belong to it."""
    return "@@ %s\n%s" % (line, body)


def file(name, text):
    """A file of a case. Its last line may lack its line feed."""
    if text and not text.endswith("\n"):
        return section("file " + name, text + "\n") + section("with no last line feed", "")
    return section("file " + name, text)


def case(title, words, files, answer):
    """A case: its answer is what is written, a line, and the status is that of a refusal or of what is done."""
    status = 1 if answer.startswith("refused: ") else 0
    parts = [section("case " + title, ""), section("words " + words, "")]
    parts += [file(name, text) for name, text in files]
    return "".join(parts) + section("answer %d" % status, answer + "\n")


def answers(table):
    """The answers that a table has now, by title."""
    found = {}
    for part in read(table).split("@@ case ")[1:]:
        title, rest = part.split("\n", 1)
        found[title] = rest.rpartition("@@ answer ")[2].split("\n", 1)[1].rstrip("\n")
    return found


def read(table):
    path = os.path.join(DATA, table)
    if not os.path.exists(path):
        return ""
    with open(path, encoding="utf-8", newline="") as opened:
        return opened.read()


def keep(table, cases):
    made = "".join(cases)
    if "--check" in sys.argv:
        sys.exit(0 if read(table) == made else "%s isn't as it is made" % table)
    with open(os.path.join(DATA, table), "w", encoding="utf-8", newline="") as opened:
        opened.write(made)
