#!/usr/bin/env python3
"""Checks that what README.md and the pages of docs/ name between backquotes exists: paths, crates, and names of code and of
definitions."""
import glob
import os
import re
import sys

TOP = os.path.realpath(os.path.join(os.path.dirname(__file__), ".."))
os.chdir(TOP)
PAGES = ["README.md", *sorted(glob.glob("docs/*.md"))]
# made by a build, or standing for any such file
NOT_KEPT = re.compile(r"/out/|[*<>{}]|NAME|BUG|\.\.\.")
PATH = re.compile(r"(?:\./)?(?:crates|docs|tools|examples|dist|\.ci)/[\w./-]+")
# names of the standard library, of the C library and of LLVM IR, and an instruction that a page makes up
OUTSIDE = {"aligned_alloc", "malloc", "memcpy", "memset", "realloc", "to_string", "ORR"}
NAME = re.compile(r"[A-Za-z][A-Za-z0-9]*(?:_[A-Za-z0-9]+)+|(?:[A-Z][a-z0-9]+){2,}")
# a word that stands alone between backquotes
WORD = re.compile(r"[A-Za-z][A-Za-z0-9]*")


def names():
    """Every word of the code, of definitions, of scripts and of crates.txt, and the names of files."""
    found = set()
    files = [it for end in ("rt", "antt", "edit", "py", "sh", "vadl", "cases") for it in glob.glob("**/*." + end, recursive=True) if "/out/" not in it]
    for path in [*files, "crates.txt", ".ci/checks", "vadlgen"]:
        found.add(os.path.splitext(os.path.basename(path))[0])
        with open(path, encoding="utf-8", errors="replace") as opened:
            found.update(re.findall(r"\w+", opened.read()))
    return found


def lacking(page, known):
    with open(page, encoding="utf-8") as opened:
        text = re.sub(r"(?ms)^```.*?^```", "", opened.read())
    for code in re.findall(r"`([^`\n]+)`", text):
        for path in PATH.findall(code):
            if not NOT_KEPT.search(code) and not os.path.exists(path.rstrip("./")):
                yield path
        if "/" not in code:
            asked = [code] if WORD.fullmatch(code) else NAME.findall(code)
            yield from (it for it in asked if it not in known | OUTSIDE)


def main():
    known = names()
    missing = [(page, it) for page in PAGES for it in lacking(page, known)]
    for page, it in missing:
        print("%s names %s, which isn't there" % (page, it))
    sys.exit(bool(missing))


main()
