#!/usr/bin/env python3
"""Makes the lists of docs/DEFINITIONS.md: the definitions on which the clauses of the program's one call rest, in an order in
which each stands behind those that it is made of, with the sentence above each; and the other public ones. With --check it
changes nothing, and fails where the page isn't as it would make it. With --lacking it prints the public definitions above
which no sentence stands."""
import os
import re
import sys

TOP = os.path.join(os.path.dirname(os.path.abspath(__file__)), "..")
PAGE = os.path.join(TOP, "docs", "DEFINITIONS.md")
CALL = ("vg_top", os.path.join("src", "program.rt"), "vadlgen")
BEGIN, END = "<!-- made by tools/definitions.py -->", "<!-- end of what tools/definitions.py makes -->"
HEAD = re.compile(r"^(?:pub )?(?:abbrev |unfoldable |mutual |record |data )*(pub )?(?:record |data )?([^\s:(]+) .*:")
WORD = re.compile(r"[^\s(){},;\[\].λ=:→×⊎↔¬∷]+(?:\.[A-Za-z_][^\s(){},;\[\].:]*)?")


class Definition:
    """One definition: its name, the sentence above it, and the words of its text."""

    def __init__(self, module, name, is_public, sentence, line):
        self.module, self.name, self.is_public, self.sentence, self.line = module, name, is_public, sentence, line
        self.text = ""

    def key(self):
        return self.module + (self.name,)


class Module:
    """A file of specs/: what its names stand for, and its definitions in their order."""

    def __init__(self, crate, path):
        self.crate = crate
        inside = os.path.relpath(path, os.path.join(TOP, "crates", crate, "specs"))
        self.file = os.path.splitext(inside)[0].replace(os.sep, ".")
        self.names, self.wholes, self.definitions = {}, {}, []
        with open(path, encoding="utf-8") as opened:
            self.read(opened.read())

    def read(self, text):
        above, current = [], None
        for number, line in enumerate(text.split("\n"), 1):
            if line.startswith("use "):
                uses(line, self.names, self.wholes)
                above, current = [], None
            elif re.match(r"\s*-- ", line) and current is None:
                above.append(line.strip()[3:].strip())
            elif not line.strip():
                above = [] if current is None else above
                current = current if line else None
                above = []
            elif not line.startswith(" ") and declared(line):
                is_public, name = declared(line)
                current = Definition((self.crate, self.file), name, is_public, " ".join(above), number)
                current.text, above = line, []
                self.definitions.append(current)
            elif self.definitions:
                self.definitions[-1].text += "\n" + re.sub(r"\s--\s.*$", "", line)


def declared(line):
    """Whether a line begins a definition: whether it is public, and its name."""
    if not re.match(r"(abbrev|unfoldable|pub|record|data|mutual)\b", line) or " : " not in line + " ":
        return None
    words = line.split(" : ")[0].split()
    is_public = "pub" in words
    names = [it for it in words if it not in ("abbrev", "unfoldable", "pub", "record", "data", "mutual")]
    return (is_public, names[0]) if names else None


def uses(line, names, wholes):
    """What a `use` line brings in: names of a module, or a module as a whole under a name."""
    found = re.match(r"(?:ghost )?use Rattle\.(\w+)\.specs\.([\w.]+)(?:\.\{(.*)\}| as (\S+?));?$", line)
    if not found:
        return
    crate, module, listed, whole = found.groups()
    if whole:
        wholes[whole] = (crate, module)
        return
    for item in listed.split(","):
        name, _, as_name = item.strip().partition(" as ")
        names[as_name or name] = (crate, module, name)


def all_modules():
    modules = {}
    for crate in sorted(os.listdir(os.path.join(TOP, "crates"))):
        for folder, _, files in sorted(os.walk(os.path.join(TOP, "crates", crate, "specs"))):
            for file in sorted(files):
                if file.endswith(".antt") and file != "Lib.antt":
                    module = Module(crate, os.path.join(folder, file))
                    modules[crate, module.file] = module
    return modules


def meant(word, names, wholes):
    """The definition that a word of a text names, as crate, file and name, where it is one of another file."""
    if word in names:
        return names[word]
    whole, _, name = word.partition(".")
    if name and whole in wholes:
        return wholes[whole] + (name,)
    return None


def parts_of(definition, modules):
    """The definitions that a definition's text names."""
    module = modules[definition.module]
    own = {it.name for it in module.definitions}
    for word in WORD.findall(definition.text):
        base = word.partition(".")[0]
        found = meant(word, module.names, module.wholes) or meant(base, module.names, module.wholes)
        if found is None and base in own and base != definition.name:
            found = definition.module + (base,)
        if found:
            yield found


def clauses_of_call():
    """The definitions that the clauses of the program's call name."""
    crate, path, name = CALL
    names, wholes, found = {}, {}, []
    with open(os.path.join(TOP, "crates", crate, path), encoding="utf-8") as opened:
        text = opened.read()
    for line in text.split("\n"):
        uses(line, names, wholes)
    signature = text[text.index("pub fn " + name) :]
    for word in WORD.findall(signature[: signature.index("\n{")]):
        it = meant(word, names, wholes) or meant(word.partition(".")[0], names, wholes)
        if it and it not in found:
            found.append(it)
    return found


def closure(modules):
    """The definitions that the clauses rest on, each behind those that its text names."""
    by_key = {it.key(): it for module in modules.values() for it in module.definitions}
    done, order = set(), []
    stack = [(key, iter(())) for key in reversed(clauses_of_call()) if key in by_key]
    stack = [(by_key[key], None) for key, _ in stack]
    while stack:
        definition, rest = stack.pop()
        if rest is None:
            if definition.key() in done:
                continue
            done.add(definition.key())
            rest = [by_key[it] for it in dict.fromkeys(parts_of(definition, modules)) if it in by_key]
        waiting = [it for it in rest if it.key() not in done]
        if waiting:
            stack.append((definition, waiting[1:]))
            stack.append((waiting[0], None))
        else:
            order.append(definition)
    return order


def ranks(order, modules):
    """The files of the definitions, each behind those that it uses, as far as files don't use one another."""
    rank = {}
    for definition in order:
        rank.setdefault(definition.module, len(rank))
    return rank


def lines_of(definitions, modules):
    """A list of definitions, a file at a time."""
    files = {}
    for it in definitions:
        files.setdefault(it.module, []).append(it)
    for module, found in files.items():
        yield "`crates/%s/specs/%s.antt`\n" % (module[0], module[1].replace(".", "/"))
        for it in sorted(found, key=lambda it: it.line):
            yield "- `%s`%s" % (it.name, ": " + it.sentence if it.sentence else "")
        yield ""


def made(modules):
    order = closure(modules)
    public = [it for it in order if it.is_public]
    inside = {it.key() for it in order}
    others = [it for module in modules.values() for it in module.definitions if it.is_public and it.key() not in inside]
    lines = [BEGIN, "", "## What the clauses of the call rest on", ""]
    lines.append("%d definitions, each file behind those that it uses. Read the sentence, then the definition.\n" % len(public))
    lines += lines_of(public, modules)
    lines += ["## Other public definitions", ""]
    lines.append("%d definitions of calls by themselves, or of what stands between code and definition; no clause of the call rests on them.\n" % len(others))
    lines += lines_of(others, modules)
    return "\n".join(lines) + END + "\n"


def main():
    modules = all_modules()
    if "--lacking" in sys.argv:
        for module in modules.values():
            for it in module.definitions:
                if it.is_public and not it.sentence:
                    print("crates/%s/specs/%s.antt:%d: %s" % (*it.module, it.line, it.name))
        return
    with open(PAGE, encoding="utf-8") as opened:
        page = opened.read()
    front, _, rest = page.partition(BEGIN)
    new = front + made(modules) + rest.partition(END + "\n")[2]
    if "--check" in sys.argv:
        sys.exit(0 if new == page else "docs/DEFINITIONS.md isn't as tools/definitions.py makes it")
    with open(PAGE, "w", encoding="utf-8") as opened:
        opened.write(new)


main()
