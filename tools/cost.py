#!/usr/bin/env python3
"""What the proofs of a crate cost from nothing: its check, its tests and its edits, in processor time and peak memory.

    tools/cost.py NAME..    measures these crates, prints what each check, test and edit took and the ten functions that
                            take longest, and writes their rows into docs/COST.md
    tools/cost.py           all crates of crates.txt
    tools/cost.py --functions NAME..    the ten functions alone; writes no row
    tools/cost.py --watch PID           the rows of the crates that a running `rt ci` proves, from what its own checks take
    tools/cost.py --check   measures nothing: fails where a crate has no row in docs/COST.md, or a row has no crate

Everything is proved from nothing on one processor, as the gate does it: the crate as a library that others stand on, its
tests, a check that the edits begin with, and each edit over what that kept. The libraries below are built first, and kept
in a folder of their own (--work FOLDER), by the checksums of their sources. The time of a function is that between the
line that the kit prints when it has ended with its proof, in the check that the edits begin with or in a program's own,
and the line before (the first has none). Lines are those of a crate's src/*.rt."""
import glob
import hashlib
import os
import re
import shutil
import subprocess
import sys
import tempfile
import time

TOP = os.path.normpath(os.path.join(os.path.dirname(os.path.abspath(__file__)), ".."))
PAGE = os.path.join(TOP, "docs", "COST.md")
KIT = os.path.dirname(os.path.dirname(os.path.realpath(shutil.which("rt") or "/opt/rattle/bin/rt")))
RATTLE = os.path.join(KIT, "bin", "rattle")
PARTS = ("src", "specs", "proofs", "must-fail")
MARK = "<!-- made by tools/cost.py from here on -->"
HEAD = ["crate", "lines", "check", "tests", "edits", "all", "for 1,000 lines", "memory"]


def crates():
    """Each crate of crates.txt with those that it stands on."""
    found = {}
    with open(os.path.join(TOP, "crates.txt")) as it:
        for line in it:
            name, colon, deps = line.split("#")[0].partition(":")
            if colon:
                found[name.split()[0]] = deps.split()
    return found


CRATES = crates()


def below(name):
    found = []
    for dep in CRATES[name]:
        if dep in CRATES:
            found += [it for it in [*below(dep), dep] if it not in found]
    return found


def folder(name):
    return os.path.join(TOP, "crates", name)


def files(name):
    found = []
    for part in PARTS:
        for at, _, names in os.walk(os.path.join(folder(name), part)):
            found += [os.path.join(at, it) for it in names]
    return sorted(found)


def lines(name):
    return sum(open(it).read().count("\n") for it in files(name) if it.endswith(".rt"))


def checksum(name):
    made = hashlib.sha256()
    for crate in [*below(name), name]:
        for file in files(crate):
            made.update(os.path.relpath(file, TOP).encode() + b"\0" + open(file, "rb").read() + b"\0")
    return made.hexdigest()[:16]


def words(name, libraries, tests=False):
    is_program = os.path.isfile(os.path.join(folder(name), "src", "main.rt"))
    made = ["--crate-name", name, "src/main.rt" if is_program else "src/lib.rt"]
    for dep in ["std", *[it for it in CRATES[name] if it not in CRATES]]:
        made += ["--extern", f"{dep}={KIT}/rlibs/{dep}.rlib"]
    made += ["-L", f"dependency={KIT}/rlibs"]
    for dep in CRATES[name]:
        if dep in CRATES:
            made += ["--extern", f"{dep}={libraries[dep]}"]
    for dep in below(name):
        made += ["-L", f"dependency={os.path.dirname(libraries[dep])}"]
    made += ["--antt-project", f"{KIT}/rattle/logic/antt-project.json", "--logic-built", f"{KIT}/logic_built"]
    return [*made, "--jobs", "1", "--links", f"{name}="] + ["--test"] * tests


class Run:
    """A command that was run to its end: its status, what it said, its processor time in seconds and its memory in MB."""

    def __init__(self, command, at):
        ran = subprocess.Popen([RATTLE, *command], cwd=at, stdin=subprocess.DEVNULL, stdout=subprocess.PIPE, stderr=subprocess.STDOUT, text=True, errors="replace")
        self.said, self.functions, before = [], [], None
        for line in ran.stdout:
            self.said.append(line)
            now = cpu_of(ran.pid)
            found = re.match(r"checked (\S+), \d+ of \d+", line)
            if found and before is not None:
                self.functions.append((now - before, found[1]))
            if found:
                before = now
        _, status, used = os.wait4(ran.pid, 0)
        ran.returncode = self.status = os.waitstatus_to_exitcode(status)
        self.seconds, self.megabytes = used.ru_utime + used.ru_stime, used.ru_maxrss // 1024


def cpu_of(pid):
    try:
        with open(f"/proc/{pid}/stat") as it:
            told = it.read().rpartition(")")[2].split()
        # its own alone: a copy of it that it forked is a process of its own
        return (int(told[11]) + int(told[12])) / os.sysconf("SC_CLK_TCK")
    except OSError:
        return 0.0


def library(name, work, libraries):
    """Builds a library from nothing, where the folder doesn't keep it."""
    to = os.path.join(work, f"{name}-{checksum(name)}", f"{name}.rlib")
    libraries[name] = to
    if os.path.isfile(os.path.join(os.path.dirname(to), "well")):
        return None
    shutil.rmtree(os.path.dirname(to), ignore_errors=True)
    os.makedirs(os.path.dirname(to))
    ran = Run(["build", *words(name, libraries), "--statements", "--empty-contracts", "-o", to], folder(name))
    if ran.status:
        sys.exit(f"{name} is not proved:\n{''.join(ran.said[-20:])}")
    open(os.path.join(os.path.dirname(to), "well"), "w").close()
    return ran


def told_of(pid):
    """What a running check is of, as (crate, part), and what it took so far; None for any other process."""
    with open(f"/proc/{pid}/cmdline") as it:
        given = it.read().split("\0")
    if os.path.basename(given[0]) != "rattle" or "--crate-name" not in given:
        return None
    of_edits = os.path.basename(os.readlink(f"/proc/{pid}/cwd")).startswith("rt-edit-")
    part = "edits" if of_edits else "tests" if "--test" in given else "check"
    with open(f"/proc/{pid}/status") as it:
        memory = int(re.search(r"VmHWM:\s+(\d+)", it.read())[1]) // 1024
    return given[given.index("--crate-name") + 1], part, cpu_of(pid), memory


def is_below(pid, top):
    while pid > 1 and pid != top:
        with open(f"/proc/{pid}/stat") as it:
            pid = int(it.read().rpartition(")")[2].split()[1])
    return pid == top


def watch(top):
    """Follows a running gate to its end, and writes the rows of the crates that it proved, with all of their edits, meanwhile."""
    seen, before, alive = {}, set(), set()
    while os.path.isdir(f"/proc/{top}"):
        before, alive = alive, set()
        for pid in filter(str.isdigit, os.listdir("/proc")):
            try:
                told = told_of(pid) if is_below(int(pid), top) else None
            except (OSError, IndexError, TypeError, ValueError):
                continue
            if told:
                seen[pid, told[:2]] = told
                alive.add(told[0])
        time.sleep(0.5)
    # what a gate that is stopped had begun is no row
    begun = before | alive
    above, rows = read_page()
    for name in CRATES:
        took = {part: sum(it[2] for it in seen.values() if it[:2] == (name, part)) for part in ("check", "tests", "edits")}
        number = len(glob.glob(os.path.join(folder(name), "must-fail", "*.edit")))
        tried = sum(it[:2] == (name, "edits") for it in seen.values())
        if took["check"] and tried >= number and name not in begun:
            memory = max(it[3] for it in seen.values() if it[0] == name)
            rows[name] = [lines(name), took["check"], took["tests"], number, took["edits"], sum(took.values()), memory]
    write_page(above, {it: rows[it] for it in rows if it in CRATES})


def copy_of(name, room, edit=None):
    for part in PARTS[:3]:
        if os.path.isdir(os.path.join(folder(name), part)):
            shutil.copytree(os.path.join(folder(name), part), os.path.join(room, part))
    if edit:
        file = old = None
        for line in open(edit).read().split("\n"):
            if line.startswith("file: "):
                file = os.path.join(room, line[len("file: ") :].strip())
            elif line.startswith("old: "):
                old = line[len("old: ") :]
            elif line.startswith("new:"):
                text = open(file).read()
                if text.count(old) != 1:
                    sys.exit(f"{edit}: its text doesn't stand once in the file")
                open(file, "w").write(text.replace(old, line[len("new:") :].removeprefix(" ")))


def edits(name, libraries):
    """The check that the edits begin with, and each edit over what it kept."""
    found = sorted(glob.glob(os.path.join(folder(name), "must-fail", "*.edit")))
    runs = []
    with tempfile.TemporaryDirectory(prefix="cost-") as room:
        for number, edit in enumerate([None] * (len(found) > 1) + found):
            at, kept = os.path.join(room, f"tried-{number}"), os.path.join(room, f"kept-{number}")
            os.mkdir(at)
            copy_of(name, at, edit)
            if edit and len(found) > 1:
                shutil.copytree(os.path.join(room, "kept-0"), kept)
            ran = Run(["check", *words(name, libraries), "--incremental", kept, "--progress"], at)
            if edit and ran.status == 0:
                print(f"  {os.path.basename(edit)} isn't refused")
            runs.append((os.path.basename(edit) if edit else "(the check that they begin with)", ran))
            shutil.rmtree(at)
            if number:
                shutil.rmtree(kept, ignore_errors=True)
    return runs


def measure(name, work, libraries):
    """A row of the table: the crate, its lines, and seconds of its check, its tests and its edits."""
    for dep in below(name):
        library(dep, work, libraries)
    is_library = os.path.isfile(os.path.join(folder(name), "src", "lib.rt"))
    if is_library:
        shutil.rmtree(os.path.join(work, f"{name}-{checksum(name)}"), ignore_errors=True)
        check = library(name, work, libraries)
    else:
        check = Run(["check", *words(name, libraries), "--empty-contracts", "--progress"], folder(name))
    tests = None
    if any(re.search(r"#\[test\]", open(it).read()) for it in files(name) if it.endswith(".rt")):
        tests = Run(["check", *words(name, libraries, tests=True), "--empty-contracts"], folder(name))
    tried = edits(name, libraries)
    runs = [("check", check)] + [("tests", tests)] * (tests is not None) + tried
    print(f"{name}: {lines(name)} lines")
    for what, ran in runs:
        print(f"  {ran.seconds:7.1f} s {ran.megabytes:6d} MB  {what}{'' if ran.status == 0 or what.endswith('.edit') else '  FAILED'}")
    ten(max((ran.functions for _, ran in runs), key=len))
    own, of_edits = [check.seconds, tests.seconds if tests else 0.0], sum(ran.seconds for _, ran in tried)
    whole = sum(own) + of_edits
    return [lines(name), own[0], own[1], len(glob.glob(os.path.join(folder(name), "must-fail", "*.edit"))), of_edits, whole, max(ran.megabytes for _, ran in runs)]


def ten(functions):
    print("  the functions that take longest:")
    for seconds, function in sorted(functions, reverse=True)[:10]:
        print(f"  {seconds:7.1f} s  {function}")
    sys.stdout.flush()


def functions_alone(name, work, libraries):
    for dep in below(name):
        library(dep, work, libraries)
    ran = Run(["check", *words(name, libraries), "--progress"], folder(name))
    print(f"{name}: check {ran.seconds:.1f} s, {ran.megabytes} MB{'' if ran.status == 0 else '  FAILED'}")
    print("".join(it for it in ran.said if "large solution" in it or "error" in it), end="")
    ten(ran.functions)


def read_page():
    """The words above the table, and the rows that stand in it."""
    text = open(PAGE).read() if os.path.isfile(PAGE) else "# What the proofs cost\n\n" + MARK + "\n"
    above, _, table = text.partition(MARK)
    rows = {}
    for line in table.splitlines():
        cells = [it.strip() for it in line.strip("| \n").split("|")]
        if len(cells) == len(HEAD) and cells[0] in CRATES:
            count, _, seconds = cells[4].partition(":")
            number = lambda text: float(text.replace(",", "") or 0)
            rows[cells[0]] = [int(number(cells[1])), number(cells[2]), number(cells[3]), int(count or 0), number(seconds), number(cells[5]), int(number(cells[7]))]
    return above, rows


def write_page(above, rows):
    made = [above + MARK, "", "Seconds of processor time, and MB. Under edits, how many, and what they took together.", ""]
    made += ["| " + " | ".join(HEAD) + " |", "|---" + "|---:" * (len(HEAD) - 1) + "|"]
    shown = lambda count, check, tests, number, tried, whole, memory: f"{count:,} | {check:.0f} | {tests:.0f} | {number}: {tried:.0f} | {whole:.0f} | {1000 * whole / max(count, 1):.0f} | {memory:,}"
    for name in sorted(rows, key=lambda it: -rows[it][5]):
        made.append(f"| {name} | {shown(*rows[name])} |")
    sums = [sum(it[column] for it in rows.values()) for column in range(6)]
    made.append(f"| all {len(rows)} | {shown(*sums, max(it[6] for it in rows.values()))} |")
    rate = sums[5] / 60 / (sums[0] / 1000)
    dearest = max(rows, key=lambda it: rows[it][1])
    made += ["", f"{sums[5] / 60:.0f} minutes for {sums[0]:,} lines: {rate:.1f} for each 1,000. Longest in a row: the check of {dearest}, {rows[dearest][1] / 60:.1f} minutes.", ""]
    with open(PAGE, "w") as it:
        it.write("\n".join(made))


def main(given):
    above, rows = read_page()
    if "--check" in given:
        lacking = sorted({*CRATES} ^ {*rows})
        if lacking:
            sys.exit(f"docs/COST.md and crates.txt differ: {' '.join(lacking)}")
        return
    work = os.path.join(tempfile.gettempdir(), f"vadlgen-cost-{os.getuid()}")
    if "--work" in given:
        at = given.index("--work")
        work = os.path.abspath(given[at + 1])
        given = given[:at] + given[at + 2 :]
    if "--watch" in given:
        return watch(int(given[given.index("--watch") + 1]))
    libraries, begun, flags = {}, time.time(), {it for it in given if it.startswith("--")}
    given = [it for it in given if it not in flags]
    for name in given or list(CRATES):
        if name not in CRATES:
            sys.exit(f"{name} is no crate of crates.txt")
        if "--functions" in flags:
            functions_alone(name, work, libraries)
            continue
        row = measure(name, work, libraries)
        above, rows = read_page()
        rows[name] = row
        write_page(above, {it: rows[it] for it in rows if it in CRATES})
    print(f"{(time.time() - begun) / 60:.1f} minutes on the clock")


main(sys.argv[1:])
