#!/usr/bin/env python3
"""Proves the crates of the program and builds it, several side by side, and shows where it is: a line a crate, or one line in
place on a terminal. Stopped and called again it goes on from what was proved."""
import os
import shutil
import subprocess
import sys
import tempfile
import time
from concurrent.futures import FIRST_COMPLETED, ThreadPoolExecutor, wait

TOP = os.path.realpath(os.path.join(os.path.dirname(__file__), ".."))
PROGRAM = "vadlgen"
# what the check of a crate may take of memory, in KiB
MEMORY = 3 << 20


def crates():
    """Each crate of the program, and those that it stands on."""
    out = subprocess.run([os.path.join(TOP, "tools", "sources.sh"), "--crates"], capture_output=True, text=True, check=True).stdout
    return {words[0]: set(words[1:]) for words in (line.split() for line in out.splitlines())}


def lines_of(crate):
    """How much there is to prove in a crate."""
    total = 0
    for part in ("src", "specs", "proofs"):
        for folder, _, files in os.walk(os.path.join(TOP, "crates", crate, part)):
            for name in files:
                with open(os.path.join(folder, name), "rb") as opened:
                    total += opened.read().count(b"\n")
    return total


def heights(below):
    """For each crate, how much is to be proved from it to the program along the longest chain."""
    above = {crate: [it for it in below if crate in below[it]] for crate in below}
    found = {}

    def height(crate):
        if crate not in found:
            found[crate] = lines_of(crate) + max(map(height, above[crate]), default=0)
        return found[crate]

    for crate in below:
        height(crate)
    return found


def most_at_once():
    """How many crates are proved side by side: one a processor, as far as memory allows."""
    free = MEMORY
    try:
        with open("/proc/meminfo", encoding="ascii") as opened:
            free = next(int(line.split()[1]) for line in opened if line.startswith("MemAvailable"))
    except (OSError, StopIteration):
        pass
    return max(1, min(len(os.sched_getaffinity(0)), free // MEMORY))


def told(seconds):
    minutes, seconds = divmod(int(seconds), 60)
    return "%d min %d s" % (minutes, seconds) if minutes else "%d s" % seconds


class Progress:
    """What is shown on standard error."""

    def __init__(self, number):
        self.number, self.done, self.begun, self.in_place = number, 0, time.monotonic(), sys.stderr.isatty()

    def show(self, proved, running):
        self.done += bool(proved)
        line = "%d of %d crates, %s" % (self.done, self.number, told(time.monotonic() - self.begun))
        if self.in_place:
            names = ", ".join(sorted(running)) or "building"
            print("\r\x1b[Kvadlgen: proved %s; now %s" % (line, names), end="", file=sys.stderr, flush=True)
        elif proved:
            print("vadlgen: %s is proved (%s)" % (proved, line), file=sys.stderr, flush=True)

    def end(self):
        if self.in_place:
            print(file=sys.stderr)


def prove(crate, log, jobs):
    """Proves a crate on what is proved below it; the program is built too. Returns whether it succeeded."""
    command = ["rt", "run" if crate == PROGRAM else "lib", "--jobs", str(jobs)]
    with tempfile.TemporaryFile() as said:
        status = subprocess.run(command, cwd=os.path.join(TOP, "crates", crate), stdin=subprocess.DEVNULL, stdout=said, stderr=said).returncode
        said.seek(0)
        log.write(b"==== %s\n" % crate.encode() + said.read())
        log.flush()
    built = os.path.join(TOP, "crates", crate, "out", crate)
    return os.access(built, os.X_OK) if crate == PROGRAM else status == 0


def prove_all(log):
    """Proves the crates, those first from which most is to be proved. Returns the one that failed, or None."""
    below, high, most = crates(), heights(crates()), most_at_once()
    progress, waiting, running = Progress(len(below)), set(below), {}
    proved = set()
    with ThreadPoolExecutor(most) as pool:
        while waiting or running:
            ready = sorted((it for it in waiting if below[it] <= proved), key=lambda it: -high[it])
            for crate in ready[: most - len(running)]:
                waiting.remove(crate)
                jobs = max(1, most // max(1, len(ready) + len(running)))
                running[pool.submit(prove, crate, log, jobs)] = crate
            progress.show(None, running.values())
            done, _ = wait(running, return_when=FIRST_COMPLETED)
            for it in done:
                crate = running.pop(it)
                if not it.result():
                    progress.end()
                    return crate
                proved.add(crate)
                progress.show(crate, running.values())
    progress.end()
    return None


def main():
    if not shutil.which("rt"):
        sys.exit("vadlgen: the command rt of the Rattle kit isn't on the path, and nothing can be proved without it")
    handle, path = tempfile.mkstemp(prefix="vadlgen-", suffix=".log")
    with os.fdopen(handle, "wb") as log:
        print("vadlgen: proving and building the program (docs/COST.md has the time); the log is " + path, file=sys.stderr)
        failed = prove_all(log)
    if failed:
        sys.exit("vadlgen: %s wasn't proved; the log says why: %s" % (failed, path))


main()
