#!/usr/bin/env python3
"""Where the gate's minutes go: runs `rt ci`, and says how much processor time each crate took.

    bench/gate.py [NAME ..]

runs `rt ci` with these words at the top of the repository, and looks each half second at the provers that it started.
It passes on what `rt ci` prints, and ends with a table: for each crate the minutes of a processor that its own proof,
the proof of its tests, the seed of its must-fail edits (one more proof, over which they are tried), the edits themselves,
and its programs and tests took, the dearest crate first, and their sum.
The status is that of `rt ci`. A prover that lives less than half a second is not seen. What an earlier run on this
machine proved is not proved again, and so is not in the table: only a machine with nothing kept shows the whole.
"""
import collections
import os
import re
import subprocess
import sys
import time

PAUSE = 0.5
PARTS = ("proof", "tests", "seed", "edits", "runs")
CRATE = re.compile(r"--crate-name (\w+)")


def processes():
    """Each process of this machine: its number, its parent's, when it began, its words and its seconds of a processor."""
    tick = os.sysconf("SC_CLK_TCK")
    for number in filter(str.isdigit, os.listdir("/proc")):
        try:
            with open(f"/proc/{number}/stat", encoding="utf-8", errors="replace") as file:
                fields = file.read().rpartition(")")[2].split()
            with open(f"/proc/{number}/cmdline", encoding="utf-8", errors="replace") as file:
                words = file.read().replace("\0", " ")
        except OSError:
            continue
        yield int(number), int(fields[1]), fields[19], words, (int(fields[11]) + int(fields[12])) / tick


def below(root, found):
    """Those of the processes that `root` started, and that these started."""
    children = collections.defaultdict(list)
    for process in found:
        children[process[1]].append(process)
    ours, left = [], [root]
    while left:
        more = children[left.pop()]
        ours += more
        left += [it[0] for it in more]
    return ours


def part_of(words):
    """What a prover with these words is at work on: a crate, and one of the parts."""
    crate = CRATE.search(words)
    if not crate:
        return None
    if " --test " in words:
        return crate[1], "tests"
    if " build " in words or " -o " in words:
        return crate[1], "proof"
    return crate[1], "seed" if words.rstrip().endswith("/seed") else "edits"


class Times:
    """The greatest time seen of each process, by what it was at work on. A process that names no crate, such as a copy
    of a prover or a program that is run, counts for its parent's crate."""

    def __init__(self):
        self.seconds, self.works = {}, {}

    def look(self, root):
        for number, parent, began, words, seconds in below(root, list(processes())):
            work = part_of(words) or self.works.get(parent) or ("rt", "runs")
            self.works[number] = work
            self.seconds[number, began] = (work, seconds)

    def table(self):
        """The seconds of each crate, by part."""
        crates = collections.defaultdict(collections.Counter)
        for (crate, part), seconds in self.seconds.values():
            crates[crate][part] += seconds
        return crates


def print_table(crates):
    print("| crate | " + " | ".join(PARTS) + " | sum |\n|---|" + "---|" * (len(PARTS) + 1))
    total = collections.Counter()
    for crate, parts in sorted(crates.items(), key=lambda it: -it[1].total()):
        total += parts
        print(row(crate, parts))
    print(row("all", total))


def row(name, parts):
    return f"| {name} | " + " | ".join(f"{parts[it] / 60:.1f}" for it in PARTS) + f" | {parts.total() / 60:.1f} |"


def main(words):
    top = os.path.join(os.path.dirname(os.path.abspath(__file__)), "..")
    gate = subprocess.Popen(["rt", "ci", *words], cwd=top)
    times = Times()
    while gate.poll() is None:
        times.look(gate.pid)
        time.sleep(PAUSE)
    print_table(times.table())
    return gate.returncode


if __name__ == "__main__":
    sys.exit(main(sys.argv[1:]))
