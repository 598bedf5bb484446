#!/usr/bin/env python3
"""Refuses each growth of memory in turn, in a run with a view change and in one with a rejoin.

    (cd crates/nezha && rt run < ../../scenarios/put_then_get)     makes crates/nezha/out/nezha
    bench/growths.py [--workers N] [--every K] [--refusals R] [--word WORD] PROGRAM [SCENARIO ..]

PROGRAM is run on each scenario of the folder `scenarios` (leader_cut_off and replica_rejoins if left out) as often as it
asks for memory: in the N-th run its N-th request for memory is refused. Each run has to end with status 6 and a prefix
of the scenario's output, or with status 0 and all of it. With --refusals, R requests in a row are refused in each run. By several
workers the lines come in another order, so that all of the output is the same lines, and a prefix none; and a worker that
stops for want of memory leaves its actors to others, which may step in another order: an output with other answers or
another history has to send and answer the same requests, and `check` has to accept it. Scenarios with less to do are played
by one thread all the same; 32_actors and 31_actors of crates/nezha_cases are shared, and want a K, since of so many requests
for memory only each K-th can be refused. Some of the refusals have to be met by playing the run anew, or by playing what the
workers left, which ends with all of the output.

With a WORD it is that command which is run, and of `check` the input is the scenario's output. A line for each
scenario says how many growths were tried, and how many ended in each way; the runs that end otherwise are printed, and
make the status 1. It wants cc.
"""
import argparse
import collections
import os
import subprocess
import sys
import tempfile

HERE = os.path.dirname(os.path.abspath(__file__))
WITH_WORKERS = "run trace story locks".split()
WHOLE = "status 0 and all of the output"
JUDGED = "status 0 and other answers that `check` accepts"
# What of a line says the same in whatever order the actors step: so many of its words, or all of them.
SAME_WORDS = {b"accept": 3, b"at": 2}

# Counts requests for memory in the file COUNTED, and refuses REFUSALS of them from the number REFUSED on, where that is not 0.
SHIM = r"""
#include <fcntl.h>
#include <stdlib.h>
#include <sys/mman.h>
#include <unistd.h>

extern void *__libc_malloc(size_t);
extern void *__libc_realloc(void *, size_t);
static volatile long *counted;
static long refused, refusals;

__attribute__((constructor)) static void begin(void) {
    int file = open(getenv("COUNTED"), O_RDWR);
    refused = atol(getenv("REFUSED"));
    refusals = atol(getenv("REFUSALS"));
    counted = mmap(0, sizeof *counted, PROT_READ | PROT_WRITE, MAP_SHARED, file, 0);
    close(file);
}

static int is_refused(void) {
    if (!counted)
        return 0;
    long number = __sync_add_and_fetch(counted, 1);
    return refused && refused <= number && number < refused + refusals;
}

void *malloc(size_t size) { return is_refused() ? 0 : __libc_malloc(size); }

void *realloc(void *old, size_t size) { return is_refused() ? 0 : __libc_realloc(old, size); }
"""


class Growths:
    """A program whose requests for memory are counted, and refused by their number."""

    def __init__(self, program, workers, refusals, folder):
        self.program, self.workers, self.refusals = program, workers, refusals
        self.shim, self.counted = f"{folder}/shim.so", f"{folder}/counted"
        source = f"{folder}/shim.c"
        with open(source, "w") as it:
            it.write(SHIM)
        subprocess.run(["cc", "-O2", "-shared", "-fPIC", "-o", self.shim, source], check=True)

    def run(self, word, text, refused):
        """The status, the output, and how many requests for memory there were."""
        with open(self.counted, "wb") as it:
            it.write(bytes(8))
        env = {"LD_PRELOAD": self.shim, "COUNTED": self.counted, "REFUSED": str(refused), "REFUSALS": str(self.refusals)}
        words = [self.program, word] + ["--workers", str(self.workers)] * (word in WITH_WORKERS)
        ended = subprocess.run(words, input=text, stdout=subprocess.PIPE, env=env, check=False)
        with open(self.counted, "rb") as it:
            return ended.returncode, ended.stdout, int.from_bytes(it.read(), sys.byteorder)

    def accepts(self, output):
        """Whether `check` accepts a run's output."""
        ended = subprocess.run([self.program, "check"], input=output, stdout=subprocess.PIPE, check=False)
        return ended.returncode == 0 and ended.stdout == b"yes\n"


def in_order(workers, output):
    """The output, or its lines in one order where several workers made it."""
    return output if workers == 1 else b"".join(sorted(output.splitlines(True)))


def requests(output):
    """Which requests a run's output sends, answers and leaves open, and how long its history is."""
    lines = [line.split(b" ") for line in output.splitlines()]
    return sorted(words[: SAME_WORDS.get(words[0])] for words in lines)


def ending(growths, word, status, output, wanted):
    """How a run ended, or nothing where it may not end so. What is wanted is in order."""
    ordered = in_order(growths.workers, output)
    if status == 0 and ordered == wanted:
        return WHOLE
    others_may_step = growths.workers > 1 and word == "run"
    if status == 0 and others_may_step and requests(output) == requests(wanted) and growths.accepts(output):
        return JUDGED
    if status == 6 and output == b"":
        return "status 6 and nothing"
    if status == 6 and wanted.startswith(ordered):
        return "status 6 and a prefix"
    return None


def text_of(name):
    """The word of a scenario's call, the scenario and its output."""
    if os.path.exists(f"{HERE}/../scenarios/{name}"):
        with open(f"{HERE}/../scenarios/{name}.args") as it:
            word = it.read().split()[0]
        with open(f"{HERE}/../scenarios/{name}", "rb") as it:
            text = it.read()
        with open(f"{HERE}/../scenarios/{name}.stdout", "rb") as it:
            return word, text, it.read()
    with open(f"{HERE}/../crates/nezha_cases/data/{name}", "rb") as it:
        return "run", it.read().split(b"\n", 1)[1], None


def tried(growths, name, given):
    """Tries growths of a scenario's run; whether all runs ended as they may."""
    word, text, wanted = text_of(name)
    if given.word:
        word, text, wanted = given.word, wanted if given.word == "check" else text, None
    status, output, count = growths.run(word, text, 0)
    output = in_order(given.workers, output)
    if status != 0 or (wanted is not None and output != in_order(given.workers, wanted)):
        sys.exit(f"{name}: with all its memory the program ends with status {status} or another output")
    wanted = output
    ways, wrong = collections.Counter(), 0
    numbers = range(1, count + 1, given.every)
    for number in numbers:
        status, output, _ = growths.run(word, text, number)
        way = ending(growths, word, status, output, wanted)
        ways[way] += 1
        if way is None:
            wrong += 1
            print(f"  {name}, growth {number}: status {status}, {len(output)} bytes")
    endings = ", ".join(f"{number} ended with {way}" for way, number in ways.items() if way)
    print(f"{name}: {len(numbers)} of {count} growths; {endings}")
    if given.workers > 1 and WHOLE not in ways:
        wrong += 1
        print("  none of the runs was played anew")
    return wrong == 0


def main():
    parser = argparse.ArgumentParser(usage=__doc__)
    parser.add_argument("--workers", type=int, default=1)
    parser.add_argument("--every", type=int, default=1)
    parser.add_argument("--refusals", type=int, default=1)
    parser.add_argument("--word")
    parser.add_argument("program")
    parser.add_argument("names", nargs="*", default=["leader_cut_off", "replica_rejoins"])
    given = parser.parse_args()
    with tempfile.TemporaryDirectory() as folder:
        growths = Growths(os.path.abspath(given.program), given.workers, given.refusals, folder)
        endings = [tried(growths, name, given) for name in given.names]
    sys.exit(not all(endings))


if __name__ == "__main__":
    main()
