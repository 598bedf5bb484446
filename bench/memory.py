#!/usr/bin/env python3
"""Whether runs whose records nobody reads keep none in memory.

    bench/memory.py PROGRAM

plays 100 requests in 20,000 ticks by one worker, with 6 MiB of memory for data. The commands that read no record of a
finished tick have to end with status 0. `trace` shows all records, and has to end with status 6: so the limit would be seen.
The status is 0 where each ended so.
"""
import os
import resource
import subprocess
import sys

from run import even

LIMIT = 6 << 20
ENDS = {"run": 0, "pace": 0, "peek r1 k1": 0, "locks": 0, "trace": 6}


def limit():
    """Gives the process so much memory for data."""
    resource.setrlimit(resource.RLIMIT_DATA, (LIMIT, LIMIT))


def status_of(program, words, text):
    """The status of a call that has so much memory for data."""
    how = {"input": text.encode(), "stdout": subprocess.DEVNULL, "preexec_fn": limit}
    return subprocess.run([program, *words], **how).returncode


def main():
    program, text = os.path.abspath(sys.argv[1]), even(1, 1, 4, 100, 20000)
    wrong = 0
    for words, wanted in ENDS.items():
        status = status_of(program, words.split(), text)
        print(f"{words}: status {status}" + (f", and not {wanted}" if status != wanted else ""))
        wrong += status != wanted
    sys.exit(wrong > 0)


if __name__ == "__main__":
    main()
