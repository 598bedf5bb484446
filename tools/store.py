#!/usr/bin/env python3
"""Makes anew what is stored of runs: the stories in tools/stories and the pictures in docs/pictures.

    store.py [--program PATH]           writes them
    store.py --check [--program PATH]   compares the stories with what the program prints; status 1 if one differs

The tests of the tools read the stories, so that they need no program. A story is stored for each scenario that has a
fault, and for two others.
"""

import argparse
import os
import sys

from draw import Drawing
from reading import ROOT, Story, call, example, played, program, read_scenario

STORIES = os.path.join(ROOT, "tools", "stories")
PICTURES = os.path.join(ROOT, "docs", "pictures")
DRAWN = ("leader_cut_off", "replica_rejoins")
OTHERS = ("late_request", "put_then_get")


def stored_path(name):
    return os.path.join(STORIES, f"{name}.story")


def picture_path(name):
    return os.path.join(PICTURES, f"{name}.svg")


def with_stories():
    """The names of the scenarios whose story is stored."""
    return [name for name in played() if name in OTHERS or read_scenario(example(name)).faults]


def load(name):
    """A scenario and its stored story."""
    with open(stored_path(name)) as lines:
        return read_scenario(example(name)), Story(lines)


def picture(name):
    return Drawing(*load(name)).svg() + "\n"


def main():
    words = argparse.ArgumentParser(description=__doc__, formatter_class=argparse.RawDescriptionHelpFormatter)
    words.add_argument("--program", metavar="PATH")
    words.add_argument("--check", action="store_true", help="compare, and write nothing")
    given = words.parse_args()
    path, differing = program(given.program), 0
    for name in with_stories():
        with open(example(name)) as text:
            output, status = call(path, ["story"], text.read())
        if status != 0:
            sys.exit(f"{path} story < {example(name)} ends with status {status}: {output.strip()}")
        if given.check:
            with open(stored_path(name)) as stored:
                is_same = stored.read() == output
            differing += not is_same
            print(f"{'same' if is_same else 'differs'} {name}")
        else:
            with open(stored_path(name), "w") as stored:
                stored.write(output)
    if given.check:
        sys.exit(differing > 0)
    for name in DRAWN:
        with open(picture_path(name), "w") as stored:
            stored.write(picture(name))


if __name__ == "__main__":
    main()
