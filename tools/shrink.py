#!/usr/bin/env python3
"""Makes a scenario smaller while a command still finds it interesting.

    shrink.py [--keep WORD,..] SCENARIO 'COMMAND' > SMALLER

COMMAND runs in a shell with the scenario as its standard input; status 0 means interesting. For example

    shrink.py --keep ticks big 'nezha run | grep -q "^open"'

--keep ticks leaves this number of the head as it is: a request is open most easily where the run ends at once. A scenario
that the program refuses must not be interesting; here it is not, since then no such line is printed.
"""

import argparse
import copy
import subprocess
import sys

from reading import read_scenario

LEAST = {"proxies": 1, "f": 1, "window": 2, "ticks": 1}


def smaller_lists(items):
    """The lists that lack a part of this one, the large parts first."""
    size = max(len(items) // 2, 1)
    while items:
        for at in range(0, len(items), size):
            yield items[:at] + items[at + size :]
        if size == 1:
            return
        size //= 2


class Shrinker:
    """Goes through the parts of a scenario, again and again until no part can be made smaller. `best` is the smallest so far."""

    def __init__(self, scenario, is_interesting, kept=(), say=lambda tries, lines: None):
        self.best, self.is_interesting, self.kept, self.say = scenario, is_interesting, kept, say
        self.tries = 0

    def takes(self, change):
        """Whether the best with this change is interesting; then it is the best from now on."""
        changed = copy.deepcopy(self.best)
        change(changed)
        return self.accepts(changed)

    def accepts(self, scenario):
        self.tries += 1
        if not self.is_interesting(scenario.text()):
            return False
        self.best = scenario
        self.say(self.tries, scenario.text().count("\n"))
        return True

    def run(self):
        while True:
            before = self.best.text()
            self.drop_lines()
            self.drop_clients()
            self.lower_head()
            self.lower_faults()
            self.lower_waits()
            if self.best.text() == before:
                return self.best

    def drop_from(self, get, put):
        """Drops parts of a list while that is interesting."""
        is_smaller = True
        while is_smaller:
            is_smaller = any(self.takes(lambda scenario: put(scenario, rest)) for rest in smaller_lists(get(self.best)))

    def drop_lines(self):
        for name in ("faults", "skews"):
            self.drop_from(lambda scenario: getattr(scenario, name), lambda scenario, rest: setattr(scenario, name, rest))
        for client in range(len(self.best.scripts)):
            self.drop_from(
                lambda scenario: scenario.scripts[client], lambda scenario, rest: scenario.scripts.__setitem__(client, rest))

    def drop_clients(self):
        """Clients that ask for nothing and that no fault names; those after them get smaller numbers."""
        for client in reversed(range(len(self.best.scripts))):
            is_named = any(f"c{client}" in words for words in self.best.faults)
            if len(self.best.scripts) > 1 and not self.best.scripts[client] and not is_named:
                self.takes(lambda scenario: drop_client(scenario, client))

    def lower_head(self):
        for word, least in LEAST.items():
            if word in self.best.head and word not in self.kept:
                self.lower(self.best.head[word], least, lambda scenario, number: scenario.head.__setitem__(word, number))
        if self.best.head.get("window") == 2 and "window" not in self.kept:
            self.takes(in_version_1)

    def lower_faults(self):
        for place, words in enumerate(self.best.faults):
            for at, word in enumerate(words):
                if word.isdigit():
                    self.lower(int(word), 0, lambda scenario, number: scenario.faults[place].__setitem__(at, str(number)))

    def lower_waits(self):
        for client, script in enumerate(self.best.scripts):
            for place, (wait, words) in enumerate(script):

                def change(scenario, number):
                    scenario.scripts[client][place] = (number, words)

                if wait is not None and not self.takes(lambda scenario: change(scenario, None)):
                    self.lower(wait, 1, change)

    def lower(self, number, least, change):
        """Lowers a number by halving: at once to the least, if that is interesting, else to where one less is not."""
        if number > least and self.takes(lambda scenario: change(scenario, least)):
            return
        low, high = least + 1, number
        while low < high:
            middle = (low + high) // 2
            if self.takes(lambda scenario: change(scenario, middle)):
                high = middle
            else:
                low = middle + 1


def drop_client(scenario, client):
    def renamed(word):
        return f"c{int(word[1:]) - 1}" if word[0] == "c" and word[1:].isdigit() and int(word[1:]) > client else word

    del scenario.scripts[client]
    scenario.head["clients"] -= 1
    scenario.faults = [[words[0], *map(renamed, words[1:])] for words in scenario.faults]


def in_version_1(scenario):
    scenario.head["nezha"] = 1
    del scenario.head["window"]


def main():
    words = argparse.ArgumentParser(description=__doc__, formatter_class=argparse.RawDescriptionHelpFormatter)
    words.add_argument("scenario")
    words.add_argument("command")
    words.add_argument("--keep", default="", metavar="WORD,..", help="numbers of the head that stay")
    given = words.parse_args()

    def is_interesting(text):
        quiet = {"stdout": subprocess.DEVNULL, "stderr": subprocess.DEVNULL}
        return subprocess.run(given.command, shell=True, input=text.encode(), **quiet).returncode == 0

    def say(tries, lines):
        if sys.stderr.isatty():
            print(f"\r{tries} tries, {lines} lines ", end="", file=sys.stderr, flush=True)

    shrinker = Shrinker(read_scenario(given.scenario), is_interesting, given.keep.split(","), say)
    if not shrinker.accepts(shrinker.best):
        sys.exit("the scenario as given is not interesting: the command's status is not 0")
    smallest = shrinker.run()
    print(f"\r{shrinker.tries} tries, {smallest.text().count(chr(10))} lines", file=sys.stderr)
    print(smallest.text(), end="")


if __name__ == "__main__":
    main()
