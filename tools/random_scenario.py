#!/usr/bin/env python3
"""Writes a scenario with everything drawn from a seed, or one that a short sheet describes.

    random_scenario.py SEED [--f F] [--clients C] [--ticks T] [--requests N] [--faults N]
    random_scenario.py --sheet SHEET [SEED]

From a seed alone: all eight kinds of faults, skews, and windows. What is not given is drawn as well.

A sheet is a scenario in which may be, besides:

    # anywhere             begins a remark, at the begin of a line or after a space
    repeat N ... end       the lines between, N times; $i counts from 1 (in repeats within: $j, then $k)
    any of LINE | LINE     one of these lines
    $(20 + 5*$i)           a number, by + - * // % and parentheses; rnd(a,b) draws one from a to b
"""

import argparse
import ast
import operator
import re
import sys

from reading import ABOUT_ACTORS, ABOUT_PARCELS, FAULTS, MESSAGES, opened

MASK = 2**64 - 1
# Kinds that each run has many of; the others come with view changes and rejoins.
USUAL = ("request", "timed", "fast-reply", "slow-reply", "answer", "log-mod", "sync-report")


class Draws:
    """Numbers from a seed, the same in each version of Python: the generator that docs/FORMATS.md describes."""

    def __init__(self, seed):
        self.x = seed & MASK
        self.below(1)

    def below(self, n):
        self.x = (self.x * 6364136223846793005 + 1442695040888963407) & MASK
        return (self.x >> 33) % n

    def between(self, least, most):
        return least + self.below(most - least + 1)

    def one(self, items):
        return items[self.below(len(items))]

    def chance(self, percent):
        return self.below(100) < percent


# From a seed


class Drawn:
    """A scenario whose parts are drawn in the order in which it has them."""

    def __init__(self, seed, f=None, clients=None, ticks=None, requests=None, faults=None):
        self.draws = draws = Draws(seed)
        self.f = f or draws.one([1, 1, 1, 2, 2, 3, 4])
        self.proxies, self.clients = draws.between(1, 3), clients or draws.between(1, 4)
        self.ticks = ticks or draws.one([40, 60, 100, 150])
        self.window = draws.one([1, 1, 2, 3, 16])
        self.requests = draws.one([2, 4, 8, 16, 24]) if requests is None else requests
        self.faults = draws.one([0, 2, 5, 10, 20]) if faults is None else faults
        self.replicas = [f"r{k}" for k in range(2 * self.f + 1)]
        self.servers = self.replicas + [f"p{k}" for k in range(self.proxies)]
        self.everyone = self.servers + [f"c{k}" for k in range(self.clients)]
        self.crashed = []  # actors with the tick of their last crash

    def text(self):
        lines = ["nezha 1" if self.window == 1 else "nezha 2", f"f {self.f}", f"proxies {self.proxies}", f"clients {self.clients}"]
        lines += [f"ticks {self.ticks}"] + [f"window {self.window}"] * (self.window > 1)
        lines += [f"skew {actor} {self.skew()}" for actor in self.servers if self.draws.chance(15)]
        for client in range(self.clients):
            lines += [f"client c{client}", *self.script(client), "end"]
        faults = []
        while len(faults) < self.faults:
            faults += self.fault()
        return "\n".join([*lines, *faults[: self.faults], "done", ""])

    def skew(self):
        return self.draws.one([-20_000, -3_000, 900, 5_000, 2**62, self.draws.between(-9_000, 9_000)])

    def script(self, client):
        lines = []
        for _ in range(self.requests // self.clients + (client < self.requests % self.clients)):
            if self.draws.chance(30):
                lines.append(f"wait {self.draws.between(1, self.ticks)}")
            key, old, new = self.draws.one("abk"), self.draws.one("-12"), self.draws.one("-12")
            value = self.draws.between(1, 4)
            lines.append(self.draws.one([f"put {key} {value}", f"put {key} {value}", f"get {key}", f"del {key}", f"cas {key} {old} {new}"]))
        return lines

    def fault(self):
        """A fault; with a crash mostly comes its restart, and with a block sometimes the one the other way."""
        what, tick = self.draws.one([*FAULTS, "block"]), self.draws.between(1, self.ticks)
        if what in ABOUT_ACTORS:
            return self.about_actor(what, tick)
        if what in ABOUT_PARCELS and what != "block":
            return [self.about_parcel(what)]
        end = min(self.ticks, tick + self.draws.below(40))
        if self.draws.chance(50):
            alone = self.draws.one(self.replicas)
            return [f"block {alone} * {tick} {end}", f"block * {alone} {tick} {end}"]
        a, b = self.draws.one([*self.everyone, "*"]), self.draws.one([*self.everyone, "*"])
        return [f"block {a} {b} {tick} {end}"]

    def about_actor(self, what, tick):
        if what == "alarm":
            return [f"alarm {self.draws.one(self.replicas)} {tick}"]
        actor = self.draws.one(self.servers)
        back = min(self.ticks, tick + self.draws.between(0, 20))
        return [f"crash {actor} {tick}"] + [f"restart {actor} {back}"] * (what == "restart" or self.draws.chance(70))

    def about_parcel(self, what):
        kind = self.draws.one(USUAL if self.draws.chance(60) else list(MESSAGES))
        a, b = (self.draws.one([actor for actor in self.everyone if actor[0] == sort]) for sort in MESSAGES[kind][0])
        nth = self.draws.one([1, 1, 2, 3, self.draws.between(1, 30)])
        last = {
            "drop": "",
            "hold": f" {self.draws.between(1, 50)}",
            "twice": f" {self.draws.between(0, 50)}",
            "cut": f" {self.draws.one([0, 1, 9, 40, 16_777_216])}",
        }[what]
        return f"{what} {a} {b} {kind} {nth}{last}"


# From a sheet

OPERATORS = {
    ast.Add: operator.add, ast.Sub: operator.sub, ast.Mult: operator.mul, ast.FloorDiv: operator.floordiv, ast.Mod: operator.mod,
}


class Sheet:
    def __init__(self, seed):
        self.draws, self.out = Draws(seed), []

    def text(self, sheet):
        lines = [re.sub(r"(^|\s)#.*", "", line).strip() for line in sheet.split("\n")]
        self.expand([line for line in lines if line], {})
        return "\n".join([*self.out, ""])

    def expand(self, lines, counters):
        """Writes the lines; of a repeat, those up to its end, as often as it says."""
        at = 0
        while at < len(lines):
            if lines[at].startswith("repeat "):
                end = self.end_of(lines, at)
                name = "ijk"[len(counters)]
                for count in range(1, self.number(lines[at][7:], counters) + 1):
                    self.expand(lines[at + 1 : end], {**counters, name: count})
                at = end
            else:
                self.line(lines[at], counters)
            at += 1

    def end_of(self, lines, at):
        """Where the block ends that begins there; repeats and scripts of clients lie within each other."""
        depth = 0
        for place in range(at, len(lines)):
            first = lines[place].split()[0]
            depth += (first in ("repeat", "client")) - (first == "end")
            if depth == 0:
                return place
        sys.exit(f"no end of: {lines[at]}")

    def line(self, line, counters):
        if line.startswith("any of "):
            line = self.draws.one(line[7:].split("|")).strip()
        number = lambda match: str(self.number(match[1] or match[2], counters))
        self.out.append(re.sub(r"\$\(((?:[^()]|\([^()]*\))*)\)|\$([ijk])", number, line))

    def number(self, text, counters):
        try:
            return self.value(ast.parse(text.replace("$", "").strip(), mode="eval").body, counters)
        except (SyntaxError, KeyError, TypeError, ValueError, AttributeError, ZeroDivisionError):
            sys.exit(f"not a number: {text.strip()}")

    def value(self, node, counters):
        if isinstance(node, ast.Constant) and type(node.value) is int:
            return node.value
        if isinstance(node, ast.Name):
            return counters[node.id]
        if isinstance(node, ast.UnaryOp) and isinstance(node.op, ast.USub):
            return -self.value(node.operand, counters)
        if isinstance(node, ast.BinOp):
            return OPERATORS[type(node.op)](self.value(node.left, counters), self.value(node.right, counters))
        if isinstance(node, ast.Call) and node.func.id == "rnd":
            least, most = (self.value(argument, counters) for argument in node.args)
            return self.draws.between(least, most)
        raise ValueError(node)


def main():
    words = argparse.ArgumentParser(description=__doc__, formatter_class=argparse.RawDescriptionHelpFormatter)
    words.add_argument("seed", type=int, nargs="?", default=1, metavar="SEED")
    words.add_argument("--sheet", metavar="SHEET", help="a file, or - for standard input")
    for name in ("f", "clients", "ticks", "requests", "faults"):
        words.add_argument(f"--{name}", type=int, metavar="N")
    given = vars(words.parse_args())
    seed, sheet = given.pop("seed"), given.pop("sheet")
    if sheet is None:
        print(Drawn(seed, **given).text(), end="")
        return
    with opened(sheet) as source:
        print(Sheet(seed).text(source.read()), end="")


if __name__ == "__main__":
    main()
