#!/usr/bin/env python3
"""Says what is wrong with a scenario, where, and what is expected there.

    lint.py SCENARIO           a file, or - for standard input
    lint.py --brief SCENARIO   in a line, FILE:LINE:COLUMN: KIND: WHAT, as editors read it

Of a scenario that the program refuses, the first line is the program's own refusal. Then come the line, a caret, what is
expected and perhaps what was meant; the status is 2. Of one that it takes, a line for each fault that cannot strike; the
status is 0.
"""

import argparse
import difflib
import re
import sys
from dataclasses import dataclass

from reading import COMMANDS, FAULTS, KINDS, MESSAGES, Scenario

NUMBER = r"(?:0|[1-9][0-9]{0,18})"
ACTOR = r"[rpc](?:0|[1-9][0-9]?)"
SORTS = {"r": "replicas", "p": "proxies", "c": "clients"}
MAX_TEXT, MAX_UNITS = 1_048_576, 2**62


@dataclass(frozen=True)
class Word:
    """What is expected of a word: its name, how it is written, and what it may be."""

    name: str
    shape: str = ".+"
    said: str = ""  # what a word of another shape is not
    least: int = None
    most: int = None
    actors: str = ""  # the sorts of actors that it may name
    bytes: int = None  # how long it may be


def number(name, least, most):
    return Word(name, NUMBER, "a number", least, most)


def actor(name, actors="rpc", star=False):
    shape, said = (rf"{ACTOR}|\*", ", or *") if star else (ACTOR, "")
    return Word(name, shape, f"an actor, as {' or '.join(sort + '0' for sort in actors)}{said}", actors=actors)


KIND = Word("KIND")
KEY, VALUE = Word("KEY", bytes=32), Word("VALUE", "(?!-$).+", "a value: `-` alone is none", bytes=256)
OLD, NEW = Word("OLD", bytes=256), Word("NEW", bytes=256)
NTH = number("N", 1, 1_000_000)


def tick(name):
    return number(name, 1, 20_000)


# Each line by its first word: the part of the scenario that it is in, and its other words.
LINES = {
    "nezha": ("nezha", [number("V", 1, 2)]),
    "f": ("f", [number("F", 1, 4)]),
    "proxies": ("proxies", [number("P", 1, 8)]),
    "clients": ("clients", [number("C", 1, 64)]),
    "ticks": ("ticks", [tick("T")]),
    "window": ("window", [number("W", 2, 16)]),
    "skew": ("blocks", [actor("ACTOR", "rp"), Word("N", f"-?{NUMBER}", "a number", -MAX_UNITS, MAX_UNITS)]),
    "client": ("blocks", [actor("cK", "c")]),
    "put": ("script", [KEY, VALUE]),
    "get": ("script", [KEY]),
    "del": ("script", [KEY]),
    "cas": ("script", [KEY, OLD, NEW]),
    "wait": ("script", [tick("N")]),
    "end": ("script", []),
    "drop": ("faults", [actor("A"), actor("B"), KIND, NTH]),
    "hold": ("faults", [actor("A"), actor("B"), KIND, NTH, tick("D")]),
    "twice": ("faults", [actor("A"), actor("B"), KIND, NTH, number("D", 0, 20_000)]),
    "cut": ("faults", [actor("A"), actor("B"), KIND, NTH, number("L", 0, 16_777_216)]),
    "block": ("faults", [actor("A", star=True), actor("B", star=True), tick("S"), tick("E")]),
    "crash": ("faults", [actor("A", "rp"), tick("T")]),
    "restart": ("faults", [actor("A", "rp"), tick("T")]),
    "alarm": ("faults", [actor("A", "r"), tick("T")]),
    "done": ("faults", []),
}


class Refusal(Exception):
    """The first bad line: its kind, where the caret is (columns count from 1), what is said, and a hint."""

    def __init__(self, kind, said, column=1, width=1, hint=""):
        self.kind, self.said, self.column, self.width, self.hint = kind, said, column, width, hint
        self.line = None


def form(first):
    return f"`{' '.join([first, *(word.name for word in LINES[first][1])])}`"


def meant(word, known):
    """The known word that is a few letters away."""
    near = difflib.get_close_matches(word, known, 1, 0.6)
    return f"did you mean `{near[0]}`?" if near else ""


class Reader:
    """Takes a scenario line by line. Each line has four tests, in this order: its shape, its place, its names, its limits."""

    def __init__(self):
        self.part, self.numbers = "nezha", {}
        self.blocks, self.since = 0, None
        self.requests = self.faults = 0
        self.skewed = set()

    def take(self, line):
        spans = self.shape(line)
        self.place(spans)
        self.names(spans)
        self.limits(spans)
        self.keep([word for word, _ in spans])

    def keep(self, words):
        first = words[0]
        if first in ("nezha", "f", "proxies", "clients", "ticks", "window"):
            self.numbers[first] = int(words[1])
            following = {"nezha": "f", "f": "proxies", "proxies": "clients", "clients": "ticks", "window": "blocks"}
            self.part = following.get(first) or ("window" if self.numbers["nezha"] == 2 else "blocks")
        elif first == "skew":
            self.skewed.add(words[1])
        elif first == "client":
            self.part, self.since = "script", self.count
        elif first == "end":
            self.blocks += 1
            self.part = "blocks" if self.blocks < self.numbers["clients"] else "faults"
        elif first == "done":
            self.part = "end"

    # Shape

    def shape(self, line):
        """The words of a line, each with its column."""
        for at, byte in enumerate(line):
            if not 0x20 <= byte <= 0x7E:
                what = {9: "a tab", 13: "a carriage return"}.get(byte, f"the byte {byte}")
                said = f"{what}: words are separated by spaces, and lines by one newline"
                raise Refusal("syntax", said, at + 1)
        spans = [(match[0], match.start() + 1) for match in re.finditer(r"[^ ]+", line.decode())]
        if not spans:
            raise Refusal("syntax", "spaces alone: a line has words, or is empty")
        first, at = spans[0]
        known = [word for word in LINES if word != "window" or self.numbers.get("nezha") == 2]
        if first not in known:
            hint = "`window` is for `nezha 2`" if first == "window" else meant(first, known)
            raise Refusal("syntax", f"no line begins with `{first}`", at, len(first), hint)
        expected = LINES[first][1]
        if len(spans) - 1 > len(expected):
            word, at = spans[len(expected) + 1]
            hint = "remarks are lines of their own, which begin with #" if word[0] in "#;/" else ""
            raise Refusal("syntax", f"a word too many: the line is {form(first)}", at, len(word), hint)
        if len(spans) - 1 < len(expected):
            said = f"{expected[len(spans) - 1].name} is missing: the line is {form(first)}"
            raise Refusal("syntax", said, len(line.rstrip()) + 2)
        for expects, (word, at) in zip(expected, spans[1:]):
            if not re.fullmatch(expects.shape, word):
                hint = "a number has no leading zero" if re.fullmatch("0[0-9]+", word) else f"the line is {form(first)}"
                raise Refusal("syntax", f"{expects.name} is `{word}`, and not {expects.said}", at, len(word), hint)
        return spans

    # Place

    def place(self, spans):
        first, at = spans[0]
        part = LINES[first][0]
        if part != self.part:
            raise Refusal("order", self.out_of_place(part), at, len(first))
        if first == "skew" and self.blocks:
            raise Refusal("order", "skews come before the blocks of the clients", at, len(first))
        if first == "client":
            client = spans[1][0]
            # A block of another sort of actor, or of a client that is not there, is a matter of names.
            if client[0] == "c" and int(client[1:]) < self.numbers["clients"] and int(client[1:]) != self.blocks:
                raise Refusal("order", f"the next block is of c{self.blocks}", spans[1][1], len(client))

    def out_of_place(self, part):
        if self.part == "end":
            return "nothing comes after `done`"
        if self.part in LINES:
            return f"{form(self.part)} comes here"
        if self.part == "script":
            return f"the block of c{self.blocks} is open since line {self.since}: `end` comes before this line"
        clients = self.numbers["clients"]
        if part == "script":
            return "this line is for the block of a client, after `client cK`"
        if self.part == "blocks" and part == "faults":
            return f"the block of c{self.blocks} comes before this line: there are {clients} clients"
        if self.part == "faults" and part == "blocks":
            return f"the blocks of all {clients} clients are complete: faults or `done` come here"
        return "the head is complete"

    # Names

    def names(self, spans):
        first = spans[0][0]
        sizes = {"r": 2 * self.numbers.get("f", 0) + 1, "p": self.numbers.get("proxies"), "c": self.numbers.get("clients")}
        for expects, (word, at) in zip(LINES[first][1], spans[1:]):
            if expects.actors and word != "*":
                sort = word[0]
                if sort not in expects.actors:
                    said = f"`{first}` is for {' and '.join(SORTS[it] for it in expects.actors)}"
                    raise Refusal("name", said, at, len(word))
                if int(word[1:]) >= sizes[sort]:
                    said = f"there is no {word}: the {SORTS[sort]} are {sort}0 to {sort}{sizes[sort] - 1}"
                    raise Refusal("name", said, at, len(word))
            if expects is KIND and word not in KINDS:
                hint = meant(word, KINDS) or f"the kinds are {', '.join(KINDS)}"
                raise Refusal("name", f"no message is called `{word}`", at, len(word), hint)
        if first == "skew" and spans[1][0] in self.skewed:
            word, at = spans[1]
            raise Refusal("name", f"{word} has a skew already", at, len(word))

    # Limits

    def limits(self, spans):
        first, at = spans[0]
        for expects, (word, column) in zip(LINES[first][1], spans[1:]):
            if expects.most is not None and not expects.least <= int(word) <= expects.most:
                raise Refusal("limit", f"{expects.name} is {expects.least:,} to {expects.most:,}", column, len(word))
            if expects.bytes is not None and len(word) > expects.bytes:
                said = f"{expects.name} has at most {expects.bytes} bytes; this has {len(word)}"
                raise Refusal("limit", said, column, len(word))
        if first == "block" and int(spans[3][0]) > int(spans[4][0]):
            raise Refusal("limit", "the block ends before it begins", spans[4][1], len(spans[4][0]))
        self.requests += first in COMMANDS
        self.faults += first in FAULTS
        counts = (
            (self.requests, 2_000, "requests"),
            (self.faults, 1_000, "faults"),
            (self.requests * self.numbers.get("ticks", 0), 2_000_000, "requests times ticks"),
            (self.requests * self.faults, 200_000, "requests times faults"),
        )
        for count, most, name in counts:
            if count > most:
                raise Refusal("limit", f"with this line there are more than {most:,} {name}", at, len(first))

    # All lines

    def read(self, data):
        *lines, rest = data.split(b"\n")
        end = 0
        for self.count, line in enumerate(lines, 1):
            end += len(line) + 1
            if end > MAX_TEXT:
                self.too_long()
            if line and not line.startswith(b"#"):
                self.take(line)
        self.count = len(lines) + 1
        if len(data) > MAX_TEXT:
            self.too_long()
        if rest:
            raise Refusal("syntax", "the last line has no newline", len(rest) + 1)
        if self.part != "end":
            wanted = {"script": f"`end` of the block of c{self.blocks}", "blocks": f"`client c{self.blocks}`", "faults": "`done`"}
            raise Refusal("order", f"the text ends here, before {wanted.get(self.part) or form(self.part)}")

    def too_long(self):
        raise Refusal("limit", f"a scenario has at most {MAX_TEXT:,} bytes")


def refusal_of(data):
    """The refusal of a text, or None if it is a scenario."""
    reader = Reader()
    try:
        reader.read(data)
    except Refusal as refusal:
        refusal.line = reader.count
        return refusal
    return None


def explained(data, refusal):
    """The program's own line, then the place and what is expected."""
    lines = data.split(b"\n")
    line = re.sub(rb"[^ -~]", b"?", lines[refusal.line - 1]).decode()
    # Of a long line the part around the caret is shown.
    start = max(0, refusal.column - 60) if len(line) > 140 else 0
    margin = " " * len(str(refusal.line))
    width = max(1, min(refusal.width, 140 + start - refusal.column))
    said = [
        f"refused line {refusal.line}: {refusal.kind}",
        f"  {refusal.line} | {line[start : start + 140]}".rstrip(),
        f"  {margin} | {' ' * (refusal.column - 1 - start)}{'^' * width}",
        f"  {refusal.said}",
    ]
    return said + [f"  {refusal.hint}"] * bool(refusal.hint)


def warnings(text):
    """The faults of a scenario that cannot strike, whatever happens in the run."""
    scenario = Scenario(text)
    for words in scenario.faults:
        line = " ".join(words)
        if words[0] in ("drop", "hold", "twice", "cut"):
            ends = MESSAGES[words[3]][0]
            if words[1][0] + words[2][0] != ends:
                a, b = SORTS[ends[0]], SORTS[ends[1]]
                yield f"never strikes: {line}   ({words[3]} is a message from {a} to {b})"
        elif int(words[3] if words[0] == "block" else words[2]) > scenario.ticks:
            yield f"never strikes: {line}   (the last tick is {scenario.ticks})"
        elif words[0] == "restart":
            crashes = [int(w[2]) for w in scenario.faults if w[:2] == ["crash", words[1]]]
            if not any(crash <= int(words[2]) for crash in crashes):
                yield f"never strikes: {line}   ({words[1]} is up: no crash comes before)"


def main():
    words = argparse.ArgumentParser(description=__doc__, formatter_class=argparse.RawDescriptionHelpFormatter)
    words.add_argument("scenario", nargs="?", default="-")
    words.add_argument("--brief", action="store_true", help="one line, as editors read it")
    given = words.parse_args()
    with open(0 if given.scenario == "-" else given.scenario, "rb") as source:
        data = source.read()
    refusal = refusal_of(data)
    if refusal and given.brief:
        hint = f"; {refusal.hint}" if refusal.hint else ""
        print(f"{given.scenario}:{refusal.line}:{refusal.column}: {refusal.kind}: {refusal.said}{hint}")
    else:
        for line in explained(data, refusal) if refusal else warnings(data.decode()):
            print(line)
    sys.exit(2 if refusal else 0)


if __name__ == "__main__":
    main()
