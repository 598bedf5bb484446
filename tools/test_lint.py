#!/usr/bin/env python3
"""Tests of lint.py: refusals whose kinds docs/FORMATS.md has, and all scenarios.

    test_lint.py --long [PROGRAM] [SEED]   compares 6,000 damaged scenarios or more with the program, 1,000 of each kind
"""

import random
import subprocess
import sys
import unittest

from lint import KINDS, LINES, explained, refusal_of, warnings
from reading import FAULTS, call, example, examples, program, stored_output

BASE = """nezha 2
f 1
proxies 2
clients 2
ticks 40
window 4
skew p1 -20
client c0
put a 1
end
client c1
wait 5
cas a - 2
end
drop p0 r2 timed 1
crash r1 20
done
"""
# A line of BASE, what it becomes (None: it goes), the refusal, and words of what is said.
REFUSALS = [
    (1, "nezha 3", 1, "limit", "V is 1 to 2"),
    (1, "f 1", 1, "order", "`nezha V` comes here"),
    (1, "nezha 1", 6, "syntax", "`window` is for `nezha 2`"),
    (2, "f 0", 2, "limit", "F is 1 to 4"),
    (2, "f 01", 2, "syntax", "no leading zero"),
    (2, "proxies 2", 2, "order", "`f F` comes here"),
    (4, "clients\t2", 4, "syntax", "a tab"),
    (5, "ticks 40\r", 5, "syntax", "a carriage return"),
    (5, "ticks", 5, "syntax", "T is missing: the line is `ticks T`"),
    (6, "windo 4", 6, "syntax", "did you mean `window`?"),
    (6, None, 6, "order", "`window W` comes here"),
    (7, "skew c1 5", 7, "name", "`skew` is for replicas and proxies"),
    (7, "skew p2 5", 7, "name", "there is no p2: the proxies are p0 to p1"),
    (7, "skew p1 4611686018427387905", 7, "limit", "-4,611,686,018,427,387,904 to 4,611,686,018,427,387,904"),
    (7, "skew p1 1\nskew p1 1", 8, "name", "p1 has a skew already"),
    (8, "client c1", 8, "order", "the next block is of c0"),
    (8, "client c2", 8, "name", "there is no c2: the clients are c0 to c1"),
    (8, "client r0", 8, "name", "`client` is for clients"),
    (8, "client 0", 8, "syntax", "cK is `0`, and not an actor, as c0"),
    (8, None, 8, "order", "this line is for the block of a client"),
    (9, "put a -", 9, "syntax", "not a value: `-` alone is none"),
    (9, "put a", 9, "syntax", "VALUE is missing: the line is `put KEY VALUE`"),
    (9, "put a 1 # one", 9, "syntax", "remarks are lines of their own"),
    (9, f"put {'k' * 33} 1", 9, "limit", "KEY has at most 32 bytes; this has 33"),
    (9, f"put a {'v' * 257}", 9, "limit", "VALUE has at most 256 bytes; this has 257"),
    (9, "wait 0", 9, "limit", "N is 1 to 20,000"),
    (9, "skew r0 5", 9, "order", "the block of c0 is open since line 8"),
    (10, None, 10, "order", "the block of c0 is open since line 8"),
    (11, "drop p0 r2 timed 1", 11, "order", "the block of c1 comes before this line: there are 2 clients"),
    (11, "skew r0 5", 11, "order", "skews come before"),
    (12, "   ", 12, "syntax", "spaces alone"),
    (15, "drop p0 r2 timmed 1", 15, "name", "did you mean `timed`?"),
    (15, "drop p0 r2 word 1", 15, "name", "the kinds are request, timed, "),
    (15, "drop p0 r3 timed 1", 15, "name", "there is no r3: the replicas are r0 to r2"),
    (15, "drop p0 r2 timed 0", 15, "limit", "N is 1 to 1,000,000"),
    (15, "hold p0 r2 timed 1", 15, "syntax", "D is missing: the line is `hold A B KIND N D`"),
    (15, "block r0 * 9 8", 15, "limit", "the block ends before it begins"),
    (15, "client c1", 15, "order", "the blocks of all 2 clients are complete"),
    (16, "crash c0 20", 16, "name", "`crash` is for replicas and proxies"),
    (16, "crash 20 r1", 16, "syntax", "A is `20`, and not an actor, as r0 or p0"),
    (16, "alarm p1 20", 16, "name", "`alarm` is for replicas"),
    (16, "crash r1 20001", 16, "limit", "T is 1 to 20,000"),
    (17, "done\ndone", 18, "order", "nothing comes after `done`"),
    (17, None, 17, "order", "the text ends here, before `done`"),
]


def changed(text, place, line):
    lines = text.split("\n")
    lines[place - 1 : place] = [] if line is None else [line]
    return "\n".join(lines).encode()


class Refusals(unittest.TestCase):
    def test_line_and_kind_and_what_is_said(self):
        self.assertIsNone(refusal_of(BASE.encode()))
        for place, line, at, kind, said in REFUSALS:
            data = changed(BASE, place, line)
            found = refusal_of(data)
            self.assertIsNotNone(found, line)
            self.assertEqual((found.line, found.kind), (at, kind), line)
            self.assertIn(said, f"{found.said}\n{found.hint}", line)

    def test_sums_and_lengths(self):
        def of(requests, faults, ticks=40):
            head = f"nezha 1\nf 1\nproxies 1\nclients 1\nticks {ticks}\nclient c0\n"
            return (head + "get a\n" * requests + "end\n" + "crash r0 1\n" * faults + "done\n").encode()

        def kind(data):
            found = refusal_of(data)
            return found and (found.line, found.kind)

        self.assertIsNone(kind(of(2000, 100)))
        self.assertEqual(kind(of(2001, 0)), (2007, "limit"))
        self.assertEqual(kind(of(2000, 101)), (2108, "limit"))
        self.assertIsNone(kind(of(200, 1000)))
        self.assertEqual(kind(of(200, 1001)), (1208, "limit"))
        self.assertIsNone(kind(of(100, 0, 20000)))
        self.assertEqual(kind(of(101, 0, 20000)), (107, "limit"))
        self.assertEqual(kind(of(202, 0, 9901)), (208, "limit"))
        self.assertEqual(kind(of(489, 409)), (905, "limit"))
        rest = 1_048_576 - len(BASE)
        self.assertIsNone(kind(BASE.encode() + b"#" * (rest - 1) + b"\n"))
        self.assertEqual(kind(BASE.encode() + b"#" * rest + b"\n"), (18, "limit"))
        self.assertEqual(kind(BASE.encode() + b"#" * rest), (18, "syntax"))
        self.assertEqual(kind(BASE.encode()[:-1]), (17, "syntax"))
        self.assertEqual(kind(b""), (1, "order"))

    def test_the_caret_is_at_the_word(self):
        data = changed(BASE, 15, "drop p0 r2  timmed 1")
        self.assertEqual(explained(data, refusal_of(data)), [
            "refused line 15: name",
            "  15 | drop p0 r2  timmed 1",
            "     |             ^^^^^^",
            "  no message is called `timmed`",
            "  did you mean `timed`?",
        ])
        data = changed(BASE, 9, f"put a {'v' * 300}")
        line, caret = explained(data, refusal_of(data))[1:3]
        self.assertEqual(line[caret.index("^")], "v")
        self.assertLess(len(caret), 160)

    def test_the_scenarios_are_taken_as_the_program_does(self):
        """The gate compares what the program prints with the stored outputs, so these are the program's own."""
        for name in examples():
            with open(example(name), "rb") as text:
                found = refusal_of(text.read())
            output = stored_output(name)
            self.assertEqual(f"refused line {found.line}: {found.kind}\n" if found else None,
                             output if output.startswith("refused") else None, name)

    def test_faults_that_cannot_strike(self):
        faults = [
            "drop r2 p0 timed 1", "crash r2 41", "restart r1 9", "block * r0 41 50", "crash r0 5", "restart r0 9",
            "alarm r1 40", "drop p0 r2 timed 99",
        ]
        said = list(warnings(BASE.replace("crash r1 20", "\n".join(faults))))
        self.assertEqual([line.split("   ")[0] for line in said], [f"never strikes: {fault}" for fault in faults[:4]])


# The long comparison

KINDS_OF_REFUSAL = ("syntax", "order", "name", "limit")
WORDS = [*LINES, *KINDS, "*", "-", "#", "0", "00", "1", "01", "x", "r0", "r9", "p0", "p9", "c0", "c64", "c00", "r100", "-5"]
NUMBERS = [0, 1, 2, 3, 4, 5, 8, 9, 16, 17, 64, 65, 99, 20_000, 20_001, 1_000_000, 1_000_001, 2**24, 2**24 + 1, 2**62, 2**62 + 1, 10**19]


def damaged_word(rng, word):
    """Another word in its place, most often one of its sort."""
    if rng.random() < 0.2:
        return rng.choice(WORDS)
    if word[0] in "rpc" and word[1:].isdigit():
        return f"{rng.choice('rpc' if rng.random() < 0.5 else word[0])}{rng.choice([0, 1, 2, 3, 8, 9, 63, 64, 99, 100])}"
    if word.lstrip("-").isdigit():
        return str(rng.choice(NUMBERS))
    if word in KINDS:
        return rng.choice([*KINDS, word[:-1], word + "s"])
    return rng.choice([word * 40, word + rng.choice("x\t\r\x7f "), word[:-1] or "-"])


def damaged(rng, text):
    lines = text.split("\n")
    for _ in range(rng.choice([1, 1, 1, 2])):
        how = rng.choice(["word"] * 12 + ["drop", "repeat", "swap", "more", "less", "end"])
        # Words are damaged most often where actors and kinds are.
        named = [k for k, line in enumerate(lines) if line.startswith(("skew", "client ", *FAULTS))]
        at = rng.choice(named) if how == "word" and named and rng.random() < 0.8 else rng.randrange(len(lines) - 1)
        words = lines[at].split(" ")
        if how == "word" and words[1:]:
            # A word after the first: so a known line with a bad name or number is frequent.
            place = rng.randrange(1, len(words))
            words[place] = damaged_word(rng, words[place] or "x")
            lines[at] = " ".join(words)
        elif how == "drop":
            del lines[at]
        elif how == "repeat":
            lines.insert(rng.randrange(len(lines)), lines[at])
        elif how == "swap":
            other = rng.randrange(len(lines) - 1)
            lines[at], lines[other] = lines[other], lines[at]
        elif how in ("more", "less"):
            lines[at] = f"{lines[at]} {rng.choice(WORDS)}" if how == "more" else " ".join(words[:-1])
        elif how == "end":
            return "\n".join(lines)[: rng.randrange(len(text))].encode()
        if len(lines) < 2:
            break
    return "\n".join(lines).encode()


def compare(path, seed):
    """Damaged scenarios, until 6,000 are compared and 1,000 are refused of each kind."""
    rng = random.Random(seed)
    texts = []
    for name in examples():
        with open(example(name)) as source:
            texts.append(source.read())
    counts, differing = dict.fromkeys(("taken", *KINDS_OF_REFUSAL), 0), 0
    while sum(counts.values()) < 6000 or min(counts[kind] for kind in KINDS_OF_REFUSAL) < 1000:
        data = damaged(rng, rng.choice(texts))
        found = refusal_of(data)
        counts[found.kind if found else "taken"] += 1
        ours = f"refused line {found.line}: {found.kind}\n" if found else None
        output, status = call(path, ["run"], data)
        if (output if status == 2 else None) != ours or status not in (0, 2):
            differing += 1
            print(f"differs: {ours!r}, the program {output[:40]!r}, of {data!r}")
    print(", ".join(f"{count} {kind}" for kind, count in counts.items()), f"{differing} differ", sep="; ")
    return differing


if __name__ == "__main__":
    if sys.argv[1:2] == ["--long"]:
        sys.exit(compare(program(*sys.argv[2:3]), " ".join(sys.argv[3:])) > 0)
    unittest.main()
