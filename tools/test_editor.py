#!/usr/bin/env python3
"""Tests of the grammar for editors: it knows the lines, the words and the kinds of messages that lint.py knows.

Its patterns are in the part of their language that Python's have as well.
"""

import json
import os
import re
import unittest

from lint import LINES, refusal_of
from random_scenario import Drawn
from reading import KINDS, example, examples
from test_lint import BASE, REFUSALS, changed

EDITOR = os.path.join(os.path.dirname(os.path.abspath(__file__)), "editor")


def read(name):
    with open(os.path.join(EDITOR, name)) as source:
        return json.load(source)


PATTERNS = read("nezha.tmLanguage.json")["patterns"]


def matching(line):
    """The first pattern that matches the line, and its match."""
    return next(((p, found) for p in PATTERNS if (found := re.match(p["match"], line))), (None, None))


class Grammar(unittest.TestCase):
    def test_each_line_of_a_scenario_has_its_pattern(self):
        texts = [Drawn(seed).text() for seed in range(50)]
        for name in examples():
            with open(example(name)) as source:
                texts.append(source.read())
        for line in {line for text in texts if refusal_of(text.encode()) is None for line in text.splitlines() if line}:
            pattern, found = matching(line)
            self.assertNotIn("invalid", pattern.get("name", ""), line)
            self.assertEqual(found[0], line)
            if not line.startswith("#"):
                self.assertEqual(list(found.groups()), line.split(), line)
                self.assertEqual(len(pattern["captures"]), len(line.split()), line)

    def test_a_line_without_a_shape_is_invalid(self):
        for place, line, _, kind, _ in REFUSALS:
            if kind == "syntax" and line and not line.startswith("window"):
                refusal = refusal_of(changed(BASE, place, line))
                bad = changed(BASE, place, line).decode().split("\n")[refusal.line - 1]
                if refusal.line == place:
                    self.assertEqual(matching(bad)[0]["name"], "invalid.illegal.nezha", bad)

    def test_an_actor_of_another_sort_is_invalid(self):
        for line in ("skew c0 1", "client r0", "crash c0 3", "restart c1 3", "alarm p1 3", "drop p0 * timed 1", "drop p0 r0 timmed 1"):
            self.assertEqual(matching(line)[0]["name"], "invalid.illegal.nezha", line)

    def test_its_words_are_those_of_the_language(self):
        first = {word for p in PATTERNS if "captures" in p for word in re.match(r"\^ \*\(([^)]*)\)", p["match"])[1].split("|")}
        self.assertEqual(first, set(LINES))
        for p in PATTERNS:
            kinds = re.search(r"\((request[^)]*)\)", p["match"])
            if kinds:
                self.assertEqual(kinds[1].split("|"), KINDS)

    def test_an_editor_finds_the_grammar(self):
        package, grammar = read("package.json")["contributes"], read("nezha.tmLanguage.json")
        (entry,) = package["grammars"]
        self.assertEqual(entry["scopeName"], grammar["scopeName"])
        self.assertTrue(os.path.exists(os.path.join(EDITOR, entry["path"])))
        self.assertEqual([f".{name}" for name in grammar["fileTypes"]], package["languages"][0]["extensions"])


if __name__ == "__main__":
    unittest.main()
