#!/usr/bin/env python3
"""Tests of random_scenario.py.

    test_random_scenario.py --long [PROGRAM] [COUNT]   plays so many drawn scenarios, 1,000 if left out
"""

import os
import sys
import unittest
from collections import Counter

from lint import refusal_of, warnings
from random_scenario import Drawn, Sheet
from reading import FAULTS, Scenario, call, program

with open(os.path.join(os.path.dirname(os.path.abspath(__file__)), "leader_fails.sheet")) as source:
    SHEET = source.read()


class FromASeed(unittest.TestCase):
    def test_each_is_a_scenario(self):
        for seed in range(300):
            text = Drawn(seed).text()
            self.assertIsNone(refusal_of(text.encode()), seed)

    def test_all_kinds_of_faults_skews_and_windows_are_drawn(self):
        faults, heads, skewed = Counter(), {}, 0
        for seed in range(300):
            scenario = Scenario(Drawn(seed).text())
            faults.update(words[0] for words in scenario.faults)
            skewed += bool(scenario.skews)
            for word, value in scenario.head.items():
                heads.setdefault(word, set()).add(value)
        self.assertEqual(set(faults), set(FAULTS))
        self.assertGreater(min(faults.values()), 50)
        self.assertGreater(skewed, 50)
        self.assertEqual(heads["f"], {1, 2, 3, 4})
        self.assertEqual(heads["window"], {2, 3, 16})

    def test_no_fault_is_of_a_message_that_cannot_be(self):
        for seed in range(300):
            self.assertEqual([line for line in warnings(Drawn(seed).text()) if "is a message" in line or "last tick" in line], [])

    def test_what_is_given_is_not_drawn(self):
        for seed in range(20):
            scenario = Scenario(Drawn(seed, f=3, clients=5, ticks=70, requests=11, faults=7).text())
            self.assertEqual((scenario.f, len(scenario.clients), scenario.ticks), (3, 5, 70))
            self.assertEqual((len(scenario.commands()), len(scenario.faults)), (11, 7))

    def test_a_seed_has_one_scenario(self):
        self.assertEqual(Drawn(5).text(), Drawn(5).text())
        self.assertEqual(len({Drawn(seed).text() for seed in range(300)}), 300)


class FromASheet(unittest.TestCase):
    def test_repetition_sums_and_choices(self):
        text = Sheet(3).text(SHEET)
        self.assertIsNone(refusal_of(text.encode()))
        scenario = Scenario(text)
        self.assertEqual([len(script) for script in scenario.scripts], [20] * 4)
        self.assertEqual([wait for wait, _ in scenario.scripts[2][:3]], [19, 34, 49])
        self.assertEqual(scenario.faults, [w.split() for w in ("crash r0 120", "restart r0 150", "crash r1 220", "restart r1 250")])
        commands = [words for script in scenario.scripts for _, words in script]
        self.assertEqual({words[0] for words in commands}, {"put", "get", "cas"})
        self.assertEqual({words[1] for words in commands}, {"k0", "k1", "k2", "k3"})
        self.assertEqual([words[2] for words in commands[:20] if words[0] == "put"][0][:3], "v1.")
        self.assertEqual(Sheet(1).text("put a#b 1 # why\n#end\nend"), "put a#b 1\nend\n")

    def test_a_seed_has_one_scenario(self):
        self.assertEqual(Sheet(3).text(SHEET), Sheet(3).text(SHEET))
        self.assertNotEqual(Sheet(3).text(SHEET), Sheet(4).text(SHEET))

    def test_what_is_no_sum_is_refused(self):
        for line in ("wait $(1 +)", "wait $(x)", "wait $(rnd(1))", "wait $(print(1))", "wait $(1/2)", "wait $(1//0)", "repeat x\nend"):
            with self.assertRaises(SystemExit) as raised:
                Sheet(1).text(line)
            self.assertIn("not a number", str(raised.exception), line)
        with self.assertRaises(SystemExit) as raised:
            Sheet(1).text("repeat 2\nclient c0\nend\n")
        self.assertIn("no end of: repeat 2", str(raised.exception))


def play(path, count):
    bad = 0
    for seed in range(count):
        output, status = call(path, ["run"], Drawn(seed).text())
        bad += status != 0 or not output.endswith("end\n")
    print(f"{count} played, {bad} not to the end")
    return bad


if __name__ == "__main__":
    if sys.argv[1:2] == ["--long"]:
        sys.exit(play(program(*sys.argv[2:3]), int(*sys.argv[3:4] or [1000])) > 0)
    unittest.main()
