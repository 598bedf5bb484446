#!/usr/bin/env python3
"""Tests of history.py, on the stored outputs of the scenarios and on texts of a few lines.

    test_history.py --long [PROGRAM] [COUNT]   plays so many drawn scenarios, 1,000 if left out: the search explains each text,
                                               and each one that it does not explain after damage is refused by `check` too
"""

import json
import random
import sys
import unittest

from history import edn, executed, operations, unexplained
from random_scenario import Drawn
from reading import call, played, program, read_text, stored_output


def explained(text):
    return unexplained(read_text(text.splitlines())) is None


def texts():
    """The stored outputs that have the text of a run."""
    return [(name, stored_output(name)) for name, word in played().items() if word != "pace"]


class Histories(unittest.TestCase):
    def test_operations(self):
        text = "send c0 1 put a 1\nsend c1 1 cas a - 2\naccept c1 1 done fast\nsend c1 2 get a\naccept c0 1 done slow\nopen c1 2\nend\n"
        found = [list(operation.values()) for operation in operations(read_text(text.splitlines()))]
        self.assertEqual(found, [
            [0, "invoke", "put", "a", ["1"]],
            [16, "invoke", "cas", "a", ["-", "2"]],
            [16, "ok", "cas", "a", ["-", "2"], "done", "fast"],
            [16, "invoke", "get", "a", []],
            [0, "ok", "put", "a", ["1"], "done", "slow"],
            [16, "info", "get", "a", []],
        ])

    def test_a_process_has_one_operation_open(self):
        for name, text in texts():
            open_now = set()
            for operation in operations(read_text(text.splitlines())):
                if operation["type"] == "invoke":
                    self.assertNotIn(operation["process"], open_now, name)
                    open_now.add(operation["process"])
                elif operation["type"] == "ok":
                    open_now.remove(operation["process"])

    def test_edn(self):
        operation = {"index": 2, "process": 16, "type": "ok", "f": "cas", "key": 'a"', "value": ["-", "2"], "answer": "value 1"}
        self.assertEqual(edn(operation), '{:index 2, :process 16, :type :ok, :f :cas, :key "a\\"", :value ["-" "2"], :answer "value 1"}')
        self.assertEqual(json.loads(json.dumps(operation)), operation)

    def test_a_store_of_one_key(self):
        """The answers that the table of commands in README.md gives."""
        for command, cell, answer, after in (
            ("put k 1", None, "done", "1"), ("put k 1", "2", "done", "1"),
            ("get k", None, "absent", None), ("get k", "2", "value 2", "2"),
            ("del k", None, "absent", None), ("del k", "2", "done", None),
            ("cas k 1 2", "1", "done", "2"), ("cas k 1 2", "3", "differs", "3"), ("cas k 1 2", None, "absent", None),
            ("cas k - 2", None, "done", "2"), ("cas k - 2", "1", "differs", "1"), ("cas k 1 -", "1", "done", None),
            ("cas k - -", None, "done", None),
        ):
            self.assertEqual(executed(command, cell), (answer, after), (command, cell))


PUT = "send c0 1 put a 1\naccept c0 1 done fast\n"


class Search(unittest.TestCase):
    def test_the_stored_outputs_are_explained(self):
        for name, text in texts():
            self.assertTrue(explained(text), name)

    def test_answers_that_no_order_gives(self):
        for text in (
            "send c0 1 get a\naccept c0 1 value 1 fast\n",
            PUT + "send c1 1 get a\naccept c1 1 absent fast\n",
            PUT + "send c1 1 put a 2\naccept c1 1 done fast\nsend c2 1 get a\naccept c2 1 value 1 fast\n",
            "send c0 1 cas a - 1\nsend c1 1 cas a - 2\naccept c0 1 done fast\naccept c1 1 done fast\n",
            # Two reads that see two open writes in different orders.
            "send c0 1 put a 1\nsend c1 1 put a 2\nsend c2 1 get a\naccept c2 1 value 1 fast\nsend c2 2 get a\naccept c2 2 value 2 fast\n"
            "send c3 1 get a\naccept c3 1 value 1 fast\n",
        ):
            self.assertFalse(explained(text + "end\n"), text)

    def test_answers_that_some_order_gives(self):
        for text in (
            "",
            PUT + "send c1 1 get a\naccept c1 1 value 1 fast\n",
            "send c0 1 put a 1\nsend c1 1 get a\naccept c1 1 absent fast\naccept c0 1 done fast\n",
            "send c0 1 put a 1\nsend c1 1 get a\naccept c1 1 value 1 fast\naccept c0 1 done fast\n",
            # An open request may have taken effect, or not, or late.
            "send c0 1 put a 1\nsend c1 1 get a\naccept c1 1 value 1 fast\nopen c0 1\n",
            "send c0 1 put a 1\nsend c1 1 get a\naccept c1 1 absent fast\nsend c1 2 get a\naccept c1 2 value 1 fast\nopen c0 1\n",
            "send c0 1 put a 1\nsend c1 1 get b\naccept c1 1 absent fast\nopen c0 1\n",
            "send c0 1 put a 1\nsend c1 1 put a 2\nsend c2 1 get a\naccept c2 1 value 1 fast\nsend c2 2 get a\naccept c2 2 value 2 fast\n"
            "send c3 1 get a\naccept c3 1 value 2 fast\n",
        ):
            self.assertTrue(explained(text + "end\n"), text)

    def test_each_answer_of_a_run_that_is_changed_matters(self):
        lines = stored_output("seven_answers").splitlines()
        for at, line in enumerate(lines):
            if line.startswith("accept"):
                head, path = line.split()[:3], line.split()[-1]
                for answer in {"done", "absent", "differs", "value x", "value z"} - {" ".join(line.split()[3:-1])}:
                    text = "\n".join([*lines[:at], " ".join([*head, answer, path]), *lines[at + 1 :]])
                    self.assertFalse(explained(text), f"{line}: {answer}")


def damaged(rng, text):
    """The text with one answer changed, where it is accepted and in the history alike."""
    lines = text.splitlines()
    accepts = [line.split() for line in lines if line.startswith("accept")]
    if not accepts:
        return None
    words = rng.choice(accepts)
    answer = rng.choice(["done", "absent", "differs", "value 1", "value 2", "value 3"])
    out = []
    for line in lines:
        if line.split() == words:
            line = " ".join([*words[:3], answer, words[-1]])
        elif line.startswith("at ") and line.split()[2:4] == words[1:3]:
            line = f"{line.rpartition(' gives ')[0]} gives {answer}"
        out.append(line)
    return "\n".join(out) + "\n"


def compare(path, count):
    rng = random.Random(1)
    whole = damage = refused = bad = 0
    for seed in range(count):
        text, _ = call(path, ["run"], Drawn(seed).text())
        checked = call(path, ["check"], text)[0] == "yes\n"
        whole += 1
        if not checked or not explained(text):
            bad += 1
            print(f"seed {seed}: check says {'yes' if checked else 'no'}, the search the other or no")
        other = damaged(rng, text)
        if other is None or other == text:
            continue
        damage += 1
        is_explained, checked = explained(other), call(path, ["check"], other)[0] == "yes\n"
        refused += not is_explained
        if checked and not is_explained:
            bad += 1
            print(f"seed {seed}, damaged: check says yes, and no order explains it")
    print(f"{whole} texts, {damage} damaged, of which the search refuses {refused}; {bad} differ")
    return bad


if __name__ == "__main__":
    if sys.argv[1:2] == ["--long"]:
        sys.exit(compare(program(*sys.argv[2:3]), int(*sys.argv[3:4] or [1000])) > 0)
    unittest.main()
