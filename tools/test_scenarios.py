#!/usr/bin/env python3
"""Tests that the gate plays what is in scenarios/: a stored run reads each scenario and prints its output, as crates/nezha
and crates/nezha_cases do."""
import glob
import os
import re
import unittest

TOP = os.path.join(os.path.dirname(os.path.abspath(__file__)), "..")


def read(path):
    with open(path, encoding="utf-8", errors="replace") as it:
        return it.read()


def cases(text):
    """The inputs of a file of cases, each after a line `== NAME`."""
    return [case.partition("\n")[2] for case in re.split(r"^== ", text, flags=re.MULTILINE)[1:]]


def not_played(scenarios, read_files, printed):
    """The files of the folder that nothing plays, or whose output nothing compares."""
    read_files = [*read_files, *(case for text in read_files for case in cases(text))]
    faults = []
    for name, (text, output) in sorted(scenarios.items()):
        is_played = text in read_files
        faults += [name] * (not is_played)
        faults += [f"{name}.stdout"] * (not (is_played and any(output in it for it in printed)))
    return faults


class Scenarios(unittest.TestCase):
    def test_what_is_refused(self):
        def faults(text, output):
            return not_played({"one": (text, output)}, ["get\n"], ["1 r0\nsend\n"])

        self.assertEqual(faults("get\n", "send\n"), [])
        self.assertEqual(faults("get\n", "done\n"), ["one.stdout"])
        self.assertEqual(faults("del\n", "send\n"), ["one", "one.stdout"])

    def test_cases(self):
        text = "== one\nput a\n== two\nget\n"
        self.assertEqual(cases(text), ["put a\n", "get\n"])
        self.assertEqual(not_played({"one": ("put a\n", "1 r0\n")}, [text], ["1 r0\nsend\n"]), [])
        self.assertEqual(not_played({"one": ("put b\n", "1 r0\n")}, [text], ["1 r0\nsend\n"]), ["one", "one.stdout"])

    def test_this_repository(self):
        names = [path for path in glob.glob(f"{TOP}/scenarios/*") if os.path.isfile(path) and "." not in os.path.basename(path)]
        self.assertGreater(len(names), 20)
        scenarios = {os.path.basename(path): (read(path), read(f"{path}.stdout")) for path in names}
        files, given, printed = (
            [read(path) for path in glob.glob(f"{TOP}/crates/{pattern}", recursive=True) if os.path.isfile(path)]
            for pattern in ("nezha*/data/**/*", "nezha*/stdin", "nezha*/stdout")
        )
        self.assertEqual(not_played(scenarios, files + given, printed), [])


if __name__ == "__main__":
    unittest.main()
