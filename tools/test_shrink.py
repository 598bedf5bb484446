#!/usr/bin/env python3
"""Tests of shrink.py, with questions that need no program."""

import os
import subprocess
import sys
import tempfile
import unittest

from lint import refusal_of
from random_scenario import Drawn
from reading import Scenario
from shrink import Shrinker


def shrunk(text, is_interesting, kept=()):
    return Shrinker(Scenario(text), is_interesting, kept).run().text()


def is_whole(text):
    return refusal_of(text.encode()) is None


BIG = """# a title
nezha 2
f 3
proxies 3
clients 4
ticks 150
window 16
skew r0 900
skew p1 -3000
client c0
wait 9
put a 1
end
client c1
get b
wait 30
put k 7
get a
end
client c2
end
client c3
del a
put b 1
end
drop p0 r2 timed 12
hold c3 p1 request 9 20
block r0 * 40 60
crash r1 90
restart r1 95
done
"""


class Shrinking(unittest.TestCase):
    def test_what_is_not_needed_goes(self):
        def question(text):
            it = Scenario(text)
            return is_whole(text) and ["crash", "r1"] in [words[:2] for words in it.faults] and "put k 7" in it.commands().values()

        self.assertEqual(
            shrunk(BIG, question), "nezha 1\nf 1\nproxies 1\nclients 1\nticks 1\nclient c0\nput k 7\nend\ncrash r1 1\ndone\n")

    def test_numbers_go_as_low_as_they_may(self):
        def question(text):
            it = Scenario(text)
            holds = [words for words in it.faults if words[0] == "hold"]
            return is_whole(text) and it.ticks > 37 and any(int(words[4]) >= 5 and int(words[5]) >= 11 for words in holds)

        self.assertEqual(
            shrunk(BIG, question), "nezha 1\nf 1\nproxies 2\nclients 1\nticks 38\nclient c0\nend\nhold c0 p1 request 5 11\ndone\n")

    def test_waits_go_or_get_lower(self):
        def question(text):
            return is_whole(text) and any(wait is not None and wait >= 7 and words[0] == "put" for script in Scenario(text).scripts
                                          for wait, words in script)

        self.assertIn("client c0\nwait 7\nput ", shrunk(BIG, question))

    def test_clients_that_ask_nothing_go_and_others_are_renamed(self):
        def question(text):
            it = Scenario(text)
            return is_whole(text) and any(words[:2] == ["hold", f"c{len(it.clients) - 1}"] for words in it.faults) and \
                it.scripts[-1][:1] == [(None, ["del", "a"])]

        self.assertEqual(shrunk(BIG, question).count("client c"), 1)

    def test_what_is_kept_stays(self):
        text = shrunk(BIG, is_whole, ("ticks", "f", "window"))
        self.assertEqual(Scenario(text).head, {"nezha": 2, "f": 3, "proxies": 1, "clients": 1, "ticks": 150, "window": 16})

    def test_the_result_is_interesting_and_no_larger(self):
        for seed in range(12):
            text = Drawn(seed, requests=6, faults=6).text()
            shrinker = Shrinker(Scenario(text), lambda it: is_whole(it) and len(it) % 3 == len(text) % 3)
            small = shrinker.run().text()
            self.assertTrue(shrinker.is_interesting(small))
            self.assertLessEqual(len(small), len(text))

    def test_it_runs_a_command(self):
        with tempfile.TemporaryDirectory() as folder:
            path = os.path.join(folder, "big")
            with open(path, "w") as target:
                target.write(BIG)
            tool = os.path.join(os.path.dirname(os.path.abspath(__file__)), "shrink.py")
            call = [sys.executable, tool, "--keep", "ticks,f,window,proxies", path]
            ran = subprocess.run([*call, "grep -q '^crash r1'"], capture_output=True, text=True)
            self.assertEqual(ran.returncode, 0)
            self.assertIn("crash r1", ran.stdout)
            self.assertNotIn("put", ran.stdout)
            self.assertRegex(ran.stderr, r"\d+ tries, 10 lines\n$")
            ran = subprocess.run([*call, "false"], capture_output=True, text=True)
            self.assertEqual((ran.returncode, ran.stdout), (1, ""))
            self.assertIn("is not interesting", ran.stderr)


if __name__ == "__main__":
    unittest.main()
