#!/usr/bin/env python3
"""Tests of hits.py; and the gate: each fault of a scenario strikes, or its remark says that it must not."""

import unittest

from hits import Hits, lacking
from reading import Scenario, Story
from store import load, with_stories

HEAD = "nezha 1\nf 1\nproxies 1\nclients 1\nticks 40\nclient c0\nput a 1\nend\n"
STORY = """1 c0 tick 1000
  send c0 1 put a 1
  sends request p0 at 2: num 1 command put a 1
2 p0 deliver request c0
  sends timed r0 at 3: sent 2000 deadline 12500 id c0/1
  sends timed r1 lost: sent 2000 deadline 12500 id c0/1
  sends timed r2 at 3: sent 2000 deadline 12500 id c0/1
5 r2 crash
  now down
5 r2 crash
6 r2 alarm
7 r2 restart 1
  now rejoining vectors collected 0 view 0 vector 0,0,0 synced 0 commit 0
  sends vector-ask r0 lost: nonce 1
  sends vector-ask r1 at 8: nonce 1
8 r0 restart 2
text
send c0 1 put a 1
open c0 1
end""".splitlines()


def lines(faults):
    hits = Hits(Scenario(HEAD + "\n".join(faults) + "\ndone\n"), Story(STORY))
    return [hits.line(k) for k in range(len(faults))]


class Counts(unittest.TestCase):
    def test_each_sort_of_line(self):
        faults = {
            "drop p0 r1 timed 1": "hits 1 drop p0 r1 timed 1   first at 2",
            "drop p0 r2 timed 9": "hits 0 drop p0 r2 timed 9   (such messages sent: 1)",
            "drop r2 p0 timed 1": "hits 0 drop r2 p0 timed 1   (such messages sent: 0)",
            "twice c0 p0 request 1 0": "hits 1 twice c0 p0 request 1 0   first at 1",
            "block r2 * 7 7": "hits 2 block r2 * 7 7   first at 7",
            "hold r2 r0 vector-ask 1 1": "hits 0 hold r2 r0 vector-ask 1 1   (an earlier line has lost it)",
            "block * * 20 30": "hits 0 block * * 20 30   (no such message was sent then)",
            "crash r2 5": "hits 1 crash r2 5   first at 5",
            "crash r2 41": "hits 0 crash r2 41   (after the last tick)",
            "alarm r2 6": "hits 0 alarm r2 6   (r2 was down)",
            "restart r2 7": "hits 1 restart r2 7   first at 7",
            "restart r0 8": "hits 0 restart r0 8   (r0 was up)",
        }
        # The story has the crash of tick 5 twice, as two lines.
        given = [*faults, "crash r2 5"]
        self.assertEqual(lines(given), [*faults.values(), "hits 0 crash r2 5   (r2 was down)"])

    def test_the_gate_refuses_what_does_not_do_as_its_remark_says(self):
        rest = "crash r2 5\ncrash r2 5\nalarm r2 6\nrestart r2 7\nrestart r0 8\ndone\n"
        remark = "# this strikes nothing, on purpose\n"

        def places(text):
            scenario = Scenario(HEAD + text)
            return lacking(scenario, Hits(scenario, Story(STORY)))

        self.assertEqual(places(rest), [1, 2, 4])
        self.assertEqual(places(remark + rest), [0, 1, 2, 4])
        self.assertEqual(places(rest.replace("alarm", remark + "alarm")), [1, 4])

    def test_a_message_struck_is_one_whose_fate_is_changed(self):
        """Of the stored runs: what no line struck arrives once and whole in the next tick, and what one struck does not."""
        for name in with_stories():
            scenario, story = load(name)
            hits = Hits(scenario, Story([]))
            for p in story.parcels:
                before = [len(ticks) for ticks in hits.ticks]
                hits.strike_parcel(p)
                is_struck = before != [len(ticks) for ticks in hits.ticks]
                self.assertEqual(is_struck, p.fates != [(p.tick + 1, None)], f"{name} tick {p.tick} {p.kind} {p.to}")


class Gate(unittest.TestCase):
    def test_each_fault_of_the_scenarios_strikes(self):
        for name in with_stories():
            scenario, story = load(name)
            hits = Hits(scenario, story)
            self.assertEqual([hits.line(k) for k in lacking(scenario, hits)], [], name)


if __name__ == "__main__":
    unittest.main()
