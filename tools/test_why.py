#!/usr/bin/env python3
"""Tests of why.py, on the stored stories."""

import unittest

from reading import Story, Scenario
from store import load, with_stories
from why import explain, requests_of, table

# What each scenario is about, as its first line says, seen by a request of it.
REASONS = {
    "lost_message": ["c0/1 put a 1: slow after 15 ticks: a slow quorum came first (r0, r1; fast needs 3); r2: its copy was lost"],
    "cut_messages": ["c0/1 put a 1: slow after 15 ticks: a slow quorum came first (r0, r1; fast needs 3); r2: its copy was cut"],
    "late_request": [
        "c0/1 put a 1: fast after 14 ticks: r0, r1, r2 agree in view 0 (3 needed)",
        "c1/1 get a: slow after 6 ticks: a slow quorum came first (r0, r1; fast needs 3); "
        "r2: its reply came after the decision; the leader gave it a later deadline",
    ],
    "leader_cut_off": [
        "c0/1 put a 1: fast after 14 ticks: r0, r1, r2, r3 agree in view 0 (4 needed)",
        "c1/1 put b 2: fast after 35 ticks: r0, r1, r2, r3 agree in view 1 (4 needed); asked again at 31",
    ],
    "leader_lost": [
        "c0/1 put a 1: fast after 14 ticks: r0, r1, r2 agree in view 0 (3 needed)",
        "c0/2 put b 2: slow after 34 ticks: a slow quorum came first (r1, r2; fast needs 3); r0: it was down; asked again at 45",
        "c0/3 get a: slow after 6 ticks: a slow quorum came first (r1, r2; fast needs 3); r0: it was down",
    ],
    "everybody_lost": [
        "c0/1 put a 1: fast after 14 ticks: r0, r1, r2 agree in view 0 (3 needed)",
        "c0/2 put b 2: open: p0 has no answer of a leader and replies of nobody "
        "(r0: it was rejoining, r1: it was rejoining, r2: it was rejoining); asked again at 60, 90",
    ],
    "held_copies": ["c0/1 put a 1: fast after 44 ticks: r0, r1, r2 agree in view 0 (3 needed); asked again at 31"],
    "window_lost_answer": [
        "c0/1 put a 1: fast after 32 ticks: r0, r1, r2 agree in view 0 (3 needed); an answer of tick 14 was lost; asked again at 31",
        "c0/2 put a 2: fast after 14 ticks: r0, r1, r2 agree in view 0 (3 needed)",
        "c0/3 get a: fast after 14 ticks: r0, r1, r2 agree in view 0 (3 needed)",
    ],
}
SMALL = "nezha 1\nf 1\nproxies 1\nclients 1\nticks 20\nclient c0\nput a 1\nend\ndone\n"


class Why(unittest.TestCase):
    def test_reasons(self):
        for name, lines in REASONS.items():
            scenario, story = load(name)
            self.assertEqual([explain(scenario, request) for request in requests_of(story)], lines, name)

    def test_each_line_agrees_with_the_text(self):
        """Path and openness are those of the text that the program prints, and fast needs enough replicas."""
        for name in with_stories():
            scenario, story = load(name)
            ends = {event.id: event.path or "open" for event in story.text if event.word in ("accept", "open")}
            for request in requests_of(story):
                said = explain(scenario, request).removeprefix(f"{request.name} {request.command}: ")
                self.assertTrue(said.startswith(ends[request.name]), said)
                if ends[request.name] == "fast":
                    agree = said.split("ticks: ")[1].split(" agree")[0].split(", ")
                    self.assertGreaterEqual(len(agree), scenario.f + (scenario.f + 1) // 2 + 1, said)

    def test_the_table_counts_each_request_once(self):
        scenario, story = load("leader_lost")
        self.assertEqual(table(requests_of(story)), ["ticks 6 requests 1", "ticks 14 requests 1", "ticks 34 requests 1", "open 0"])
        _, story = load("everybody_lost")
        self.assertEqual(table(requests_of(story)), ["ticks 14 requests 1", "open 1"])

    def causes(self, lines):
        story = Story(["1 c0 tick 1000", "  send c0 1 put a 1", *lines, "text", "send c0 1 put a 1", "open c0 1", "end"])
        (request,) = requests_of(story)
        return explain(Scenario(SMALL), request)

    def test_requests_that_do_not_reach_a_proxy(self):
        for fate, said in (("lost", "was lost"), ("at 2 cut 3", "was cut"), ("at 40", "is on the way")):
            arrival = ["2 p0 cut request c0 3"] if "cut" in fate else []
            self.assertEqual(
                self.causes([f"  sends request p0 {fate}: num 1 command put a 1", *arrival]), f"c0/1 put a 1: open: the request to p0 at 1 {said}")

    def test_replies_that_differ_from_the_leaders(self):
        reply = "  sends fast-reply p0 at 4: view 0 id c0/1 digest {} vector {} delay 1{}"
        line = self.causes([
            "  sends request p0 at 2: num 1 command put a 1", "2 p0 deliver request c0",
            *(f"  sends timed r{k} at 3: sent 2000 deadline 2500 id c0/1" for k in range(3)),
            "3 r0 deliver timed p0", reply.format("00", "0,0,0", " answer done"),
            "3 r1 deliver timed p0", reply.format("11", "0,0,0", ""),
            "3 r2 deliver timed p0", reply.format("00", "0,0,1", ""),
            "4 p0 deliver fast-reply r0", "4 p0 deliver fast-reply r1", "4 p0 deliver fast-reply r2",
        ])
        self.assertEqual(
            line, "c0/1 put a 1: open: p0 has an answer of a leader and replies of r0, r1, r2 "
            "(r1's log before it differs from the leader's, r2 has another crash vector (0,0,1; the leader 0,0,0))")

    def test_what_comes_after_the_decision_is_no_cause(self):
        def copy(tick, fate):
            return [f"  sends timed r{k} {fate if k == 2 else f'at {tick + 1}'}: sent 2000 deadline 2500 id c0/1" for k in range(3)]

        def reply(k, answer=""):
            return [f"3 r{k} deliver timed p0", f"  sends slow-reply p0 at 4: view 0 id c0/1 delay 1{answer}"] if k else \
                ["3 r0 deliver timed p0", "  sends fast-reply p0 at 4: view 0 id c0/1 digest 00 vector 0,0,0 delay 1 answer done"]

        for fate, said in (("lost", "r2: its copy was lost"), ("at 9", "r2: its copy is on the way")):
            line = self.causes([
                "  sends request p0 at 2 at 6: num 1 command put a 1", "2 p0 deliver request c0", *copy(2, fate), *reply(0), *reply(1),
                "4 p0 deliver fast-reply r0", "4 p0 deliver slow-reply r1", "  sends answer c0 lost: num 1 answer done path slow",
                "6 p0 deliver request c0", *copy(6, "at 7"), "7 r0 deliver timed p0", "7 r1 deliver timed p0", "7 r2 deliver timed p0",
                *(["9 r2 deliver timed p0"] if "9" in fate else []),
            ])
            self.assertIn(f"(r0, r1; fast needs 3); {said}; an answer", line)

    def test_a_reply_of_the_view_before_is_not_the_cause_if_one_of_this_view_comes_late(self):
        def reply(tick, actor, view, answer=""):
            body = f"view {view} id c0/1 digest 00 vector 0,0,0 delay 1{answer}"
            return [f"{tick} {actor} tick {tick}000", f"  sends fast-reply p0 at {tick + 1}: {body}"]

        copies = ["  sends request p0 at 2: num 1 command put a 1", "2 p0 deliver request c0",
                  *(f"  sends timed r{k} at 3: sent 2000 deadline 2500 id c0/1" for k in range(3))]
        early = [*reply(3, "r2", 0), "4 p0 deliver fast-reply r2"]
        decision = [*reply(8, "r0", 1), *reply(8, "r1", 1, " answer done"), "9 p0 deliver fast-reply r0", "9 p0 deliver fast-reply r1",
                    "  sends answer c0 lost: num 1 answer done path slow"]
        late = [*reply(9, "r2", 1), "10 p0 deliver fast-reply r2"]
        head = "c0/1 put a 1: open, though p0 decided it at 9 (slow): a slow quorum came first (r0, r1; fast needs 3); "
        rest = "; an answer of tick 9 was lost"
        self.assertEqual(self.causes([*copies, *early, *decision]), f"{head}r2 replied in view 0{rest}")
        self.assertEqual(self.causes([*copies, *early, *decision, *late]), f"{head}r2: its reply came after the decision{rest}")


if __name__ == "__main__":
    unittest.main()
