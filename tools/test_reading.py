#!/usr/bin/env python3
"""Tests of reading.py, on the stored stories and on stories of a few lines.

    test_reading.py --long [PROGRAM] [COUNT]   the stories of so many drawn scenarios, 1,000 if left out: each ends with what
                                               `run` prints, and draw.py, why.py and hits.py say what agrees with it
"""

import os
import sys
import unittest
import xml.dom.minidom

from draw import Drawing
from hits import Hits
from random_scenario import Drawn
from reading import MESSAGES, Scenario, Story, call, event_of, example, fields_of, played, program, stored_output
from store import load, stored_path, with_stories
from why import explain, requests_of, table


class Scenarios(unittest.TestCase):
    def test_parts(self):
        text = "# a title\nnezha 1\nf 1\nproxies 1\nclients 2\nticks 9\nskew p0 -5\nclient c0\nwait 3\nwait 4\nput a 1\nget a\nend\n"
        text += "client c1\nwait 2\nend\n# why\ncrash r0 1\n\ndrop p0 r0 timed 1\ndone\n"
        it = Scenario(text)
        self.assertEqual(it.title, "a title")
        self.assertEqual(it.scripts, [[(4, ["put", "a", "1"]), (None, ["get", "a"])], []])
        self.assertEqual(it.commands(), {"c0/1": "put a 1", "c0/2": "get a"})
        self.assertEqual((it.replicas, it.proxies, it.clients), (["r0", "r1", "r2"], ["p0"], ["c0", "c1"]))
        self.assertEqual(it.remarks, ["why", ""])
        self.assertEqual(it.leader(4), "r1")
        self.assertEqual(Scenario(it.text()).text(), it.text())
        self.assertEqual(it.text().count("wait"), 1)

    def test_the_text_of_a_scenario_has_its_lines(self):
        for name in played():
            with open(example(name)) as source:
                text = source.read()
            lines = [line.split() for line in text.splitlines() if line and not line.startswith("#")]
            self.assertEqual([line.split() for line in Scenario(text).text().splitlines()], lines, name)


class Texts(unittest.TestCase):
    def test_lines(self):
        for line, parts in (
            ("send c0 1 put gives at", ("send", "c0/1", "put gives at", "", "")),
            ("accept c0 1 value fast slow", ("accept", "c0/1", "", "value fast", "slow")),
            ("open c12 3", ("open", "c12/3", "", "", "")),
            ("at 3 c0 1 get gives gives value gives", ("at", "c0/1", "get gives", "value gives", "")),
            ("at 1 c0 1 cas a - 2 gives done", ("at", "c0/1", "cas a - 2", "done", "")),
        ):
            it = event_of(line)
            self.assertEqual((it.word, it.id, it.command, it.answer, it.path), parts, line)


class Stories(unittest.TestCase):
    def test_each_ends_with_the_text_that_the_program_prints(self):
        """The gate compares the stored outputs of the scenarios with the program."""
        for name in with_stories():
            word, output = played()[name], stored_output(name)
            with open(stored_path(name)) as story:
                _, _, text = story.read().partition("\ntext\n")
            if word != "pace":
                self.assertEqual(text, output if word == "run" else output.partition("text\n")[2], name)

    def test_what_clients_see_is_in_the_text(self):
        for name in with_stories():
            _, story = load(name)
            seen = [event for now in story.records for event in now.events]
            self.assertEqual(seen, [event for event in story.text if event.word in ("send", "accept")], name)

    def test_no_story_is_stored_for_nothing(self):
        stored = sorted(os.listdir(os.path.dirname(stored_path(""))))
        self.assertEqual(stored, sorted(f"{name}.story" for name in with_stories()))

    def test_what_arrives_was_sent(self):
        for name in with_stories():
            scenario, story = load(name)
            due = 0
            for p in story.parcels:
                self.assertEqual(p.sender[0] + p.to[0], MESSAGES[p.kind][0])
                came = [(arrival.tick, arrival.kept) for arrival in p.arrivals]
                expected = sorted((tick, -1 if kept is None else kept) for tick, kept in p.fates if tick <= scenario.ticks)
                self.assertEqual(sorted((tick, -1 if kept is None else kept) for tick, kept in came), expected)
                self.assertTrue(all(arrival.actor == p.to for arrival in p.arrivals))
                due += len(came)
            self.assertEqual(due, sum(now.what in ("deliver", "cut") for now in story.records))

    def test_each_message_has_the_fields_of_its_kind(self):
        for name in with_stories():
            for p in load(name)[1].parcels:
                names = MESSAGES[p.kind][1].split()
                self.assertIn(list(p.fields), (names, [it for it in names if it != "answer"]))
                self.assertEqual(" ".join(f"{it} {value}".strip() for it, value in p.fields.items()), p.text)

    def test_logs_are_followed(self):
        _, story = load("leader_cut_off")
        last = {now.actor: now.after for now in story.records if now.after}
        self.assertEqual(sorted(last), ["r0", "r1", "r2", "r3", "r4"])
        for state in last.values():
            self.assertEqual(state.log, ((12500, "c0/1"), (33500, "c1/1")))
            self.assertEqual((state.early, state.late, state.view), ((), (), 1))
        late = [(now.tick, now.after.log, now.after.late) for now in story.records if now.actor == "r4" and now.after and now.after.late]
        self.assertEqual(late[0], (22, ((12500, "c0/1"),), ((10500, "c1/1"),)))

    def test_a_rejoin_is_followed(self):
        _, story = load("replica_rejoins")
        states = [now.after for now in story.records if now.actor == "r2" and now.after and now.tick >= 20]
        self.assertEqual([s.mode for s in states[:6]], ["down"] + ["rejoining"] * 5)
        self.assertEqual([s.phase for s in states[1:6]], ["vectors", "vectors", "views", "views", "log"])
        self.assertEqual((states[0].log, states[1].log, states[6].mode), ((), (), "normal"))
        self.assertEqual(states[6].ids("log"), ["c0/1"])
        self.assertEqual(states[-1].vector, (0, 0, 1))

    def test_decisions_are_found(self):
        _, story = load("leader_cut_off")
        found = [(now.tick, now.actor, p.id, p.fields["path"], now.parcel.fields["view"]) for now in story.records for p in now.decides()]
        self.assertEqual(found, [(14, "p0", "c0/1", "fast", "0"), (35, "p0", "c1/1", "fast", "1")])
        # An answer that is sent again for a request that comes again is no decision.
        _, story = load("window_lost_answer")
        self.assertEqual(sum(p.kind == "answer" for p in story.parcels), 4)
        self.assertEqual(sum(len(now.decides()) for now in story.records), 3)

    def test_copies_and_cuts_are_distinguished(self):
        story = Story("""1 c0 tick 1000
  sends request p0 at 2 cut 5 at 2: num 1 command put a 1
  sends request p0 at 2: num 2 command get a
2 p0 cut request c0 5
2 p0 deliver request c0
2 p0 deliver request c0
text
end""".splitlines())
        self.assertEqual([now.parcel.number for now in story.records[1:]], [0, 0, 1])
        self.assertEqual([p.id for p in story.parcels], ["c0/1", "c0/2"])

    def test_stray_messages(self):
        story = Story("""60 r3 tick 60000
  sends rejoin-ask r1 at 63 at 64: nonce 1 vector 0,0,0,1,0
61 r3 alarm
  sends view-change r1 at 62 at 64: view 1 last 0 vector 0,0,0,0,0 synced 0 commit 0 entries 0
62 r1 deliver view-change r3
  now view-change collected 1 view 1 vector 0,0,0,0,0 synced 0 commit 0
63 r1 deliver rejoin-ask r3
  now normal view 1 vector 0,0,0,1,0 synced 0 commit 0
64 r1 deliver view-change r3
64 r1 deliver rejoin-ask r3
text
end""".splitlines())
        self.assertEqual([now.tick for now in story.records if now.is_stray()], [64])

    def test_lists_are_in_the_order_of_their_keys(self):
        lines = ["3 r0 deliver timed p0"] * 4
        for at, key in zip((1, 3, 5, 7), ("20/c0/1", "10/c10/1", "10/c9/2", "10/c9/10")):
            lines.insert(at, f"  now normal view 0 vector 0,0,0 synced 0 commit 0 early +{key}")
        for tick in range(4):
            lines.insert(0, "  sends timed r0 at 3: sent 2 deadline 9 id c0/1")
        story = Story(["2 p0 tick 2000", *lines, "text", "end"])
        self.assertEqual(story.records[-1].after.ids("early"), ["c9/2", "c9/10", "c10/1", "c0/1"])

    def test_words_of_commands_are_not_fields(self):
        self.assertEqual(fields_of("request", "num 1 command put num path".split()), {"num": "1", "command": "put num path"})
        self.assertEqual(
            fields_of("answer", "num 1 answer value path path slow".split()), {"num": "1", "answer": "value path", "path": "slow"})
        self.assertEqual(fields_of("log-mod", "view 0 vector 0,0,0 commit 0 start 0 keys".split())["keys"], "")


def faults_of(path, seed):
    """What does not agree in the story of a drawn scenario."""
    text = Drawn(seed).text()
    output, status = call(path, ["story"], text)
    lines, scenario = output.splitlines(), Scenario(text)
    story = Story(lines)
    if status != 0 or output.partition("\ntext\n")[2] != call(path, ["run"], text)[0]:
        yield "the text of its story is not that of the run"
    if sum(len(p.arrivals) for p in story.parcels) != sum(now.what in ("deliver", "cut") for now in story.records):
        yield "messages arrive that were not sent"
    xml.dom.minidom.parseString(Drawing(scenario, story).svg())
    hits = Hits(scenario, Story([]))
    for p in story.parcels:
        before = sum(map(len, hits.ticks))
        hits.strike_parcel(p)
        if (sum(map(len, hits.ticks)) > before) != (p.fates != [(p.tick + 1, None)]):
            yield f"hits.py: the fate of {p.kind} of tick {p.tick} from {p.sender} to {p.to}"
    ends = {event.id: event.path or "open" for event in story.text if event.word in ("accept", "open")}
    for request in requests_of(story):
        said = explain(scenario, request)
        if not said.startswith(f"{request.name} {request.command}: {ends[request.name]}"):
            yield f"why.py: {said}, and the text {ends[request.name]}"
    paces, status = call(path, ["pace"], text)
    counts = [line.replace("requests ", "") for line in table(requests_of(story))]
    if status == 0 and [line for line in paces.splitlines() if line.startswith(("ticks", "open"))] != counts:
        yield f"why.py --table: {counts}, and pace {paces}"


def compare(path, count):
    bad = 0
    for seed in range(count):
        for fault in faults_of(path, seed):
            print(f"seed {seed}: {fault}")
            bad += 1
    print(f"{count} stories; {bad} differ")
    return bad


if __name__ == "__main__":
    if sys.argv[1:2] == ["--long"]:
        sys.exit(compare(program(*sys.argv[2:3]), int(*sys.argv[3:4] or [1000])) > 0)
    unittest.main()
