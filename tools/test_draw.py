#!/usr/bin/env python3
"""Tests of draw.py, on the stored stories. The pictures in docs are drawn anew and compared."""

import re
import unittest
import xml.dom.minidom

from draw import Drawing, News, page, wide
from reading import Scenario, Story
from store import DRAWN, load, picture, picture_path, with_stories


def drawn(name, **how):
    return Drawing(*load(name), **how).svg()


# A run of a few lines: one message arrives cut and whole, one stays on its way.
SMALL = """nezha 1
f 1
proxies 1
clients 1
ticks 12
client c0
put a 1
end
done
"""


class Pictures(unittest.TestCase):
    def has(self, text, *words):
        """As assertIn, without a whole drawing in the message."""
        for word in words:
            self.assertTrue(word in text, f"the drawing has no {word}")

    def test_the_pictures_in_docs_are_those_of_the_stories(self):
        for name in DRAWN:
            with open(picture_path(name)) as stored:
                self.assertTrue(stored.read() == picture(name), f"{name} differs: tools/store.py makes it anew")

    def test_each_is_xml_and_so_is_each_page(self):
        for name in with_stories():
            scenario, story = load(name)
            svg = Drawing(scenario, story).svg()
            xml.dom.minidom.parseString(svg)
            self.has(page(scenario, svg), svg)

    def test_nothing_is_fetched_from_elsewhere(self):
        scenario, story = load("replica_rejoins")
        text = page(scenario, Drawing(scenario, story).svg())
        self.assertEqual(set(re.findall(r"https?://[^\"' ]*", text)), {"http://www.w3.org/2000/svg"})
        self.assertNotRegex(text, r"<(link|img|iframe)|src=|@import")

    def test_each_message_with_news_is_drawn_once(self):
        for name in with_stories():
            scenario, story = load(name)
            shown = [p for p in story.parcels if p.number not in News(story, False).idle]
            lost = sum(not p.fates for p in shown)
            arrive = sum(tick <= scenario.ticks for p in shown for tick, _ in p.fates)
            titles = re.findall(r"<title>tick \d+: \S+ sends [a-z-]+ to [^<]*</title>", drawn(name))
            self.assertEqual(len(titles), lost + arrive, name)
            self.assertEqual(sum("; lost" in title for title in titles), lost, name)

    def test_everything_is_drawn_if_asked(self):
        scenario, story = load("lost_message")
        fates = sum(max(1, sum(tick <= scenario.ticks for tick, _ in p.fates)) for p in story.parcels
                    if not p.fates or any(tick <= scenario.ticks for tick, _ in p.fates))
        titles = re.findall(r"<title>tick \d+: \S+ sends [a-z-]+ to ", drawn("lost_message", everything=True))
        self.assertEqual(len(titles), fates)
        self.assertLess(len(re.findall(r"sends [a-z-]+ to ", drawn("lost_message"))), fates / 3)

    def test_an_entry_that_one_replica_has_is_struck(self):
        text = drawn("leader_cut_off")
        self.assertEqual(re.findall(r"<title>tick (\d+): (\S+) \(([^)]*)\) leaves the log of (r\d)", text), [("22", "c1/1", "put b 2", "r4")])
        self.has(text, "tick 35: place 2 of the log of r4 is c1/1 (put b 2), synced")

    def test_bands_show_views_and_modes(self):
        text = drawn("leader_cut_off")
        bands = re.findall(r"<title>(r\d): (normal|view-change)[^<]* view (\d)", text)
        self.assertEqual(sorted(bands), sorted((f"r{k}", *it) for k in range(5) for it in (("normal", "0"), ("view-change", "1"), ("normal", "1"))))
        self.assertEqual((text.count(">view 0, leader</text>"), text.count(">view 1, leader</text>")), (1, 1))

    def test_a_rejoin_has_three_phases_and_a_vector(self):
        text = drawn("replica_rejoins")
        self.has(text, ">crash<", ">restart<", ">down<", ">vectors<", ">views<", ">log<", "(0,0,1)", ">vector-ask<", ">state-tell<")
        self.has(text, "accepts c0/2: value 1, fast")

    def test_a_message_that_changes_nothing_is_pale(self):
        pale = re.findall(r"<title>([^<]*changes nothing)</title><line[^>]*opacity", drawn("rejoins_twice"))
        self.assertEqual([title.split(" (")[0] for title in pale], ["tick 22: r0 sends vector-tell to r2", "tick 22: r1 sends vector-tell to r2"])

    def test_blocks_crosses_and_cuts(self):
        self.has(drawn("leader_cut_off"), "blocked: r0 to r1 r2 r3 r4")
        self.has(drawn("partition"), "blocked: everyone to r0")
        self.has(drawn("cut_messages"), "cut to 0 bytes")
        self.assertEqual(drawn("cut_messages").count('marker-end="url(#hollow)"'), 2)

    def test_quiet_ticks_are_narrow(self):
        it = Drawing(*load("replica_rejoins"))
        self.assertIn(5, it.squeezed)
        self.assertNotIn(21, it.squeezed)
        self.assertLess(it.x[6] - it.x[5], it.x[22] - it.x[21])

    def test_a_part_of_a_run(self):
        text = drawn("replica_rejoins", first=18, last=30)
        xml.dom.minidom.parseString(text)
        self.assertFalse("sends request" in text)
        self.has(text, ">restart<")

    def test_words_do_not_cover_each_other(self):
        it = Drawing(*load("rejoins_twice"))
        it.svg()
        self.assertIn("rejoin-tell", [label[3] for label in it.labels])
        boxes = []
        for word in it.words():
            x, y, size, said = re.match(r'<text x="([\d.]+)" y="([\d.]+)" font-size="(\d+)"[^>]*>([^<]*)', word).groups()
            boxes.append((float(x), float(y) - int(size), float(x) + wide(said, int(size), "bold" if "bold" in word else None), float(y), said))
        self.assertGreater(len(boxes), 20)
        for k, (a, b, c, d, said) in enumerate(boxes):
            for e, f, g, h, other in boxes[:k]:
                across, down = min(c, g) - max(a, e), min(d, h) - max(b, f)
                self.assertFalse(across > 2 and down > 3, f"{said} and {other}")

    def test_an_open_request_and_one_on_its_way(self):
        story = Story("""1 c0 tick 1000
  send c0 1 put a 1
  sends request p0 at 2 cut 5 at 30: num 1 command put a 1
2 p0 cut request c0 5
text
send c0 1 put a 1
open c0 1
end""".splitlines())
        text = Drawing(Scenario(SMALL), story).svg()
        self.has(text, ">open</text>")
        self.assertEqual(text.count("sends request to p0"), 1)


if __name__ == "__main__":
    unittest.main()
