#!/usr/bin/env python3
"""Says of each fault line of a scenario how often it struck.

    hits.py SCENARIO STORY         a line for each fault line, in order
    hits.py --gate SCENARIO STORY  the same, and status 1 if one struck nothing that should

STORY is a file with the story of the run, or - for standard input. A message that an earlier line has lost is not struck
again. A crash strikes an actor that is up, a restart one that is down, an alarm a replica that does something at it. With
--gate a fault that must strike nothing says so in a remark on the line before it, which has the words `strikes nothing`.
"""

import argparse
import sys
from collections import Counter

from reading import ABOUT_ACTORS, read_scenario, read_story


class Hits:
    """For each fault line the ticks in which it struck, and why it did not where it could have."""

    def __init__(self, scenario, story):
        self.faults = scenario.faults
        self.ticks = [[] for _ in self.faults]
        self.why_not = [None] * len(self.faults)
        self.sent, self.down = Counter(), set()
        for now in story.records:
            if now.what in ABOUT_ACTORS:
                self.strike_actor(now)
            for parcel in now.sends:
                self.strike_parcel(parcel)

    def strike_parcel(self, parcel):
        """The lines about this parcel in order, up to the one that loses it."""
        self.sent[parcel.sender, parcel.to, parcel.kind] += 1
        is_lost = False
        for place, words in enumerate(self.faults):
            if self.is_about(words, parcel):
                if is_lost:
                    self.why_not[place] = "an earlier line has lost it"
                else:
                    self.ticks[place].append(parcel.tick)
                is_lost = is_lost or words[0] in ("drop", "block")

    def is_about(self, words, parcel):
        if words[0] in ABOUT_ACTORS:
            return False
        if words[0] == "block":
            _, a, b, start, end = words
            return a in ("*", parcel.sender) and b in ("*", parcel.to) and int(start) <= parcel.tick <= int(end)
        course = (parcel.sender, parcel.to, parcel.kind)
        return tuple(words[1:4]) == course and int(words[4]) == self.sent[course]

    def strike_actor(self, now):
        is_down = now.actor in self.down
        strikes = {"crash": not is_down, "restart": is_down, "alarm": bool(now.sends or now.after)}[now.what]
        # Lines that say the same are struck in their order, each by a record of its own.
        same = [k for k, words in enumerate(self.faults) if words == [now.what, now.actor, str(now.tick)]]
        place = next(k for k in same if not self.ticks[k] and not self.why_not[k])
        if strikes:
            self.ticks[place].append(now.tick)
        else:
            self.why_not[place] = f"{now.actor} was {'down' if is_down else 'up'}"
        (self.down.add if now.what == "crash" else self.down.discard if now.what == "restart" else len)(now.actor)

    def line(self, place):
        words, ticks = self.faults[place], self.ticks[place]
        line = f"hits {len(ticks)} {' '.join(words)}"
        if ticks:
            return f"{line}   first at {ticks[0]}"
        if self.why_not[place]:
            return f"{line}   ({self.why_not[place]})"
        if words[0] == "block":
            return f"{line}   (no such message was sent then)"
        if words[0] in ABOUT_ACTORS:
            return f"{line}   (after the last tick)"
        return f"{line}   (such messages sent: {self.sent[tuple(words[1:4])]})"


def lacking(scenario, hits):
    """The places of the lines that do not do what they should: strike, or strike nothing if their remark says so."""
    return [k for k, remark in enumerate(scenario.remarks) if bool(hits.ticks[k]) == ("strikes nothing" in (remark or ""))]


def main():
    words = argparse.ArgumentParser(description=__doc__, formatter_class=argparse.RawDescriptionHelpFormatter)
    words.add_argument("scenario")
    words.add_argument("story")
    words.add_argument("--gate", action="store_true", help="status 1 if a fault struck nothing that should")
    given = words.parse_args()
    scenario = read_scenario(given.scenario)
    hits = Hits(scenario, read_story(given.story))
    for place in range(len(scenario.faults)):
        print(hits.line(place))
    sys.exit(given.gate and bool(lacking(scenario, hits)))


if __name__ == "__main__":
    main()
