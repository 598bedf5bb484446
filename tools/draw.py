#!/usr/bin/env python3
"""Draws a run as a space-time diagram: time to the right, a lane for each actor, an arrow for each message.

    draw.py SCENARIO STORY > run.html      a page by itself: point at things, follow a request, switch kinds
    draw.py --svg SCENARIO STORY > run.svg the drawing alone
    --from T --to T                        these ticks alone
    --everything                           also messages that tell nothing new

STORY is a file with the story of the run, or - for standard input. docs/TOOLS.md says how to read a drawing.
"""

import argparse
import html
import re
from dataclasses import replace

from reading import State, read_scenario, read_story

TICK, GAP, LANE, LEFT, TOP, LEAST_WIDTH = 34, 36, 58, 92, 66, 1000
LEGEND = 66  # the height of the legend
BAND, BOX, ROW = 10, 10, 16  # half of a band's height, a box of a log, a row of blocks
# Where in its tick a step is drawn: as in the order of the schedule.
WHEN = {"crash": 0.06, "restart": 0.12, "alarm": 0.12, "tick": 0.28}
ARRIVES = 0.62
# Kinds that are drawn alike: their name, colour and dashes.
FAMILIES = {
    "ask": ("request", "#1d4ed8", None),
    "fast": ("fast reply", "#15803d", None),
    "slow": ("slow reply", "#a16207", "5 3"),
    "answer": ("answer", "#111827", None),
    "sync": ("log sync", "#64748b", "2 2"),
    "view": ("view change", "#c2410c", None),
    "start": ("start view", "#b91c1c", None),
    "rejoin": ("rejoin", "#7c3aed", None),
}
FAMILY = {
    "request": "ask", "timed": "ask", "fast-reply": "fast", "slow-reply": "slow", "answer": "answer",
    "log-mod": "sync", "fetch": "sync", "fetch-reply": "sync", "sync-report": "sync",
    "view-ask": "view", "view-change": "view", "start-view": "start",
    "vector-ask": "rejoin", "vector-tell": "rejoin", "rejoin-ask": "rejoin", "rejoin-tell": "rejoin",
    "state-ask": "rejoin", "state-tell": "rejoin",
}
BANDS = {
    "leader": "#93c5fd", "follower": "#dbeafe", "view change": "#fed7aa", "rejoining": "#e9d5ff", "down": "url(#down)",
}
HUES = ("#2563eb", "#dc2626", "#059669", "#d97706", "#7c3aed", "#0891b2", "#db2777", "#65a30d")
GREY, PALE, RED, VIOLET, ORANGE = "#6b7280", "#9ca3af", "#dc2626", "#6d28d9", "#c2410c"
SORTS = {"c": "client", "p": "proxy", "r": "replica"}


def tag(name, *inside, **attributes):
    """An element. Numbers are rounded, `_` in names is `-`, and what is None is left out."""
    words = [name]
    for key, value in attributes.items():
        if value is not None:
            value = f"{value:.2f}".rstrip("0").rstrip(".") if isinstance(value, float) else value
            words.append(f'{key.strip("_").replace("_", "-")}="{html.escape(str(value))}"')
    content = "".join(inside)
    return f"<{' '.join(words)}>{content}</{name}>" if content else f"<{' '.join(words)}/>"


def text(x, y, said, size=11, halo=None, **attributes):
    """Words; a halo of the ground's colour keeps them readable across lines."""
    if halo:
        attributes |= {"stroke": halo, "stroke_width": 3, "paint_order": "stroke"}
    return tag("text", html.escape(said), x=float(x), y=float(y), font_size=size, **attributes)


def title(said):
    """What is shown where one points; of a digest the first bytes will do."""
    return tag("title", html.escape(re.sub(r"(digest [0-9a-f]{8})[0-9a-f]{32}", r"\1…", said)))


def clipped(said, most):
    return said if len(said) <= most else said[: most - 1] + "…"


def wide(said, size=11, font_weight=None, **_):
    """How wide a text is, roughly."""
    return (0.66 if font_weight else 0.54) * size * len(said)


class News:
    """What of a story is worth drawing: `idle` messages bring nothing new, `vain` arrivals change nothing."""

    def __init__(self, story, everything):
        self.idle, self.again, self.vain = set(), set(), set()
        self.find_repeated(story)
        self.find_vain(story)
        if everything:
            self.idle = set()

    def find_repeated(self, story):
        named, reported, asked = {}, {}, set()
        for p in story.parcels:
            course = (p.sender, p.to)
            same = (*course, p.text)
            if p.kind == "log-mod":
                # Heartbeats, and what an earlier one said as often as this one arrives.
                if not p.fields["keys"] or named.get(same, -1) >= len(p.fates):
                    self.idle.add(p.number)
                named[same] = max(named.get(same, -1), len(p.fates))
            elif p.kind == "sync-report":
                if reported.get(course, "0") == p.fields["synced"]:
                    self.idle.add(p.number)
                reported[course] = p.fields["synced"]
            elif p.kind == "request":
                if p.id in asked:
                    self.again.add(p.number)
                asked.add(p.id)

    def find_vain(self, story):
        down = set()
        for now in story.records:
            if now.what in ("crash", "restart"):
                (down.add if now.what == "crash" else down.discard)(now.actor)
            is_mute = not (now.sends or now.events or now.after)
            if now.what == "deliver" and is_mute and now.kind != "sync-report":
                if now.actor[0] != "p" or now.actor in down:
                    self.vain.add((now.parcel.number, now.tick))

    def of_state(self, now):
        """Whether the drawing shows a change of the replica's state."""
        a, b = now.before, now.after
        return b is not None and (look(a) != look(b) or (a.log, a.synced) != (b.log, b.synced) or a.vector != b.vector)


def look(state):
    return state.mode, state.phase, state.view


class Drawing:
    def __init__(self, scenario, story, first=1, last=None, everything=False):
        self.scenario, self.first, self.last = scenario, first, last or scenario.ticks
        self.records = [now for now in story.records if now.tick <= self.last]
        self.news = News(story, everything)
        self.commands = scenario.commands()
        self.hue = {name: HUES[k % len(HUES)] for k, name in enumerate(self.commands)}
        busy = {a for now in self.records if now.tick >= first for a in (now.actor,) if now.events or now.parcel}
        self.lanes = [a for a in scenario.clients if a in busy] + scenario.proxies + scenario.replicas
        self.lay_ticks()
        self.lay_lanes()
        # What is drawn above all else; words that must not cover each other; and boxes that words must not cover.
        self.over, self.labels, self.taken = [], [], []

    # Where things are

    def busy_ticks(self):
        busy = {self.first, self.last}
        for now in self.records:
            shown = [p for p in now.sends if p.number not in self.news.idle]
            if shown or now.events or now.what in ("crash", "restart", "alarm") or self.news.of_state(now):
                busy.add(now.tick)
            busy.update(tick for p in shown for tick, _ in p.fates)
        return busy

    def lay_ticks(self):
        """Each tick has its place; three or more in which nothing happens are one narrow gap."""
        busy, spans, tick = self.busy_ticks(), [], self.first
        while tick <= self.last:
            end = tick
            while end <= self.last and end not in busy:
                end += 1
            if end - tick >= 3:
                spans.append((tick, end - 1))
                tick = end
            else:
                spans.append((tick, tick))
                tick += 1
        natural = sum(TICK if a == b else GAP for a, b in spans)
        stretch = min(max((LEAST_WIDTH - LEFT - 20) / natural, 1), 1.8)
        self.x, self.gaps, at = {}, [], float(LEFT)
        for a, b in spans:
            width = stretch * (TICK if a == b else GAP)
            if a != b:
                self.gaps.append((a, b, at, width))
            for tick in range(a, b + 1):
                self.x[tick] = at + width * (tick - a) / (b - a + 1)
            at += width
        self.x[self.last + 1] = self.right = at
        self.tick_width = stretch * TICK
        self.squeezed = {tick for a, b, _, _ in self.gaps for tick in range(a, b + 1)}

    def lay_lanes(self):
        rows = {}
        for _, a, b, start, end in (words for words in self.scenario.faults if words[0] == "block"):
            if int(start) <= self.last and int(end) >= self.first:
                rows.setdefault((a, int(start), int(end)), []).append(b)
        self.blocked = [(a, ends, start, end) for (a, start, end), ends in rows.items()]
        self.y, at, sort = {}, float(TOP + ROW * len(rows) + (8 if rows else 0)), None
        for actor in self.lanes:
            at += 16 if sort and sort != actor[0] else 0
            sort, height = actor[0], LANE if actor[0] == "r" else LANE - 12
            self.y[actor] = at + height / 2
            at += height
        self.bottom = at
        self.width, self.height = max(self.right + 20, LEAST_WIDTH), at + LEGEND

    def place(self, now):
        if now.tick < self.first:
            return self.x[self.first]
        return self.within(now.tick, WHEN.get(now.what, ARRIVES))

    def within(self, tick, part):
        return self.x[tick] + part * (self.x[tick + 1] - self.x[tick])

    def is_shown(self, now):
        return self.first <= now.tick and now.actor in self.y

    # Words

    def say(self, x, y, said, away=0, **attributes):
        """Words near what they name. `away`: where to look for room, up (-1) or down (1); 0 for words that must be there."""
        self.labels.append((abs(away), x, y, said, away, attributes))

    def words(self):
        """Each label in its place, or a line or two away; one that finds no room is left out."""
        taken, out = list(self.taken), []
        for must, x, y, said, away, attributes in sorted(self.labels, key=lambda label: label[0]):
            size, width = attributes.get("size", 11), wide(said, **attributes)
            x = min(x, self.width - width - 4)
            for line in range(3 if must else 1):
                at = y + away * 10 * line
                box = (x, at - size + 2, x + width, at)
                if not must or all(box[2] <= a or c <= box[0] or box[3] <= b or d <= box[1] for a, b, c, d in taken):
                    taken.append(box)
                    out.append(text(x, at, said, halo="white", pointer_events="none", **attributes))
                    break
        return out

    # The whole

    def svg(self):
        under = [self.grid(), self.blocks(), self.bands(), self.requests(), self.arrows(), self.logs(), self.marks()]
        parts = [
            title(self.scenario.title or "a run"),
            self.definitions(),
            tag("rect", width="100%", height="100%", fill="white"),
            text(14, 25, self.scenario.title or "a run", 15, font_weight="bold"),
            *under, *self.over, *self.words(), self.names(), self.legend(),
        ]
        w, h = round(self.width), round(self.height)
        return tag(
            "svg", "\n".join(parts), xmlns="http://www.w3.org/2000/svg", role="img", width=w, height=h,
            viewBox=f"0 0 {w} {h}", font_family="DejaVu Sans, Verdana, sans-serif",
        )

    def definitions(self):
        stripes = tag(
            "pattern", tag("rect", width=7, height=7, fill="#f3f4f6"), tag("rect", width=2.6, height=7, fill=PALE),
            id="down", width=7, height=7, patternUnits="userSpaceOnUse", patternTransform="rotate(45)",
        )
        size = {"refY": 4, "markerUnits": "userSpaceOnUse", "orient": "auto"}
        heads = [
            tag("marker", tag("path", d="M0 .8 8 4 0 7.2z", fill=ink),
                id=name, viewBox="0 0 8 8", refX=7, markerWidth=9, markerHeight=9, **size)
            for name, (_, ink, _) in FAMILIES.items()
        ]
        hollow = tag("path", d="M.7.9 7.4 4 .7 7.1z", fill="white", stroke=GREY)
        heads.append(tag("marker", hollow, id="hollow", viewBox="0 0 8 8", refX=7, markerWidth=11, markerHeight=11, **size))
        return tag("defs", stripes, *heads)

    def grid(self):
        top, bottom = TOP - 14, self.bottom
        out = [text(14, top - 3, "tick", fill=GREY)]
        for tick in range(self.first, self.last + 1):
            if tick not in self.squeezed:
                x = self.x[tick]
                out.append(tag("line", x1=x, x2=x, y1=top, y2=bottom, stroke="#eef0f3"))
                out.append(text(x + 3, top - 3, str(tick), fill=GREY))
        for a, b, x, width in self.gaps:
            out.append(tag("rect", x=x, y=top, width=width, height=bottom - top, fill="#f3f5f8"))
            out.append(text(x + width / 2, top - 3, f"{a}–{b}", 9.5, fill=PALE, text_anchor="middle"))
        out += [tag("line", x1=LEFT, x2=self.right, y1=y, y2=y, stroke="#94a3b8") for y in self.y.values()]
        return "\n".join(out)

    def names(self):
        """The names of the lanes, on a ground of their own: the page keeps them in view."""
        out = [tag("rect", x=0, y=TOP - 13, width=LEFT - 4, height=self.bottom - TOP + 13, fill="white")]
        for actor, y in self.y.items():
            out.append(text(14, y + 4, actor, 13, font_weight="bold"))
            out.append(text(38, y + 4, SORTS[actor[0]], fill=GREY))
        return tag("g", *out, id="names")

    def blocks(self):
        out, y = [], float(TOP - 6)
        for a, ends, start, end in self.blocked:
            x0, x1 = self.x[max(start, self.first)], self.x[min(end, self.last) + 1]
            said = f"blocked: {a} to {' '.join(ends)}".replace("*", "everyone")
            out.append(tag("rect", x=x0, y=y, width=x1 - x0, height=ROW - 3, rx=3, fill="#fee2e2", stroke="#fca5a5"))
            out.append(text(x0 + 6, y + 10, said, 10, fill="#991b1b"))
            y += ROW
        return "\n".join(out)

    # Replicas and proxies: what they are, and what replicas have

    def bands(self):
        return "\n".join(band for actor in self.scenario.replicas + self.scenario.proxies for band in self.bands_of(actor))

    def bands_of(self, actor):
        """A band from each change of what the actor is to the next one."""
        spans, now, x = [], State(), self.x[self.first]
        for record in self.records:
            if record.actor != actor:
                continue
            after = record.after
            if actor[0] == "p" and record.what in ("crash", "restart"):
                after = replace(State(), mode="down" if record.what == "crash" else "normal")
            if after and look(after) != look(now):
                spans.append((x, self.place(record), now))
                x = self.place(record)
            now = after or now
        spans.append((x, self.right, now))
        return [self.band(actor, a, b, state) for a, b, state in spans if b > a and (actor[0] == "r" or state.mode == "down")]

    def band(self, actor, x0, x1, state):
        leads = self.scenario.leader(state.view) == actor
        sort, *said = {
            "normal": ("leader" if leads else "follower", f"view {state.view}" + ", leader" * leads, f"view {state.view}"),
            "view-change": ("view change", f"to view {state.view}", f"to {state.view}"),
            "rejoining": ("rejoining", state.phase),
            "down": ("down", "down, all state lost", "down"),
        }[state.mode]
        y, room = self.y[actor], x1 - x0 - 8
        fitting = next((words for words in said if wide(words, 10) < room), "")
        halo = "white" if state.mode == "down" else BANDS[sort]
        if fitting:
            self.over.append(text(x0 + 5, y + 4, fitting, 10.5, halo, pointer_events="none"))
        about = title(f"{actor}: {state.text}" if actor[0] == "r" else f"{actor}: down")
        return tag("rect", about, x=x0, y=y - BAND, width=x1 - x0, height=2 * BAND, rx=3, fill=BANDS[sort], stroke="white")

    def logs(self):
        return "\n".join(row for actor in self.scenario.replicas for row in self.logs_of(actor))

    def logs_of(self, actor):
        """A row of boxes where the log or the sync point changed. Of changes that are too close the last one is drawn."""
        changes = [
            now for now in self.records
            if now.actor == actor and self.is_shown(now) and now.after and now.after.mode != "down" and self.news.of_state(now)
            and (now.before.log, now.before.synced, now.before.vector) != (now.after.log, now.after.synced, now.after.vector)
        ]
        out, gone = [], []
        for now, following in zip(changes, [*changes[1:], None]):
            kept = set(now.after.ids("log"))
            gone += [name for name in now.before.ids("log") if name not in kept]
            boxes, end = self.row(now, gone)
            vector = self.new_vector(now)
            width = wide(vector)
            if following is None or end + width <= self.place(following) + 2 or following.before.mode == "down":
                if boxes:
                    out.append(boxes)
                    top = self.y[actor] + BAND + 4
                    self.taken.append((self.place(now), top, end, top + BOX))
                gone = []
                if vector:
                    self.say(end, self.y[actor] + BAND + 14, vector, fill=VIOLET, font_weight="bold")
        return out

    def new_vector(self, now):
        """The crash vector if the step changed it, but for a first one that has no crash."""
        before, after = now.before.vector, now.after.vector
        return f"({','.join(map(str, after))})" if before != after and any(before + after) else ""

    def row(self, now, gone):
        x, y, ids = self.place(now), self.y[now.actor] + BAND + 4, now.after.ids("log")
        out, shown = [], list(enumerate(ids))[0 if len(ids) <= 6 else -2 :]
        if now.before.log == now.after.log and now.before.synced == now.after.synced and not gone:
            shown = []
        elif len(ids) > 6:
            count = f"{len(ids) - 2} +"
            out.append(text(x, y + 9, count, 10, fill="#374151", halo="white"))
            x += wide(count, 10) + 2
        for place, name in shown:
            is_synced, hue = place < now.after.synced, self.hue[name]
            said = f"tick {now.tick}: place {place + 1} of the log of {now.actor} is {name} ({self.commands[name]}), "
            about = title(said + ("synced" if is_synced else "not synced"))
            fill = hue if is_synced else "white"
            box = {"x": x, "y": y, "width": BOX, "height": BOX, "class_": "box", "data_id": name}
            out.append(tag("rect", about, fill=fill, stroke=hue, stroke_width=1.6, **box))
            x += BOX + 2.5
        for name in gone:
            about = title(f"tick {now.tick}: {name} ({self.commands[name]}) leaves the log of {now.actor}")
            box = tag("rect", x=x + 1, y=y, width=BOX, height=BOX, fill="white", stroke=self.hue[name], stroke_dasharray="2 1.5")
            cross = tag("path", d=f"M{x - 1:.1f} {y - 2}l14 14m0 -14l-14 14", stroke=self.hue[name], stroke_width=1.8)
            out.append(tag("g", about, box, cross, class_="box", data_id=name))
            x += BOX + 6
        return tag("g", *out) if out else "", x

    # Clients

    def requests(self):
        began, out = {}, []
        for now in self.records:
            for event in now.events:
                if event.word == "send":
                    began[event.id] = now
                elif now.tick < self.first:
                    began.pop(event.id, None)
                elif event.id in began:
                    out.append(self.request(event.id, began.pop(event.id), now, event))
        out += [self.request(name, now, None, None) for name, now in began.items() if now.actor in self.y]
        return "\n".join(out)

    def request(self, name, start, end, answer):
        """A bar from the sending of a request to its acceptance."""
        x0, y, hue = self.place(start), self.y[start.actor], self.hue[name]
        x1 = self.place(end) if end else self.right
        bar = {"x": x0, "y": y - BAND, "width": x1 - x0, "height": 2 * BAND, "rx": 9}
        said = f"{name.split('/')[1]} {self.commands[name]}"
        if wide(said, 11.5) > x1 - x0 - 12:
            said = name.split("/")[1]
        out = [
            title(f"tick {start.tick}: {start.actor} sends {name}: {self.commands[name]}"),
            tag("rect", fill="white", **bar),
            tag("rect", fill=hue, fill_opacity=0.14, stroke=hue, stroke_dasharray=None if end else "4 3", **bar),
        ]
        of_it = {"class_": "bar", "data_id": name, "font_weight": "bold"}
        self.over.append(text(x0 + 8, y + 4, said, 11.5, fill=hue, pointer_events="none", **of_it))
        if answer:
            ink = FAMILIES[answer.path][1]
            outcome = f"{answer.answer}, {answer.path}"
            out.append(tag("circle", title(f"tick {end.tick}: accepts {name}: {outcome}"), cx=x1, cy=y, r=5, fill=ink))
            self.say(x1 + 6, y - 12, f"✓ {clipped(outcome, 30)}", fill=ink, **of_it)
        elif self.last == self.scenario.ticks:
            out.append(text(x1 - 6, y - 13, "open", 11, fill="#b91c1c", font_weight="bold", text_anchor="end"))
        return tag("g", *out, class_="bar", data_id=name)

    # Messages

    def arrows(self):
        out, named = [], set()
        for now in self.records:
            for p in now.sends if self.is_shown(now) else ():
                if p.number not in self.news.idle and p.to in self.y:
                    out += self.arrows_of(now, p)
                    self.name(now, p, named)
        return "\n".join(out)

    def name(self, now, p, named):
        """The name at an arrow. Colours show requests, replies and answers; others are named once a step, and the asks of a
        view change once a tick, what changes nothing only the first time."""
        word = "again" if p.number in self.news.again else p.kind
        if not p.fates or word != "again" and FAMILY[p.kind] not in ("view", "start", "rejoin") and "fetch" not in p.kind:
            return
        is_vain = all((p.number, tick) in self.news.vain for tick, _ in p.fates)
        by_actor = (word, now.actor)
        once = (word, now.tick) if FAMILY[p.kind] == "view" else by_actor if is_vain or "fetch" in word else (word, now.place)
        if once not in named:
            named |= {once, by_actor}
            self.label(now, p, word)

    def label(self, now, p, word):
        x, y, up = self.place(now), self.y[now.actor], self.y[p.to] < self.y[now.actor]
        y += -BAND - 3 if up else BAND + 24
        family = FAMILY[p.kind]
        self.say(x + 4, y, word, -1 if up else 1, size=10, fill=FAMILIES[family][1], class_=family, data_id=p.id)

    def arrows_of(self, now, p):
        """An arrow for each arrival, and a cross where a message is lost."""
        x0, down = self.place(now), self.y[p.to] > self.y[now.actor]
        y0 = self.y[now.actor] + self.edge(now.actor, down)
        y1 = self.y[p.to] - self.edge(p.to, down)
        _, ink, dashes = FAMILIES[FAMILY[p.kind]]
        said = f"tick {now.tick}: {p.sender} sends {p.kind} to {p.to}" + (f" ({p.text})" if p.text else "")
        group = {"class_": FAMILY[p.kind], "data_id": p.id}
        if not p.fates:
            x1, y1 = x0 + 0.6 * (self.tick_width * 1.34), y0 + 0.6 * (y1 - y0)
            stub = tag("line", x1=x0, y1=y0, x2=x1, y2=y1, stroke=ink, stroke_width=1.3, opacity=0.55, stroke_dasharray=dashes)
            cross = tag("path", d=f"M{x1 - 4:.1f} {y1 - 4:.1f}l8 8m0 -8l-8 8", stroke=RED, stroke_width=2.2)
            return [tag("g", title(f"{said}; lost"), stub, cross, **group)]
        out = []
        for tick, kept in p.fates:
            if tick > self.last:
                continue
            arrival = next((record for record in p.arrivals if record.tick == tick and record.kept == kept), None)
            is_stray = arrival is not None and arrival.is_stray()
            is_dead, is_vain = is_stray or kept is not None, (p.number, tick) in self.news.vain
            said_of_it = f"{said}; arrives at {tick}"
            said_of_it += f", cut to {kept} bytes" if kept is not None else ", stray: ignored" if is_stray else ""
            said_of_it += ", changes nothing" if is_vain and not is_dead else ""
            line = tag(
                "line", x1=x0, y1=y0, x2=self.within(tick, ARRIVES), y2=y1, stroke=PALE if is_dead else ink,
                stroke_width=1.6 if p.id else 1.4, stroke_dasharray=dashes, opacity=0.3 if is_vain and not is_dead else None,
                marker_end=f"url(#{'hollow' if is_dead else FAMILY[p.kind]})",
            )
            if is_dead:
                x, y = self.within(tick, ARRIVES) + 4, y1 + (-4 if down else 12)
                self.say(x, y, "stray" if is_stray else "cut", -1 if down else 1, size=10, fill=GREY, **group)
            out.append(tag("g", title(said_of_it), line, **group))
        return out

    def edge(self, actor, down):
        return (3 if actor[0] == "p" else BAND + 1) * (1 if down else -1)

    # What strikes actors, and what proxies decide

    def marks(self):
        return "\n".join(mark for now in self.records if self.is_shown(now) for mark in self.marks_of(now))

    def marks_of(self, now):
        x, y, out = self.place(now), self.y[now.actor], []
        about = title(f"tick {now.tick}: {now.line.split(' ', 1)[1]}")
        if now.what == "crash":
            out.append(tag("path", about, d=f"M{x - 6:.1f} {y - 15}l12 30m0 -30l-12 30", stroke=RED, stroke_width=3))
            self.say(x + 9, y - 13, "crash", fill=RED, font_weight="bold")
        elif now.what == "restart":
            out.append(tag("circle", about, cx=x, cy=y, r=6, fill=VIOLET))
            self.say(x - 2, y + 24, "restart", fill=VIOLET, font_weight="bold")
        elif now.what == "alarm":
            out.append(tag("path", about, d=f"M{x:.1f} {y - 24}l6 11h-12z", fill=ORANGE))
            self.say(x + 9, y - 14, "alarm", fill=ORANGE, font_weight="bold")
        for p in now.decides():
            path, view = p.fields["path"], now.parcel.fields["view"]
            about = title(f"tick {now.tick}: {now.actor} decides {p.id} on the {path} path, view {view}")
            diamond = tag("path", about, d=f"M{x:.1f} {y - 8}l8 8l-8 8l-8 -8z", fill=FAMILIES[path][1])
            out.append(tag("g", diamond, class_="mark", data_id=p.id))
        return out

    def legend(self):
        y = self.bottom + 24
        out = [tag("line", x1=0, x2=self.width, y1=self.bottom + 4, y2=self.bottom + 4, stroke="#e5e7eb")]
        x = 14.0
        for said, fill in BANDS.items():
            out.append(tag("rect", x=x, y=y - 10, width=18, height=13, fill=fill))
            out.append(text(x + 22, y, said, 10.5))
            x += 44 + wide(said, 10)
        out.append(text(x, y, "■ synced, □ not yet synced entry of the log, in its request's colour; struck: it left the log", 10.5))
        x, y = 14.0, y + 18
        for name, (said, ink, dashes) in FAMILIES.items():
            arrow = {"stroke": ink, "stroke_width": 1.6, "stroke_dasharray": dashes, "marker_end": f"url(#{name})"}
            out.append(tag("line", x1=x, x2=x + 24, y1=y - 4, y2=y - 4, **arrow))
            out.append(text(x + 29, y, said, 10.5))
            x += 50 + wide(said, 10)
        said = (
            "◆ a proxy decides   ·   × lost   ·   hollow head: stray or cut   ·   pale: arrives, and changes nothing"
            "   ·   (0,0,1) crash vector   ·   not drawn: what tells nothing new"
        )
        out.append(text(14, y + 18, said, 10.5))
        return "\n".join(out)


PAGE = """<!doctype html>
<html lang="en"><head><meta charset="utf-8"><title>{title}</title><style>
body {{ margin: 0; font: 14px sans-serif; padding-bottom: 3em }}
#bar {{ position: sticky; top: 0; left: 0; width: 100vw; box-sizing: border-box; padding: 6px 12px; z-index: 1 }}
#bar {{ background: #f8fafc; border-bottom: 1px solid #e5e7eb }}
#said {{ position: fixed; bottom: 0; left: 0; right: 0; padding: 6px 12px; min-height: 1.2em }}
#said {{ background: #111827; color: #f9fafb; font: 13px monospace }}
svg {{ display: block }}
label {{ margin-right: 9px; white-space: nowrap }}
.dim {{ opacity: .08 }}
[data-id] {{ cursor: pointer }}
g[class]:hover line {{ stroke-width: 3.5 }}
</style></head><body>
<div id="bar">{boxes}
<label>size <input id="size" type="range" min="0.5" max="3" step="0.1"></label>
<span style="color:#6b7280">Point to read, click to follow.</span></div>
{svg}
<div id="said">&nbsp;</div>
<script>
const svg = document.querySelector('svg'), said = document.getElementById('said'), size = document.getElementById('size');
const names = document.getElementById('names'), natural = svg.viewBox.baseVal.width, high = svg.viewBox.baseVal.height;
function fit() {{
  svg.setAttribute('width', natural * size.value);
  svg.setAttribute('height', high * size.value);
  stay();
}}
function stay() {{ names.setAttribute('transform', `translate(${{scrollX / size.value}},0)`) }}
const across = innerWidth / natural, down = (innerHeight - 75) / high;
size.value = Math.max(0.8, across < 0.7 ? down : Math.min(across - 0.02, Math.max(down, 1)));
size.oninput = fit;
onscroll = stay;
fit();
svg.onmousemove = e => {{
  const at = e.target.closest('g[class], rect, circle, path');
  const title = at && (at.querySelector(':scope > title') || at.parentNode.querySelector(':scope > title'));
  said.textContent = title && title.parentNode !== svg ? title.textContent : '\\u00a0';
}};
svg.onclick = e => {{
  const id = e.target.closest('[data-id]')?.dataset.id;
  svg.querySelectorAll('[class]').forEach(it => it.classList.toggle('dim', id !== undefined && it.dataset.id !== id));
}};
document.querySelectorAll('input[type=checkbox]').forEach(box => box.onchange = () =>
  svg.querySelectorAll('.' + box.value).forEach(it => it.style.display = box.checked ? '' : 'none'));
</script></body></html>
"""


def page(scenario, svg):
    boxes = "\n".join(
        f'<label style="color:{ink}"><input type="checkbox" value="{name}" checked> {said}</label>'
        for name, (said, ink, _) in FAMILIES.items()
    )
    return PAGE.format(title=html.escape(scenario.title or "a run"), boxes=boxes, svg=svg)


def main():
    words = argparse.ArgumentParser(description=__doc__, formatter_class=argparse.RawDescriptionHelpFormatter)
    words.add_argument("scenario")
    words.add_argument("story")
    words.add_argument("--svg", action="store_true", help="the drawing alone")
    words.add_argument("--everything", action="store_true", help="also messages that tell nothing new")
    words.add_argument("--from", dest="first", type=int, default=1, metavar="T")
    words.add_argument("--to", dest="last", type=int, metavar="T")
    given = words.parse_args()
    scenario = read_scenario(given.scenario)
    drawing = Drawing(scenario, read_story(given.story), given.first, given.last, given.everything)
    print(drawing.svg() if given.svg else page(scenario, drawing.svg()), end="")


if __name__ == "__main__":
    main()
