#!/usr/bin/env python3
"""Writes the cases of crates/nezha_cases, and what it has to print of them by a reference, another program with the same words.

    bench/cases.py REFERENCE             writes crates/nezha_cases/data and crates/nezha_cases/stdout
    bench/cases.py --check [REFERENCE]   compares them with what it would write; without a reference, the data alone

The list of the cases, and what each of its lines asks for, is below. Nothing that is printed is taken from the proved
program: outputs are the reference's; of an end that fails, its output up to there; of runs by several workers, whether they
are as that by one, and how many batches there are, which is the number of actors in each tick that they share.
"""
import hashlib
import itertools
import os
import subprocess
import sys

import hostile

HERE = os.path.dirname(os.path.abspath(__file__))
FOLDER = f"{HERE}/../crates/nezha_cases"
SHORT = 40
KEPT = [0, 7, 10, 13, 16777216]
BUSY = [12, 14, 16, 28]

REFUSALS = [
    ("an empty input", ""),
    ("no number of faults", "nezha 1\nf one\n"),
    ("nine proxies", "nezha 1\nf 1\nproxies 9\n"),
    ("the second client first", "nezha 1\nf 1\nproxies 1\nclients 1\nticks 10\nclient c1\n"),
]

NO_CALLS = """
|gen|gen 7|gen 7 0|gen 7 2001|walk|--help|run run|run --workers|run --workers=|run --workers=0|gen --workers=1|run --workers 0
run --workers 01|trace --workers 17|run --worker 1|runs|scenario|scenario 7|scenario 01 1|scenario 1 0|scenario 1 2001
scenario 1 1 1|scenario 1 --workers=1|check --workers 1|check x|checks|help x|help help|help --workers 1|--help run|pace --workers 1|pace x|story x|story --workers 0
peek|peek r1|peek r1 a b|peek r9 a|peek r10 a|peek r01 a|peek r a|peek R1 a|peek p0 a|peek c0 a|peek a r1|peek  a|peek r1 -a|peek r1 -
peek r1 kkkkkkkkkkkkkkkkkkkkkkkkkkkkkkkkk|peek r1 a\tb|peek r1 ä|peek --workers 3|peek --workers=3 a|peek r1 a --workers 2|peeks r1 a
""".replace("\n", "|").split("|")[1:-1]

# The words that the program has. A reference may have more, and its `help` has them too.
WORDS = "run trace story locks peek pace gen scenario check help".split()

HEAD = "nezha 1\nf 1\nproxies 1\nclients 1\n"
TWO = "nezha 1\nf 1\nproxies 1\nclients 2\nticks 60\n"

# Commands on keys of locks: foul ones, and what is refused before them.
LOCK_USES = {
    "a put on a lock": HEAD + "ticks 40\nclient c0\nput a 1\nput lock.a c0\nend\ndone\n",
    "a lock is removed": HEAD + "ticks 40\nclient c0\ncas lock.a - c0\ndel lock.a\nend\ndone\n",
    "another client's number": HEAD + "ticks 40\nclient c0\ncas lock.a - c1\nend\ndone\n",
    "a number with a zero before it": HEAD + "ticks 40\nclient c0\ncas lock.a - c00\nend\ndone\n",
    "taken and given back at once": HEAD + "ticks 40\nclient c0\ncas lock.a c0 c0\nend\ndone\n",
    "a lock without a name": HEAD + "ticks 40\nclient c0\nget lock.\ncas lock. - c0\nend\ndone\n",
    "both clients, the second one first": TWO + "client c0\nget lock.a\ndel lock.a\nend\nclient c1\ndel lock.a\nend\ndone\n",
    "a bad line after it": HEAD + "ticks 40\nclient c0\ndel lock.a\nend\nput a\ndone\n",
    "a key that is no lock": HEAD + "ticks 40\nclient c0\nput lock c0\nput lockx c0\nget lock.a\nend\ndone\n",
    "one client after the other": TWO
    + "client c0\ncas lock.x - c0\nwait 30\ncas lock.x c0 -\nend\nclient c1\nwait 15\ncas lock.x - c1\nwait 45\ncas lock.x - c1\nend\ndone\n",
    "a lock without a name at the second client": TWO
    + "client c0\ncas lock.x - c0\ncas lock.x c0 -\nend\nclient c1\nget lock.\nend\ndone\n",
    "puts on keys that are nearly locks": TWO + "client c0\nput lock c1\nget lock.x\nend\nclient c1\nput locks.x c0\nend\ndone\n",
    "the second request of the first client": TWO + "client c0\nget a\nput lock.x c0\nend\nclient c1\ndel lock.x\nend\ndone\n",
    "the second client alone": TWO + "client c0\nget a\nend\nclient c1\ndel lock.x\nend\ndone\n",
    "neither taken nor given back": HEAD + "ticks 40\nclient c0\ncas lock.x - -\nend\ndone\n",
    "a lock that stays": TWO + "client c0\ncas lock.a - c0\nend\nclient c1\nwait 30\ncas lock.a - c1\ncas lock.a c1 -\nend\ndone\n",
}

# What a proxy sends in each of several ticks, with fault lines on it; and crashes, restarts and alarms, not in the order of
# their ticks.
STREAM = "nezha 2\nf 1\nproxies 1\nclients 1\nticks 40\nwindow 16\nclient c0\n"
COURSES = {
    "a copy and a held delivery": HEAD + "ticks 40\nclient c0\nput a 1\nend\ntwice p0 r0 timed 1 20\nhold p0 r1 timed 1 5\ndone\n",
    "lines on two courses": STREAM
    + "put a 1\nwait 2\nput a 2\nwait 3\nput a 3\nwait 4\nput a 4\nwait 5\nput a 5\nend\n"
    + "drop p0 r0 timed 2\nhold p0 r1 timed 2 4\nblock p0 * 5 5\ntwice p0 r0 timed 3 2\ndone\n",
    "lines on one parcel": STREAM
    + "put a 1\nwait 2\nput a 2\nwait 3\nput a 3\nwait 4\nput a 4\nend\n"
    + "hold p0 r0 timed 3 2\nblock * r1 4 4\ntwice p0 r0 timed 3 4\ntwice p0 r1 timed 1 4\n"
    + "drop p0 r0 timed 9\nhold p0 r1 timed 1 3\ndone\n",
    "calls in any order": HEAD
    + "ticks 5\nclient c0\nget a\nend\nalarm r0 5\nrestart r1 5\ncrash r2 2\ncrash r1 1\nrestart r2 4\nalarm r2 5\nalarm r0 6\ndone\n",
}

# Texts, and bytes that are none for one line.
ALL_LINES = "send c0 1 put a 1\naccept c0 1 done fast\nsend c0 2 get a\naccept c0 2 value 1 slow\nsend c0 3 cas k - y\nopen c0 3\n"
ALL_LINES += "at 1 c0 1 put a 1 gives done\nat 2 c0 2 get a gives value 1\n"
AT = "at 1 c0 1 get k gives done\n"
NO_TEXTS = [
    "end\n", "", "end\nend\n", "end\n\n", "\nend\n", "end \n", " end\n", "open c4294967295 0\nend\n", "open c4294967296 0\nend\n",
    "open c0 00\nend\n", "open r0 1\nend\n", "open c0  1\nend\n", "open c0 1\n", "accept c0 1 value - fast\nend\n",
    "accept c0 1 value v slow\nsend c7 3 del d\nend\n", "accept c0 1 absent quick\nend\n", "accept c0 1 done fast more\nend\n",
    "send c0 1 cas k - -\nend\n", "send c0 1 put k -\nend\n", "send c0 1 wait 3\nend\n", "open c0 1\nsend c0 1 get k\nend\n",
    "at 1 c0 1 get gives gives differs\nend\n", "at 0 c0 1 get k gives done\nend\n", f"{AT}at 3 c0 1 get k gives done\nend\n", f"{AT}{AT}end\n",
    "at 1 c0 1 get k done\nend\n", f"{AT}open c0 1\nend\n", f"{ALL_LINES}end\n",
]

MANY = ["cut c0 p0 request 1 5", "twice c0 p0 request 1 0", "crash r0 1", "restart r0 1", "crash p0 1", "restart r1 1", "alarm r2 1"]
PUT = "client c0\nput a 1\nend\n"

# All that one tick brings, the fates of parcels, and views and rejoins.
FATES = {
    "one tick": HEAD + "ticks 1\nclient c0\nend\ndone\n",
    "all that one tick brings": HEAD + "ticks 1\n" + PUT + "\n".join(MANY) + "\ndone\n",
    "a copy before the cut": HEAD + "ticks 1\n" + PUT + "\n".join([MANY[1], MANY[0], *MANY[2:]]) + "\ndone\n",
    "held past the last tick": HEAD + "ticks 40\n" + PUT + "hold p0 r0 timed 1 20000\ndone\n",
    "lost before it is repeated": HEAD + "ticks 40\n" + PUT + "drop p0 r0 timed 1\ntwice p0 r0 timed 1 2\ndone\n",
    "blocked before it is held": HEAD + "ticks 40\n" + PUT + "block p0 r0 1 9\nhold p0 r0 timed 1 2\ndone\n",
    "cut twice": HEAD + "ticks 40\n" + PUT + "cut p0 r0 timed 1 9\ncut p0 r0 timed 1 4\ndone\n",
    "cut at its end": HEAD + "ticks 40\n" + PUT + "cut p0 r0 timed 1 16777216\ndone\n",
    "repeated, then held": HEAD + "ticks 40\n" + PUT + "twice p0 r0 timed 1 2\nhold p0 r0 timed 1 2\ndone\n",
    "a clock near its end": HEAD + "ticks 40\nskew p0 4611686018427387904\n" + PUT + "done\n",
    "keys that come late": HEAD + "ticks 120\nskew p0 -20000\nclient c0\nput view view\nput a value\nget a\nend\n"
    "crash r0 10\ncrash r0 12\nrestart r0 20\nrestart r0 21\nalarm r1 50\nalarm r2 70\ndone\n",
}

WRITES = "".join(f"wait {10 * value}\nput a {value}\n" for value in range(1, 15))

# What replicas know to be committed: it falls, or is not known, where they crash.
OBSERVED = {
    "a count falls": HEAD + "ticks 100\n" + PUT + "crash r0 16\nrestart r0 17\nblock r2 r1 38 70\ndone\n",
    "crashes every 20 ticks": HEAD
    + f"ticks 160\nclient c0\n{WRITES}end\n"
    + "".join(f"crash r1 {tick}\nrestart r1 {tick + 2}\n" for tick in range(20, 160, 20))
    + "done\n",
    "a crash and a restart in one tick": HEAD + "ticks 60\n" + PUT + "crash r1 30\nrestart r1 30\ndone\n",
    "a restart and a crash in one tick": HEAD + "ticks 60\n" + PUT + "crash r1 20\nrestart r1 30\ncrash r1 30\nrestart r1 40\ndone\n",
    "nobody comes back": HEAD + "ticks 60\n" + PUT + "crash r0 30\ncrash r1 30\ncrash r2 30\ndone\n",
    "nobody has the log": HEAD
    + "ticks 90\n"
    + PUT
    + "".join(f"crash r{replica} 30\nrestart r{replica} 35\n" for replica in range(3))
    + "done\n",
    "a key that is removed": HEAD + "ticks 90\nclient c0\nput a 1\ndel a\nput b 1\ncas a - 2\nput a 2\nend\ndone\n",
    "many open requests": STREAM + "put a 1\n" * 3 + "put b 1\n" * 3 + "put a 2\n" * 10 + "end\ndone\n",
    "the last of five replicas": "nezha 1\nf 2\nproxies 1\nclients 1\nticks 90\n" + PUT + "alarm r0 30\nalarm r1 50\ndone\n",
    "a scenario that is none": HEAD + "ticks 0\n" + PUT + "done\n",
}

# Files of inputs, replicas and keys.
PEEKS = [("put_then_get", "r1 a"), ("put_then_get", "r8 a"), ("put_then_get", "r3 a"), ("put_then_get", "r0 ="), ("put_then_get", "r0 " + "~" * 32)]
PEEKS += [("scenarios", "r2 a"), ("observed", "r0 a"), ("observed", "r1 a"), ("observed", "r4 a"), ("lock_uses", "r1 lock.a")]

# Runs whose histories are found with the replicas as they are at the end, and without them.
HISTORIES = {
    "a leader crashes after its reply": HEAD + "ticks 60\nclient c0\nput a 1\nend\ncrash r0 40\ndone\n",
    "the first answer arrives after the second": "nezha 1\nf 1\nproxies 1\nclients 2\nticks 40\nclient c0\nput a 1\nend\n"
    "client c1\nput b 2\nend\nhold p0 c0 answer 1 8\ndone\n",
    "the second answer is lost": HEAD + "ticks 60\nclient c0\nput a 1\nwait 30\nput b 2\nend\nblock p0 c0 30 60\ndone\n",
    "the second answer and a follower are lost": HEAD
    + "ticks 60\nclient c0\nput a 1\nwait 30\nput b 2\nend\ncrash r2 20\nblock p0 c0 30 60\ndone\n",
    "a leader leads a later view": HEAD
    + "ticks 90\nclient c0\nput a 1\nend\nalarm r0 30\nalarm r0 45\nalarm r0 60\ndone\n",
}


# Texts that are judged, each in one line: a slash ends a line, and these words stand for lines.
LINES = {
    "PUT": "send c0 1 put a 1",
    "PUT_DONE": "accept c0 1 done fast",
    "GET": "send c0 2 get a",
    "GET_DONE": "accept c0 2 value 1 fast",
    "PUT_AT": "at 1 c0 1 put a 1 gives done",
    "GET_AT": "at 2 c0 2 get a gives value 1",
}
TEXTS = """

end/
 end/
end /
end//
end/end/
open c0 1/end/
PUT/PUT_DONE/GET/GET_DONE/PUT_AT/GET_AT/end/
send c0 1 get a/end/
send c0 1 get a/at 1 c0 1 get a gives absent/end/
send c0 1 get a/at 1 c0 1 get b gives absent/end/
send c0 1 get a/open c0 1/open c0 1/end/
send c0 1 get a/send c1 1 get a/open c1 1/open c0 1/end/
PUT_DONE/PUT/PUT_AT/end/
PUT/PUT/end/
PUT/PUT_DONE/PUT_DONE/end/
PUT/accept c0 1 absent fast/end/
PUT/PUT_DONE/GET/GET_DONE/at 1 c0 2 get a gives value 1/at 2 c0 1 put a 1 gives done/end/
PUT/PUT_DONE/GET/GET_DONE/PUT_AT/at 2 c0 1 put a 1 gives done/end/
PUT/PUT_DONE/GET/GET_DONE/at 2 c0 1 put a 1 gives done/end/
PUT/PUT_DONE/GET/open c0 2/PUT_AT/end/
PUT/PUT_DONE/GET/open c0 2/PUT_AT/GET_AT/end/
PUT/PUT_DONE/GET/GET_DONE/PUT_AT/GET_AT/at 3 c0 2 get a gives value 1/end/
PUT/PUT_DONE/GET/accept c0 2 absent fast/PUT_AT/at 2 c0 2 get a gives absent/end/
send c0 0 get a/open c0 0/end/
send c4294967295 4294967295 get a/open c4294967295 4294967295/end/
send c4294967296 1 get a/end/
send c01 1 get a/end/
send c0 1 get KEY/open c0 1/end/
send c0 1 get KEYk/end/
send c0 1 put a VALUE/open c0 1/end/
send c0 1 put a VALUEv/end/
send c0 1 cas a - -/accept c0 1 done slow/at 1 c0 1 cas a - - gives done/end/
send c0 1 get gives/open c0 1/at 1 c0 1 get gives gives absent/end/
send c0 1 cas a b c/open c0 1/at 1 c0 1 cas a b c gives value v/end/
send c0 1 cas a b c/open c0 1/at 1 c0 1 cas a b c gives value v v/end/
""".split("\n")[1:-1]

# The longest text that is judged, in bytes.
LONGEST = 8388608
LONG_TEXTS = {
    "as many newlines as bytes may be": "\n" * LONGEST,
    "one newline more": "\n" * (LONGEST + 1),
    "one line": "x" * (LONGEST - 1) + "\n",
    "one line of spaces": " " * (LONGEST - 1) + "\n",
    "one line and a byte more": "x" * LONGEST + "\n",
    "two lines, the second one too long": "a" * (LONGEST - 1) + "\nb\n",
}


def said(short):
    """The text that stands in one line."""
    lines = short.split("/")[:-1]
    text = "".join(f"{LINES.get(line, line)}\n" for line in lines)
    return text.replace("KEY", "k" * 32).replace("VALUE", "v" * 256)


def outputs():
    """What the scenarios print."""
    for name, _ in scenarios():
        with open(f"{HERE}/../scenarios/{name}.stdout") as it:
            yield name, it.read()


def scenarios():
    for name in sorted(os.listdir(f"{HERE}/../scenarios")):
        if "." not in name:
            with open(f"{HERE}/../scenarios/{name}") as it:
                yield name, it.read()


def lost():
    """One replica of three, or of five in every other tick."""
    for number, (what, text) in enumerate(hostile.crashes()):
        if what.startswith("f 1") or number % 2:
            yield what, text


def lost_in_turn():
    for a, b, first, second in itertools.product(range(3), range(3), BUSY, BUSY):
        faults = hostile.lost(a, first) + hostile.lost(b, second)
        yield f"r{a} at {first}, r{b} at {second}", hostile.scenario(hostile.PUT_THEN_GET, faults)


def cuts(reference):
    for kind, (sender, receiver) in hostile.first_deliveries(reference).items():
        for kept in KEPT:
            fault = f"cut {sender} {receiver} {kind} 1 {kept}"
            yield fault, hostile.scenario(hostile.BUSY_SCRIPT, [*hostile.BUSY_FAULTS, fault], ticks=120)


def small_limits():
    """Those of the hostile scenarios at a limit that are short."""
    for what, text in hostile.limits():
        if len(packed(text)) < 1500:
            yield what, text


def counts():
    """Ticks, puts, and lines that drop a message that is never sent, at a limit and one past it."""
    table = [(20000, 100, 0), (20001, 0, 0), (20000, 101, 0), (1000, 2000, 0), (1001, 2000, 0), (1, 2000, 0)]
    table += [(1, 2001, 0), (1, 0, 1000), (1, 0, 1001), (1, 200, 1000), (1, 201, 1000), (1, 2000, 100), (1, 2000, 101)]
    for ticks, puts, drops in table:
        text = hostile.scenario(["put a 1"] * puts, ["drop p0 r0 answer 1"] * drops, ticks=ticks)
        yield f"{ticks} ticks, {puts} puts and {drops} drops", text


def long_texts():
    short = hostile.scenario(hostile.PUT_THEN_GET, ticks=40)
    for size in (1048576, 1048577):
        count, rest = divmod(size - len(short), 10)
        comments = "#3456789\n" + "#23456789\n" * (count - 1) + "#" * rest + "\n"
        assert len(comments + short) == size
        yield f"{size} bytes with comments before", comments + short
        yield f"{size} bytes with comments after", short + comments
    yield "1048577 empty lines", "\n" * 1048577


def busy(f, clients, proxies, ticks, faults=()):
    """Each client sends a request in each tick but the last four, so each tick but the first two has 128 items or more."""
    lines = ["nezha 2", f"f {f}", f"proxies {proxies}", f"clients {clients}", f"ticks {ticks}", "window 16"]
    for client in range(clients):
        lines.append(f"client c{client}")
        for tick in range(1, ticks - 3):
            key = "abcdefgh"[(client + tick - 1) % 8]
            commands = [f"put {key} {client}", f"get {key}", f"cas {key} {client} -", f"put {key} {tick - 1}"]
            lines += [*([f"wait {tick}"] if tick > 1 else []), commands[(client * 3 + tick - 1) % 4]]
        lines.append("end")
    return "\n".join([*lines, *faults, "done"]) + "\n"


BUSY_RUNS = {
    "32_actors": busy(1, 28, 1, 30),
    "31_actors": busy(2, 24, 2, 30, ["drop p0 r2 timed 3", "hold p0 r1 timed 5 4", "twice p1 r0 timed 2 3", "drop p1 r4 timed 7"]),
}
ACTORS = {name: int(name.split("_")[0]) for name in BUSY_RUNS}
# The ticks that workers share in these runs: the third one and those after it, of 30.
SHARED = 28


def files(reference):
    """The cases of each file, by their names."""
    own = dict(scenarios())
    yield "scenarios", own
    yield "put_then_get", {"put_then_get": own["put_then_get"]}
    yield "leader_cut_off", {"leader_cut_off": own["leader_cut_off"]}
    yield "stray_view_change", {"stray_view_change": own["stray_view_change"]}
    yield "outputs", dict(outputs())
    yield "texts", {**{f"text {short}": said(short) for short in TEXTS}, **{f"bytes {number}": text for number, text in enumerate(NO_TEXTS)}}
    yield "long_texts", LONG_TEXTS
    yield "two_texts", {"a right text": said("PUT/PUT_DONE/PUT_AT/end/"), "a wrong text": said("PUT/PUT_DONE/GET/GET_DONE/GET_AT/end/")}
    yield "not_read", {"not read": "not read\n"}
    yield "refusals", dict(REFUSALS)
    yield "lock_uses", LOCK_USES
    yield "courses", COURSES
    yield "fates", FATES
    yield "observed", OBSERVED
    yield "lost", dict(lost())
    yield "lost_together", {what: text for what, text in hostile.together() if what.startswith("f 1")}
    yield "lost_in_turn", dict(lost_in_turn())
    yield "cuts", dict(cuts(reference)) if reference else None
    yield "limits", {**dict(small_limits()), **dict(counts()), **dict(long_texts())}
    used = ["put_then_get", "replica_rejoins", "alarm", "leader_lost", "leader_cut_off", "leader_rejoins"]
    yield "histories", {**HISTORIES, **{name: own[name] for name in used}}
    for name, text in BUSY_RUNS.items():
        yield name, {name: text}


def listed():
    """The lines of the list."""
    lines = ["# The kind of each case, the file with its inputs, and its words.", "call scenarios run", "call scenarios trace"]
    lines += ["lines stray_view_change 61 r1 deliver view-change", "call refusals run"]
    lines += [f"call put_then_get {words}".rstrip() for words in NO_CALLS]
    lines += ["call not_read gen 7 1", "call not_read gen 7 2000", "call not_read gen 7 2000"]
    lines += ["call not_read help", "call not_read scenario 7 1", "call not_read scenario 9999999999999999999 2000"]
    lines += ["prefixes leader_cut_off run", "reads put_then_get run", "writes put_then_get run", "rooms put_then_get run"]
    lines += ["call lost trace", "call lost_together trace", "call lost_in_turn trace", "call cuts trace", "call limits run"]
    lines += [f"call {file} check" for file in ("put_then_get", "outputs", "texts", "long_texts")]
    lines += [f"{kind} two_texts check" for kind in ("prefixes", "reads", "writes", "rooms")]
    lines += ["histories histories", "call scenarios locks", "call lock_uses locks", "call put_then_get locks --workers 0", "call put_then_get locks x"]
    lines += ["call courses trace", "call scenarios pace", "call fates trace", "call scenarios story", "call fates story"]
    lines += [f"call {file} peek {words}" for file, words in PEEKS]
    lines += ["forms texts", "collisions put_then_get"]
    for name in BUSY_RUNS:
        first = ACTORS[name] * (SHARED - 1) + 1
        lines += [f"call {name} run", f"call {name} trace", f"shared {name} {first}", f"replicas {name}"]
    return lines


def packed(text):
    """The text, in which =COUNT LINE stands for lines that are the same, and +COUNT BYTE for a long line of one byte."""
    lines = []
    for line, group in itertools.groupby(text.split("\n")[:-1]):
        count = len(list(group))
        if len(line) > 1000 and line == line[0] * len(line):
            line = f"+{len(line)} {line[0]}"
        lines += [line] * count if count < 3 else [f"={count} {line}"]
    return "".join(f"{line}\n" for line in lines)


def text_of(cases):
    return "".join(f"== {name}\n{packed(text)}" for name, text in cases.items())


def is_short(output):
    return output[-1:] in (b"", b"\n") and output.count(b"\n") <= SHORT


def shown(what, status, output):
    head = f"{what}: status {status}\n".encode()
    if is_short(output):
        return head + output
    accepts = sum(line.startswith(b"accept ") for line in output.split(b"\n"))
    sha1 = hashlib.sha1(output).hexdigest()
    return head + f"{len(output)} bytes, {output.count(10)} lines, {accepts} accepted, sha1 {sha1}\n".encode()


class Printer:
    """What the program has to print, by a reference."""

    def __init__(self, reference):
        self.reference = reference

    def ended(self, words, text):
        ended = subprocess.run([self.reference, *words], input=text.encode(), stdout=subprocess.PIPE, check=False)
        if words == ["help"]:
            return ended.returncode, b"".join(line for line in ended.stdout.splitlines(True) if line.decode().split()[1] in WORDS)
        return ended.returncode, ended.stdout

    def call(self, name, text, words):
        yield shown(f"{name}, {' '.join(words)}", *self.ended(words, text))

    def lines(self, name, text, words):
        start = " ".join(words).encode()
        yield f"{name}, {' '.join(words)}\n".encode()
        for line in self.ended(["trace"], text)[1].split(b"\n"):
            if line.startswith(start):
                yield line + b"\n"

    def prefixes(self, name, text, words):
        for kept in range(len(text)):
            yield shown(f"{name}, the first {kept} bytes", *self.ended(words, text[:kept]))

    def reads(self, name, text, words):
        for given in range(len(text) + 1):
            yield shown(f"{name}, a fault after {given} bytes are read", 3, b"")

    def writes(self, name, text, words):
        whole, output = self.ended(words, text)
        for calls in range(len(output) + 2):
            status = whole or 4 if calls <= len(output) else whole
            yield shown(f"{name}, a fault after {calls} calls of the sink", status, output[:calls])

    def rooms(self, name, text, words):
        whole, output = self.ended(words, text)
        for room in range(len(output)):
            yield shown(f"{name}, a room of {room} bytes", whole or 4, output[:room])

    def shared(self, name, text, words):
        batches = ACTORS[name] * SHARED
        for workers in (2, 4, 16):
            yield f"{name}, trace by {workers} workers: status 0, as by one, {batches} batches, 0 missed\n".encode()

    def replicas(self, name, text, words):
        count = 2 * int(text.split("\n")[1].split()[1]) + 1
        yield f"{name}, replicas that runs by 2, 4 and 16 workers give: {count}, {count}, {count}\n".encode()

    def collisions(self, name, text, words):
        """Where nothing is lost, each fast reply arrives."""
        count = sum(b" deliver fast-reply " in line for line in self.ended(["trace"], text)[1].split(b"\n"))
        yield f"{name}: {count} lists of keys were replied over, 0 collide\n".encode()

    def forms(self, name, text, words):
        """A text that says no history has another reason than its form."""
        line, _, reason = self.ended(["check"], text)[1].partition(b": ")
        yield f"{name}: {line[3:].decode() if reason == b'form' + bytes([10]) else 'a text'}\n".encode()

    def histories(self, name, text, words):
        count = sum(line.startswith(b"at ") for line in self.ended(["run"], text)[1].split(b"\n"))
        yield f"{name}: {count} entries by the replicas, {count} without\n".encode()


def printed(reference, contents):
    printer = Printer(reference)
    for line in listed()[1:]:
        kind, file, *words = line.split(" ")
        for name, text in contents[file].items():
            yield from getattr(printer, kind)(name, text, words)


def main():
    check = sys.argv[1:2] == ["--check"]
    reference = os.path.abspath(sys.argv[1 + check]) if len(sys.argv) > 1 + check else None
    if not check and not reference:
        sys.exit(__doc__)
    contents = {name: cases for name, cases in files(reference) if cases is not None}
    wanted = {f"data/{name}": text_of(cases).encode() for name, cases in contents.items()}
    wanted["data/list"] = "".join(f"{line}\n" for line in listed()).encode()
    if reference:
        wanted["stdout"] = b"".join(printed(reference, contents))
    wrong = []
    for name, data in wanted.items():
        path = f"{FOLDER}/{name}"
        if check:
            with open(path, "rb") as it:
                wrong += [name] * (it.read() != data)
            continue
        os.makedirs(os.path.dirname(path), exist_ok=True)
        with open(path, "wb") as it:
            it.write(data)
    print(f"{len(wanted)} files, {sum(map(len, contents.values()))} cases" + "".join(f"\nnot as it has to be: {it}" for it in wrong))
    sys.exit(bool(wrong))


if __name__ == "__main__":
    main()
