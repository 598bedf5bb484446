"""What the tools share: readers of scenarios, of stories and of the text of a run, and how the program is called.

docs/FORMATS.md has the formats. What is read here was accepted or printed by the program, so nothing is checked again.
"""

import os
import shutil
import subprocess
import sys
from collections import deque
from dataclasses import dataclass, field, replace

ROOT = os.path.dirname(os.path.dirname(os.path.abspath(__file__)))

# Each kind of message: the sorts of its sender and receiver, and the fields that a story shows of it, in their order.
MESSAGES = {
    "request": ("cp", "num command"),
    "timed": ("pr", "sent deadline id"),
    "fast-reply": ("rp", "view id digest vector delay answer"),
    "slow-reply": ("rp", "view id delay"),
    "answer": ("pc", "num answer path"),
    "log-mod": ("rr", "view vector commit start keys"),
    "fetch": ("rr", "view ids"),
    "fetch-reply": ("rr", "view entries"),
    "sync-report": ("rr", "view synced"),
    "view-ask": ("rr", "view"),
    "view-change": ("rr", "view last vector synced commit entries"),
    "start-view": ("rr", "view vector commit entries"),
    "vector-ask": ("rr", "nonce"),
    "vector-tell": ("rr", "nonce vector"),
    "rejoin-ask": ("rr", "nonce vector"),
    "rejoin-tell": ("rr", "nonce view vector"),
    "state-ask": ("rr", "nonce view vector"),
    "state-tell": ("rr", "nonce view vector commit entries"),
}
KINDS = list(MESSAGES)
HEAD = ("nezha", "f", "proxies", "clients", "ticks", "window")
COMMANDS = {"put": 2, "get": 1, "del": 1, "cas": 3}  # each with how many words follow
ABOUT_PARCELS = ("drop", "hold", "twice", "cut", "block")
ABOUT_ACTORS = ("crash", "restart", "alarm")
FAULTS = ABOUT_PARCELS + ABOUT_ACTORS


# Scenarios


class Scenario:
    """A scenario by its parts. A script is a client's list of pairs: the tick of a wait or None, and a command's words.
    Before a fault line there may be a remark, which is kept for it."""

    def __init__(self, text):
        lines = [line.strip() for line in text.split("\n")]
        self.title = next((line[1:].strip() for line in lines if line.startswith("#")), "")
        self.head, self.skews, self.scripts, self.faults, self.remarks = {}, [], [], [], []
        wait = remark = None
        for line in lines:
            words = line.split()
            if not words or line.startswith("#"):
                remark = line[1:].strip()
                continue
            if words[0] in HEAD:
                self.head[words[0]] = int(words[1])
            elif words[0] == "skew":
                self.skews.append(words)
            elif words[0] == "client":
                self.scripts.append([])
                wait = None
            elif words[0] == "wait":
                wait = int(words[1])
            elif words[0] in COMMANDS:
                self.scripts[-1].append((wait, words))
                wait = None
            elif words[0] in FAULTS:
                self.faults.append(words)
                self.remarks.append(remark)
            remark = None

    @property
    def f(self):
        return self.head["f"]

    @property
    def ticks(self):
        return self.head["ticks"]

    @property
    def replicas(self):
        return [f"r{k}" for k in range(2 * self.f + 1)]

    @property
    def proxies(self):
        return [f"p{k}" for k in range(self.head["proxies"])]

    @property
    def clients(self):
        return [f"c{k}" for k in range(self.head["clients"])]

    def leader(self, view):
        return self.replicas[view % len(self.replicas)]

    def commands(self):
        """The command of each request, by its id as `c0/1`."""
        return {
            f"c{client}/{number}": " ".join(words)
            for client, script in enumerate(self.scripts)
            for number, (_, words) in enumerate(script, 1)
        }

    def text(self):
        lines = [f"{word} {self.head[word]}" for word in HEAD if word in self.head]
        lines += [" ".join(words) for words in self.skews]
        for client, script in enumerate(self.scripts):
            lines.append(f"client c{client}")
            for wait, words in script:
                lines += [f"wait {wait}"] * (wait is not None) + [" ".join(words)]
            lines.append("end")
        return "\n".join([*lines, *(" ".join(words) for words in self.faults), "done", ""])


def opened(path):
    """The file for reading; - is standard input."""
    return open(0 if path == "-" else path)


def read_scenario(path):
    with opened(path) as source:
        return Scenario(source.read())


def example(name):
    """The path of a scenario of the folder scenarios."""
    return os.path.join(ROOT, "scenarios", name)


def stored_output(name):
    with open(example(f"{name}.stdout")) as output:
        return output.read()


def examples():
    """The names of the scenarios in the folder scenarios that are played or refused, with the command's first word for each."""
    found = {}
    for name in sorted(os.listdir(os.path.join(ROOT, "scenarios"))):
        if not os.path.exists(example(f"{name}.args")):
            continue
        with open(example(f"{name}.args")) as args:
            word = args.read().split()[0]
        if word in ("run", "trace", "story", "locks", "peek", "pace"):
            found[name] = word
    return found


def played():
    """Those that are played."""
    return {name: word for name, word in examples().items() if not stored_output(name).startswith("refused")}


# The text of a run


@dataclass
class Event:
    """A line of the text: `send`, `accept`, `open` or `at`, with the fields that it has."""

    word: str
    id: str
    command: str = ""
    answer: str = ""
    path: str = ""


def event_of(line):
    word, *words = line.split(" ")
    if word == "at":
        gives = 4 + COMMANDS[words[3]]
        return Event(word, "/".join(words[1:3]), " ".join(words[3:gives]), " ".join(words[gives + 1 :]))
    name, rest = "/".join(words[:2]), words[2:]
    if word == "accept":
        return Event(word, name, answer=" ".join(rest[:-1]), path=rest[-1])
    return Event(word, name, " ".join(rest))


def read_text(lines):
    """The events of a text. What a trace or a story has before its line `text` is passed over."""
    lines = [line.rstrip("\n") for line in lines]
    if "text" in lines:
        lines = lines[lines.index("text") + 1 :]
    return [event_of(line) for line in lines if line != "end"]


# Stories


@dataclass(frozen=True)
class State:
    """What a story shows of a replica. Lists hold keys, as (deadline, id), in rising order."""

    mode: str = "normal"
    phase: str = ""
    view: int = 0
    vector: tuple = ()
    synced: int = 0
    commit: int = 0
    log: tuple = ()
    early: tuple = ()
    late: tuple = ()
    text: str = "normal view 0"

    def ids(self, name):
        return [key[1] for key in getattr(self, name)]


@dataclass
class Parcel:
    """A message on its way: its ends, and its fates, which are the ticks in which it arrives, with the bytes kept of a
    cut one. `arrivals` are the records of these."""

    number: int
    kind: str
    sender: str
    to: str
    tick: int
    place: int  # of the record that sends it
    fates: list
    text: str
    fields: dict
    arrivals: list = field(default_factory=list)

    @property
    def id(self):
        """The request that it is about, if it is about one."""
        if "num" in self.fields:
            return f"{self.sender if self.kind == 'request' else self.to}/{self.fields['num']}"
        return self.fields.get("id")

    def came_whole(self):
        return any(record.what == "deliver" for record in self.arrivals)


@dataclass
class Record:
    """A step of an actor: what came, what clients saw, the replica before and (where that changed) after, what was sent."""

    place: int
    tick: int
    actor: str
    what: str
    line: str
    parcel: Parcel = None
    kept: int = None
    before: State = State()
    after: State = None
    events: list = field(default_factory=list)
    sends: list = field(default_factory=list)

    @property
    def kind(self):
        return self.parcel.kind if self.parcel else None

    def is_stray(self):
        """Whether the replica knows a greater counter of the sender than the message has."""
        vector = self.parcel and self.parcel.fields.get("vector")
        if self.what != "deliver" or self.actor[0] != "r" or not vector or self.before.mode == "down" or not self.before.vector:
            return False
        sender = int(self.parcel.sender[1:])
        return vector_of(vector)[sender] < self.before.vector[sender]

    def decides(self):
        """The answers that a proxy sends because of a reply: here it decided."""
        return [p for p in self.sends if p.kind == "answer" and self.kind in ("fast-reply", "slow-reply")]


def fields_of(kind, words):
    """The fields of a message by name. A command, ids and keys take all words that are left, an answer one or two."""
    found, at = {}, 0
    for name in MESSAGES[kind][1].split():
        if words[at : at + 1] != [name]:
            continue
        size = len(words) if name in ("command", "keys", "ids") else 2 if words[at + 1] == "value" else 1
        found[name] = " ".join(words[at + 1 : at + 1 + size])
        at += 1 + size
    return found


def fates_of(words):
    """`lost` is no fate; each `at TICK` is one, and `cut KEPT` follows the one that is cut."""
    fates = []
    for name, value in zip(words[::2], words[1::2]):
        if name == "at":
            fates.append((int(value), None))
        else:
            fates[-1] = (fates[-1][0], int(value))
    return fates


def vector_of(word):
    return tuple(map(int, word.split(",")))


def key_of(word):
    deadline, _, name = word.partition("/")
    return int(deadline), name


def key_order(key):
    client, number = key[1][1:].split("/")
    return key[0], int(client), int(number)


def inserted(keys, key):
    """The keys with one more, in rising order; most often it is the last."""
    place = len(keys)
    while place and key_order(keys[place - 1]) > key_order(key):
        place -= 1
    return (*keys[:place], key, *keys[place:])


def state_of(text, before):
    """The state after a line `now`. It names the keys that came to a list; a key that comes leaves where its id was."""
    words = deque(text.split())
    mode = words.popleft()
    lists = {name: () if mode in ("down", "rejoining") else getattr(before, name) for name in ("log", "early", "late")}
    fields = {"phase": words.popleft() if mode == "rejoining" else ""}
    while words:
        name = words.popleft()
        if name not in lists:
            value = words.popleft()
            fields[name] = vector_of(value) if name == "vector" else int(value)
            continue
        while words and words[0].startswith("+"):
            key = key_of(words.popleft()[1:])
            lists = {other: tuple(k for k in keys if k[1] != key[1]) for other, keys in lists.items()}
            lists[name] = inserted(lists[name], key)
    fields.pop("collected", None)
    return replace(State() if mode == "down" else before, mode=mode, text=text, **fields, **lists)


class Story:
    """The records of a story, its parcels, and the events of its text."""

    def __init__(self, lines):
        lines = iter(lines)
        self.records, self.parcels = [], []
        self.states, self.under_way = {}, {}
        for line in lines:
            line = line.rstrip("\n")
            if line == "text":
                break
            if not line.startswith(" "):
                self.begin(line)
                continue
            word, _, rest = line.strip().partition(" ")
            if word == "sends":
                self.send(rest)
            elif word == "now":
                now = self.records[-1]
                now.after = self.states[now.actor] = state_of(rest, now.before)
            else:
                self.records[-1].events.append(event_of(line.strip()))
        self.text = read_text(lines)

    def begin(self, line):
        tick, actor, what, *words = line.split()
        now = Record(len(self.records), int(tick), actor, what, line, before=self.states.get(actor, State()))
        if what in ("deliver", "cut"):
            now.kept = int(words[2]) if what == "cut" else None
            # What tick, ends, kind and kept bytes do not distinguish arrives in the order of sending.
            now.parcel = self.under_way[now.tick, words[1], actor, words[0], now.kept].popleft()
            now.parcel.arrivals.append(now)
        self.records.append(now)

    def send(self, line):
        now = self.records[-1]
        head, _, text = line.partition(": ")
        kind, to, *fate = head.split()
        fields = fields_of(kind, text.split())
        parcel = Parcel(len(self.parcels), kind, now.actor, to, now.tick, now.place, fates_of(fate), text, fields)
        self.parcels.append(parcel)
        now.sends.append(parcel)
        for tick, kept in parcel.fates:
            self.under_way.setdefault((tick, now.actor, to, kind, kept), deque()).append(parcel)


def read_story(path):
    with opened(path) as source:
        return Story(source)


# The program


def program(path=None):
    """The program to call: the path given, else the one built here, else the one on the path of commands."""
    built = os.path.join(ROOT, "crates", "nezha", "out", "nezha")
    found = path or (built if os.path.exists(built) else shutil.which("nezha"))
    if not found or not shutil.which(found):
        sys.exit("no program: build crates/nezha/out/nezha with `rt run`, or give its path by --program")
    return found


def call(path, words, text=b""):
    """What the program prints, and its status."""
    ran = subprocess.run([path, *words], input=text.encode() if isinstance(text, str) else text, stdout=subprocess.PIPE)
    return ran.stdout.decode(), ran.returncode
