#!/usr/bin/env python3
"""Writes what happens to single actors, and what comes of it: the stored run of crates/nz_steps.

    bench/steps.py           writes crates/nz_steps/stdin and crates/nz_steps/stdout
    bench/steps.py --check   compares them with what it would write

What actors send, and how they then are, was worked out by hand from docs/MACHINE.md; messages.py spells it as frames.
Nothing is taken from the proved program. A line `# ..` names what follows it, and is printed again.
"""
import os
import sys

from messages import ABSENT, CLIENT, DONE, GET, PROXY, PUT, VALUE_1, answer, digest, fast_reply, fetch, fetch_reply, frame, log_mod
from messages import rejoin_ask, rejoin_tell, request, slow_reply, start_view, state_ask, state_tell, sync_report, timed, vector_ask
from messages import vector_tell, view_ask, view_change

FOLDER = f"{os.path.dirname(os.path.abspath(__file__))}/../crates/nz_steps"

lines, printed = [], []


# ---- lines


def title(text):
    lines.append(f"# {text}")
    printed.append(f"# {text}")


def cluster(f, text):
    title(text)
    lines.append(f"cluster {f}")


def happens(who, what, sends=()):
    """At this event the actor sends these messages: sender, receiver, message."""
    lines.append(f"{who} {what}")
    printed.extend(f"{sender} {receiver} {frame(sender, receiver, message).hex()}" for sender, receiver, message in sends)


def heard(sender, receiver, message, parcel=None, lost=0):
    """A delivery; the parcel's sender and receiver where they are not those of the frame, and how many bytes are lost."""
    data = frame(sender, receiver, message)
    return "hear {} {} {}".format(*(parcel or (sender, receiver)), data[: max(0, len(data) - lost)].hex())


def shown(replica, mode, log=(), view=0, wanted=0, synced=0, commit=0, early=0, late=0):
    lines.append(f"replica {replica} show")
    keys = "".join(f" {deadline}/{client}/{num}" for deadline, client, num in log)
    counts = f"synced {synced}, commit {commit}, early {early}, late {late}"
    printed.append(f"{mode}, view {view}, wanted {wanted}, {counts}, log{keys}")


def others(me, count, message):
    return [(me, other, message) for other in range(count) if other != me]


# ---- requests and releases at a replica


class Requests:
    """A replica of three that takes requests of clients through proxy 0; client 0 puts, the others get."""

    def __init__(self, text, me):
        cluster(1, text)
        self.me, self.who = me, f"replica {me}"

    def ask(self, client, num, sent, deadline, sends=()):
        text = GET if client else PUT
        happens(self.who, heard(PROXY, self.me, timed(sent, (deadline, client, num), text)), sends)

    def reply(self, places, delay, given=None):
        """The fast reply to the last of these places of the log."""
        return self.me, PROXY, fast_reply(places[-1][1:], digest(places), delay, given)

    def tick(self, clock, log=(), replies=()):
        """The leader sends the others its log."""
        to_others = others(self.me, 3, log_mod(0, 0, log)) if self.me == 0 else []
        happens(self.who, f"tick {clock}", [*replies, *to_others])

    def ends(self, log, early, late):
        shown(self.me, "normal", log, synced=0 if self.me else len(log), early=early, late=late)


def late_requests():
    first, second = (12500, 0, 1), (12501, 1, 1)
    assert digest([first]).hex() == "67a78bbee5eb7bbd613220a92e03218955332dee"
    assert digest([first, second]).hex() == "00210bebcc73ec5c308b11345cc05f7c41ee3b2f"
    r = Requests("the leader stamps a late request anew", 0)
    r.tick(12000)
    r.ask(0, 1, 11900, 12500)
    r.tick(13000, [first], [r.reply([first], 100, DONE)])
    r.ask(1, 1, 10900, 11500)
    r.tick(14000, [first, second], [r.reply([first, second], 2100, VALUE_1)])
    r.ends([first, second], 0, 0)
    r = Requests("a follower holds a late request", 1)
    r.tick(12000)
    r.ask(0, 1, 11900, 12500)
    r.tick(13000, [], [r.reply([first], 100)])
    r.ask(1, 1, 10900, 11500)
    r.tick(14000)
    r.ends([first], 0, 1)


def placed_requests():
    first, other = (100, 0, 1), (100, 1, 1)
    r = Requests("not released before its deadline", 0)
    r.ask(0, 1, 0, 100)
    r.tick(99)
    r.ends([], 1, 0)
    r.tick(100, [first], [r.reply([first], 0, DONE)])
    r.ends([first], 0, 0)
    r.ask(0, 1, 0, 900, [r.reply([first], 100, DONE)])
    r.ends([first], 0, 0)
    r = Requests("a retry at a follower", 1)
    r.ask(0, 1, 0, 100)
    r.tick(100, [], [r.reply([first], 0)])
    r.ask(0, 1, 0, 900, [r.reply([first], 100)])
    r.ends([first], 0, 0)
    r = Requests("one request with two deadlines, the first of which counts", 0)
    r.ask(0, 1, 0, 100)
    r.ask(0, 1, 0, 50)
    r.ends([], 1, 0)
    r = Requests("two requests with one deadline", 0)
    r.ask(1, 1, 0, 100)
    r.ask(0, 1, 0, 100)
    both = [first, other]
    r.tick(100, both, [r.reply([first], 0, DONE), r.reply(both, 0, VALUE_1)])
    r.ends(both, 0, 0)
    r = Requests("a late one at the leader, also as its clock goes back", 0)
    r.ask(0, 1, 0, 100)
    r.tick(200, [first], [r.reply([first], 0, DONE)])
    r.ask(1, 1, 0, 50)
    r.tick(100, [first])
    r.ends([first], 1, 0)
    for text, deadlines, early, late in (
        ("a late one at a follower", [50], 0, 1),
        ("a late one twice", [50, 60], 0, 1),
        ("a late one that comes again in time", [50, 200], 1, 0),
    ):
        r = Requests(text, 1)
        r.ask(0, 1, 0, 100)
        r.tick(100, [], [r.reply([first], 0)])
        for deadline in deadlines:
            r.ask(1, 1, 0, deadline)
        r.ends([first], early, late)
    r = Requests("a lower client at the deadline of the last entry", 1)
    r.ask(1, 1, 0, 100)
    r.tick(100, [], [r.reply([other], 0)])
    r.ask(0, 1, 0, 100)
    r.ends([other], 0, 1)
    r = Requests("the last deadline and the last clock", 0)
    r.ask(0, 1, 0, 2**63 - 1)
    r.tick(2**64 - 1)
    r.ends([], 1, 0)


# ---- logs that agree: requests of client 0, reads of one of 16 keys


def read(num):
    return b"\2\1" + bytes([97 + num % 16])


def place(deadline, num):
    return deadline, 0, num


def entry(deadline, num):
    return place(deadline, num), read(num)


def asked(replica, num, deadline):
    return heard(PROXY, replica, timed(0, place(deadline, num), read(num)))


def slow(replica, num, delay):
    return replica, PROXY, slow_reply((0, num), delay)


def report(replica, synced):
    return replica, 0, sync_report(synced)


def fetching():
    """Replica 1 does not get the timed message."""
    cluster(1, "three replicas of which one fetches")
    log = [place(100, 1)]
    mods = [(0, 1, log_mod(0, 0, log)), (0, 2, log_mod(0, 0, log))]
    wanted = 1, 0, fetch([(0, 1)])
    found = 0, 1, fetch_reply([entry(100, 1)])
    happens("replica 0", asked(0, 1, 100))
    happens("replica 2", asked(2, 1, 100))
    happens("replica 0", "tick 150", [(0, PROXY, fast_reply((0, 1), digest(log), 0, ABSENT)), *mods])
    happens("replica 1", "tick 150")
    happens("replica 2", "tick 150", [(2, PROXY, fast_reply((0, 1), digest(log), 0))])
    happens("replica 1", heard(*mods[0]), [wanted, report(1, 0)])
    happens("replica 2", heard(*mods[1]), [slow(2, 1, 0), report(2, 1)])
    happens("replica 0", heard(*wanted), [found])
    happens("replica 0", heard(*report(1, 0)))
    happens("replica 1", heard(*found))
    shown(1, "normal", late=1)
    happens("replica 0", "tick 250", mods)
    # No slow reply, since the origin is not known.
    happens("replica 1", heard(*mods[0]), [report(1, 1)])
    happens("replica 0", heard(*report(1, 1)))
    happens("replica 1", asked(1, 1, 100), [slow(1, 1, 150)])
    mods = [(0, 1, log_mod(1, 1, [])), (0, 2, log_mod(0, 1, log))]
    happens("replica 0", "tick 350", mods)
    happens("replica 1", heard(*mods[0]), [report(1, 1)])
    for replica, commit in ((0, 1), (1, 1), (2, 0)):
        shown(replica, "normal", log, synced=1, commit=commit)


def logged():
    happens("replica 1", asked(1, 1, 50))
    happens("replica 1", asked(1, 2, 60))
    first, both = [place(50, 1)], [place(50, 1), place(60, 2)]
    replies = [(1, PROXY, fast_reply((0, 1), digest(first), 0)), (1, PROXY, fast_reply((0, 2), digest(both), 0))]
    happens("replica 1", "tick 100", replies)


def synced():
    logged()
    happens("replica 1", heard(0, 1, log_mod(0, 0, [place(50, 1)])), [slow(1, 1, 0), report(1, 1)])


def early():
    for num, deadline in ((1, 150), (2, 140), (3, 160)):
        happens("replica 1", asked(1, num, deadline))


def first_logged():
    happens("replica 1", asked(1, 1, 50))
    happens("replica 1", "tick 100", [(1, PROXY, fast_reply((0, 1), digest([place(50, 1)]), 0))])


def late():
    first_logged()
    happens("replica 1", asked(1, 2, 40))


def fetched():
    first_logged()
    happens("replica 1", heard(0, 1, fetch_reply([entry(50, 1), entry(60, 2)])))


# What replica 1 had before, the start, the commit and the keys of a log modification; its log then, how many entries
# are synced, committed, early and late; the slow replies, the ids that it fetches, and what it reports.
LOG_MODS = [
    ("it starts above the synced ones", logged, 1, 1, [(60, 2)], [(50, 1), (60, 2)], (0, 0, 0, 0), [], [], 0),
    ("a first key not above the last synced one", synced, 1, 0, [(50, 0), (60, 2)], [(50, 1), (60, 2)], (1, 0, 0, 0), [], [], 1),
    ("a first id that is synced", synced, 1, 0, [(55, 1), (60, 2)], [(50, 1), (60, 2)], (1, 0, 0, 0), [], [], 1),
    ("found beyond", logged, 0, 1, [(50, 1), (60, 2)], [(50, 1), (60, 2)], (2, 1, 0, 0), [(1, 0), (2, 0)], [], 2),
    ("it starts below the synced ones", synced, 0, 9, [(50, 1), (60, 2)], [(50, 1), (60, 2)], (2, 2, 0, 0), [(2, 0)], [], 2),
    ("it ends below them", synced, 0, 1, [], [(50, 1), (60, 2)], (1, 1, 0, 0), [], [], 1),
    ("the first entry goes to late", logged, 0, 0, [(60, 2)], [(60, 2)], (1, 0, 0, 1), [(2, 0)], [], 1),
    ("and is found there with its new key", logged, 0, 0, [(60, 2), (61, 1)], [(60, 2), (61, 1)], (2, 0, 0, 0), [(2, 0), (1, 0)], [], 2),
    ("found beyond with a lower key", logged, 0, 0, [(40, 2)], [(40, 2), (50, 1)], (1, 0, 0, 0), [(2, 0)], [], 1),
    ("found in early, before another there", early, 0, 0, [(150, 1)], [(150, 1)], (1, 0, 1, 1), [(1, 0)], [], 1),
    ("found in late", late, 0, 0, [(40, 2), (50, 1)], [(40, 2), (50, 1)], (2, 0, 0, 0), [(2, 100), (1, 0)], [], 2),
    ("found in late, of no known origin", fetched, 0, 0, [(45, 2)], [(45, 2), (50, 1)], (1, 0, 0, 0), [], [], 1),
    ("two are missing", logged, 0, 4, [(50, 1), (55, 3), (60, 2), (70, 5)], [(50, 1), (60, 2)], (1, 1, 0, 0), [(1, 0)], [3, 5], 1),
]


def log_mods():
    for text, before, start, commit, keys, log, counts, replies, missing, reported in LOG_MODS:
        cluster(1, f"a log modification: {text}")
        before()
        wanted = [(1, 0, fetch([(0, num) for num in missing]))] if missing else []
        sends = [*(slow(1, *it) for it in replies), *wanted, report(1, reported)]
        happens("replica 1", heard(0, 1, log_mod(start, commit, [place(*it) for it in keys])), sends)
        shown(1, "normal", [place(*it) for it in log], 0, 0, *counts)


def many_keys():
    cluster(1, "a follower takes 64 keys at once")
    nums = range(64)
    happens("replica 1", heard(0, 1, fetch_reply([entry(num, num) for num in nums])))
    keys = [place(num, num) for num in nums]
    happens("replica 1", heard(0, 1, log_mod(0, 0, keys)), [report(1, 64)])
    shown(1, "normal", keys, synced=64)
    cluster(1, "a leader tells 64 keys")
    for num in range(70):
        happens("replica 0", asked(0, num, num))
    keys = [place(num, num) for num in range(70)]
    replies = [(0, PROXY, fast_reply((0, num), digest(keys[: num + 1]), 0, ABSENT)) for num in range(70)]
    happens("replica 0", "tick 100", [*replies, *others(0, 3, log_mod(0, 0, keys[:64]))])
    happens("replica 0", heard(*report(2, 64)))
    happens("replica 0", "tick 200", [(0, 1, log_mod(0, 64, keys[:64])), (0, 2, log_mod(64, 64, keys[64:]))])


# ---- parcels that do not count

TIMED = timed(0, place(100, 1), read(1))
EMPTY = log_mod(0, 0, [])
FIVE = log_mod(0, 0, [], (0, 0, 0, 0, 0))
FETCH = fetch([(0, 1)])
FETCHED = fetch_reply([entry(100, 1)])
ENTERS_3 = [(1, 0, view_ask(3)), (1, 2, view_ask(3)), (1, 0, view_change(3, 0, (0, 0, 0), 0, []))]

# A replica, sender and receiver of a parcel, those of its frame, how many bytes of this are lost, and what it is; what is
# sent, and how many entries are early and late.
PARCELS = [
    (1, (PROXY, 1), None, 0, TIMED, [], 1, 0),
    (1, (0, 1), None, 0, TIMED, [], 0, 0),
    (1, (CLIENT, 1), None, 0, TIMED, [], 0, 0),
    (1, (PROXY, 1), None, 1, TIMED, [], 0, 0),
    (1, (0, 1), None, 0, EMPTY, [report(1, 0)], 0, 0),
    (1, (0, 1), None, 1, EMPTY, [], 0, 0),
    (1, (0, 1), None, 99, EMPTY, [], 0, 0),
    (1, (2, 1), None, 0, EMPTY, [], 0, 0),
    (1, (PROXY, 1), None, 0, EMPTY, [], 0, 0),
    (1, (CLIENT, 1), None, 0, EMPTY, [], 0, 0),
    (1, (0, 2), None, 0, EMPTY, [], 0, 0),
    (1, (0, 1), (0, 2), 0, EMPTY, [], 0, 0),
    (1, (0, 2), (0, 1), 0, EMPTY, [], 0, 0),
    (1, (2, 1), (0, 1), 0, EMPTY, [], 0, 0),
    (1, (0, 1), (2, 1), 0, EMPTY, [], 0, 0),
    (0, (0, 0), None, 0, EMPTY, [], 0, 0),
    (1, (0, 1), None, 0, FIVE, [], 0, 0),
    (1, (0, 1), None, 0, log_mod(0, 0, [], view=3), ENTERS_3, 0, 0),
    (1, (0, 1), None, 0, log_mod(0, 0, [], view=4), [], 0, 0),
    (0, (2, 0), None, 0, FETCH, [(0, 2, fetch_reply([]))], 0, 0),
    (0, (3, 0), None, 0, FETCH, [], 0, 0),
    (0, (PROXY, 0), None, 0, FETCH, [], 0, 0),
    (0, (0, 0), None, 0, FETCH, [], 0, 0),
    (1, (2, 1), None, 0, FETCH, [], 0, 0),
    (1, (0, 1), None, 0, FETCHED, [], 0, 1),
    (1, (2, 1), None, 0, FETCHED, [], 0, 0),
    (1, (PROXY, 1), None, 0, FETCHED, [], 0, 0),
]


def parcels():
    for number_of, (me, parcel, inside, lost, message, sends, early_count, late_count) in enumerate(PARCELS):
        cluster(1, f"parcel {number_of} to replica {me}")
        happens(f"replica {me}", heard(*(inside or parcel), message, parcel, lost), sends)
        mode, view = ("view-change", 3) if sends == ENTERS_3 else ("normal", 0)
        shown(me, mode, view=view, early=early_count, late=late_count)


def down():
    cluster(1, "a replica that is down hears nothing, and one that is up does not restart")
    happens("replica 1", "restart 1")
    happens("replica 1", "crash")
    shown(1, "down")
    happens("replica 1", heard(0, 1, EMPTY))
    happens("replica 1", "alarm")
    happens("replica 1", "tick 5000")
    happens("replica 1", "restart 2", others(1, 3, vector_ask(2)))
    shown(1, "rejoining vectors")


# ---- views

LOGGED = [((12500, 0, 1), PUT)]


class Views:
    """A replica in view changes, in which each log has one entry, but in view 0 none."""

    def __init__(self, f, me, text):
        cluster(f, text)
        self.me, self.count, self.who = me, 2 * f + 1, f"replica {me}"
        self.vector = [0] * self.count
        self.first = 0

    def zeros(self, first=0):
        return [first] + [0] * (self.count - 1)

    def log(self, view):
        return LOGGED if view else []

    def enters(self, view, last, commit):
        """A view-ask to each other, and a view-change to the leader, if this is another."""
        asks = others(self.me, self.count, view_ask(view))
        leader = view % self.count
        change = self.me, leader, view_change(view, last, self.zeros(self.first), commit, self.log(last))
        return asks if leader == self.me else [*asks, change]

    def begins(self, view, commit, items):
        return others(self.me, self.count, start_view(view, self.zeros(self.first), commit, items))

    def alarm(self, sends):
        happens(self.who, "alarm", sends)

    def wait(self, ticks, sends=()):
        for _ in range(ticks - 1):
            happens(self.who, "tick 0")
        happens(self.who, "tick 0", sends)

    def ask(self, sender, view, sends=()):
        happens(self.who, heard(sender, self.me, view_ask(view)), sends)

    def change(self, sender, view, last, first=0, sends=()):
        happens(self.who, heard(sender, self.me, view_change(view, last, self.zeros(first), 0, self.log(last))), sends)

    def start(self, sender, view, commit):
        happens(self.who, heard(sender, self.me, start_view(view, self.zeros(), commit, self.log(view))))

    def ends(self, view, is_changing, items, commit):
        mode = "view-change" if is_changing else "normal"
        shown(self.me, mode, [place for place, _ in items], view, synced=len(items), commit=commit)


def views():
    v = Views(1, 1, "a start-view of a later view's leader")
    v.start(0, 3, 1)
    v.ends(3, False, LOGGED, 1)
    v = Views(1, 2, "a start-view of another")
    v.start(1, 3, 1)
    v.ends(0, False, [], 0)
    v = Views(1, 1, "an alarm at the next leader, and a view that begins")
    v.start(0, 3, 1)
    v.alarm(v.enters(4, 3, 1))
    v.ends(4, True, LOGGED, 1)
    v.change(0, 4, 0, 0, v.begins(4, 1, LOGGED))
    v.change(2, 4, 3, 0, [(1, 2, start_view(4, v.zeros(), 1, LOGGED))])
    v.ends(4, False, LOGGED, 1)
    v = Views(1, 2, "a view that is asked for twice")
    v.start(0, 3, 1)
    v.ask(1, 4, v.enters(4, 3, 1))
    v.ask(0, 4)
    v.ends(4, True, LOGGED, 1)
    v = Views(1, 2, "a start-view that comes twice")
    v.start(0, 3, 1)
    v.ask(1, 4, v.enters(4, 3, 1))
    v.start(1, 4, 0)
    v.start(1, 4, 0)
    v.ends(4, False, LOGGED, 1)
    for sender in (0, 3):
        v = Views(2, 1, f"a report that became stray, and then one of replica {sender}")
        v.alarm(v.enters(1, 0, 0))
        v.change(0, 1, 0)
        v.first = 1
        v.change(2, 1, 0, 1)
        v.change(sender, 1, 0, 0, v.begins(1, 0, []) if sender else ())
        v.ends(1, not sender, [], 0)
    v = Views(1, 2, "a follower that hears nothing")
    v.wait(19)
    v.ends(0, False, [], 0)
    v.wait(1, v.enters(1, 0, 0))
    v.ends(1, True, [], 0)
    v = Views(1, 2, "a view change that takes long")
    v.alarm(v.enters(1, 0, 0))
    v.wait(5, v.enters(1, 0, 0))
    v.wait(5, v.enters(1, 0, 0))
    v.wait(5, v.enters(1, 0, 0))
    v.wait(5, v.enters(2, 0, 0))
    v.ends(2, True, [], 0)


# ---- a replica of five that forgets all

NONCE = 7


def vectors(first, last):
    return [first, 0, 0, 0, last]


class Rejoin:
    """Replica 4 after its restart, and what three others told it of their vectors."""

    def __init__(self, text):
        cluster(2, f"a rejoin: {text}")
        happens("replica 4", "crash")
        happens("replica 4", f"restart {NONCE}", others(4, 5, vector_ask(NONCE)))

    def vector(self, sender, sends=()):
        happens("replica 4", heard(sender, 4, vector_tell(NONCE, vectors(0, 0))), sends)

    def three(self):
        self.vector(0)
        self.vector(1)
        self.vector(2, others(4, 5, rejoin_ask(NONCE, vectors(0, 1))))

    def view(self, sender, view, first, sends=()):
        happens("replica 4", heard(sender, 4, rejoin_tell(NONCE, view, vectors(first, 1))), sends)

    def wants(self, sender, view, first, wanted):
        self.view(sender, view, first, [(4, wanted % 5, state_ask(NONCE, wanted, vectors(1, 1)))])

    def log(self, sender, view, first):
        happens("replica 4", heard(sender, 4, state_tell(NONCE, view, vectors(first, 1), 0, LOGGED)))


def rejoins():
    r = Rejoin("two vectors, one of them twice")
    r.vector(0)
    r.vector(1)
    r.vector(1)
    shown(4, "rejoining vectors")
    r = Rejoin("what replica 0 told of its view is stray, since it came back after that")
    r.three()
    r.view(0, 0, 0)
    r.view(1, 0, 0)
    r.view(2, 3, 1)
    shown(4, "rejoining views")
    r.view(0, 0, 0)
    shown(4, "rejoining views")
    r.wants(0, 1, 1, 3)
    shown(4, "rejoining log", wanted=3)
    r = Rejoin("a stray log, one of an earlier view, and one of another than the leader")
    r.three()
    r.view(1, 0, 0)
    r.view(2, 3, 1)
    r.wants(3, 0, 0, 3)
    r.log(0, 5, 0)
    r.log(2, 2, 1)
    r.log(1, 3, 1)
    shown(4, "rejoining log", wanted=3)
    r.log(3, 3, 1)
    shown(4, "normal", [LOGGED[0][0]], 3, 3, 1)
    r = Rejoin("the log of a later view")
    r.three()
    r.view(1, 0, 0)
    r.view(2, 3, 1)
    r.wants(3, 0, 0, 3)
    r.log(0, 5, 1)
    shown(4, "normal", [LOGGED[0][0]], 5, 3, 1)
    r = Rejoin("it led the latest view itself, and waits for a later one")
    r.three()
    r.view(1, 0, 0)
    r.view(2, 4, 0)
    r.view(3, 0, 0)
    shown(4, "rejoining views")


# ---- proxies

ASKER = CLIENT + 5
NOTHING = digest([])


def stamped(f, clock, deadline, num):
    return [(PROXY, replica, timed(clock, (deadline, 5, num))) for replica in range(2 * f + 1)]


def asks(num, sends):
    happens("proxy", heard(ASKER, PROXY, request(num)), sends)


def answers(num, path):
    return [(PROXY, ASKER, answer(num, DONE, path))]


def replies_fast(replica, num, delay, sends=(), counters=(0, 0, 0)):
    happens("proxy", heard(replica, PROXY, late_reply(replica, num, delay, counters)), sends)


def late_reply(replica, num, delay, counters=(0, 0, 0)):
    return fast_reply((5, num), NOTHING, delay, None if replica else DONE, counters)


def replies_slow(replica, num, delay, sends=()):
    happens("proxy", heard(replica, PROXY, slow_reply((5, num), delay)), sends)


def proxy():
    cluster(1, "a proxy: delays, answers, and what does not count")
    happens("proxy", "tick 1000")
    asks(1, stamped(1, 1000, 11500, 1))
    replies_fast(1, 1, 200)
    replies_fast(0, 1, 100)
    replies_fast(1, 1, 200)
    replies_fast(2, 1, 300, answers(1, 1))
    asks(1, answers(1, 1))
    asks(2, stamped(1, 1000, 1800, 2))
    replies_slow(2, 1, 700)
    asks(2, stamped(1, 1000, 2200, 2))
    replies_fast(0, 99, 900)
    asks(2, stamped(1, 1000, 2400, 2))
    # Of another cluster's replica and vector, to another proxy, and cut.
    replies_fast(3, 2, 9000)
    replies_fast(1, 2, 9000, (), (0, 0, 0, 0, 0))
    late_one = late_reply(1, 2, 9000)
    happens("proxy", heard(1, PROXY + 1, late_one))
    happens("proxy", "cut" + heard(1, PROXY, late_one)[4:] + " 18")
    happens("proxy", "alarm")
    asks(2, stamped(1, 1000, 2400, 2))
    replies_fast(0, 2, 100)
    replies_slow(1, 2, 200, answers(2, 2))
    happens("proxy", "restart 7")
    asks(2, answers(2, 2))
    happens("proxy", "crash")
    asks(2, [])
    happens("proxy", "tick 3000")
    happens("proxy", "restart 8")
    asks(2, stamped(1, 0, 10500, 2))


FAST, SLOW = 1, 2
# f; the replicas with equal fast replies, those with another vector, and those with slow ones, each from the first up to
# the second; and how the last reply decides.
QUORUMS = [
    (1, (0, 2), (0, 0), (0, 0), None),
    (1, (0, 2), (0, 0), (1, 2), SLOW),
    (2, (0, 3), (0, 0), (0, 0), None),
    (2, (0, 3), (0, 0), (1, 3), SLOW),
    (3, (0, 5), (0, 0), (0, 0), None),
    (3, (0, 5), (0, 0), (1, 4), SLOW),
    (4, (0, 6), (0, 0), (0, 0), None),
    (4, (0, 6), (0, 0), (1, 5), SLOW),
    (1, (0, 3), (0, 0), (0, 0), FAST),
    (2, (0, 4), (0, 0), (0, 0), FAST),
    (3, (0, 6), (0, 0), (0, 0), FAST),
    (4, (0, 7), (0, 0), (0, 0), FAST),
    (1, (0, 2), (2, 3), (0, 0), None),
    (2, (0, 3), (3, 4), (0, 0), None),
    (3, (0, 5), (5, 6), (0, 0), None),
    (4, (0, 6), (6, 7), (0, 0), None),
    (1, (1, 3), (0, 0), (0, 0), None),
    (2, (1, 5), (0, 0), (0, 0), None),
    (3, (1, 7), (0, 0), (0, 0), None),
    (4, (1, 8), (0, 0), (0, 0), None),
    (1, (0, 1), (0, 0), (1, 2), SLOW),
    (2, (0, 1), (0, 0), (1, 3), SLOW),
    (3, (0, 1), (0, 0), (1, 4), SLOW),
    (4, (0, 1), (0, 0), (1, 5), SLOW),
    (2, (0, 2), (0, 0), (2, 4), FAST),
]


def quorums():
    for f, equal, apart, slowly, path in QUORUMS:
        cluster(f, f"f {f}: equal fast replies {equal}, apart {apart}, slow {slowly}")
        zeros, ones = (0,) * (2 * f + 1), (1,) * (2 * f + 1)
        asks(1, stamped(f, 0, 10500, 1))
        replies = [late_reply(replica, 1, 0, zeros) for replica in range(*equal)]
        replies += [late_reply(replica, 1, 0, ones) for replica in range(*apart)]
        replies += [slow_reply((5, 1), 0) for _ in range(*slowly)]
        senders = [*range(*equal), *range(*apart), *range(*slowly)]
        for number_of, (sender, message) in enumerate(zip(senders, replies)):
            is_last = number_of == len(senders) - 1
            happens("proxy", heard(sender, PROXY, message), answers(1, path) if is_last and path else [])


# ---- clients: client 1 of three proxies


def script(text, *waits):
    title(text)
    lines.append(" ".join(["script", *map(str, waits)]))


def client(what, sends=(), state=None):
    happens("client", what, [(CLIENT + 1, PROXY + proxy_of, request(num)) for proxy_of, num in sends])
    if state:
        lines.append("client show")
        printed.append("open {}, accepted {}".format(*state))


def answered(num, sender=PROXY, receiver=CLIENT + 1, lost=0):
    return heard(sender, receiver, answer(num, ABSENT, FAST), (PROXY, CLIENT + 1), lost)


def clients():
    script("a request waits for tick 2, and is sent again each thirtieth tick after it", 2)
    proxies = {2: 1, 32: 2, 62: 0, 92: 1}
    for tick in range(1, 93):
        client("tick 0", [(proxies[tick], 1)] if tick in proxies else [], (int(tick > 1), 0))
    script("one answer to each request", 0, 0, 3)
    client("tick 0", [(1, 1)], (1, 0))
    client(answered(2), [], (1, 0))
    client(answered(1, receiver=CLIENT + 2), [], (1, 0))
    client(answered(1, sender=PROXY + 2), [], (1, 0))
    for what in ("crash", "alarm", "restart 1"):
        client(what, [], (1, 0))
    client(answered(1), [(1, 2)], (2, 1))
    client(answered(1), [], (2, 1))
    client(answered(2), [], (0, 2))
    client(answered(3), [], (0, 2))
    client("tick 0", [], (0, 2))
    client("tick 0", [(1, 3)], (3, 2))
    client(answered(3), [], (0, 3))
    client("tick 0", [], (0, 3))
    script("whole frames alone", 0)
    client("tick 0", [(1, 1)], (1, 0))
    client(answered(1, lost=1), [], (1, 0))
    client("cut" + answered(1)[4:] + " 18", [], (1, 0))


def main():
    for part in (late_requests, placed_requests, fetching, log_mods, many_keys, parcels, down, views, rejoins, proxy, quorums, clients):
        part()
    wrong = []
    for name, texts in (("stdin", lines), ("stdout", printed)):
        data = "".join(f"{line}\n" for line in texts)
        if sys.argv[1:] == ["--check"]:
            with open(f"{FOLDER}/{name}", encoding="utf-8") as it:
                wrong += [name] * (it.read() != data)
            continue
        with open(f"{FOLDER}/{name}", "w", encoding="utf-8") as it:
            it.write(data)
    print(f"{len(lines)} lines, {len(printed)} printed" + "".join(f"\nnot as it has to be: {it}" for it in wrong))
    sys.exit(bool(wrong))


if __name__ == "__main__":
    main()
