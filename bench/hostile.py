#!/usr/bin/env python3
"""Plays hostile scenarios on the program and on a reference, another program with the same words, and compares.

    (cd crates/nezha && rt run < ../../scenarios/put_then_get)     makes crates/nezha/out/nezha
    bench/hostile.py PROGRAM REFERENCE [TABLE ..]

TABLE is one of these, all of them if left out:

    prefixes   each proper prefix of a scenario, by bytes
    crashes    a replica of three, or of five, crashes and restarts three ticks later, at each of 40 ticks
    together   two replicas of three, or of five, do so in one tick, at each of 40 ticks
    pairs      two crashes of each pair of replicas, the same one twice too, in each pair of 20 ticks
    cuts       the first message of each of the eighteen kinds, cut to each length
    limits     a scenario at each limit, and one past it

Both programs trace each scenario that the reference takes, and give the refusal of any other. Of each text that is
written it is asked besides that the answers of its `at` lines are those of one store in turn, and that each accepted
answer is that of its `at` line. A line for each table says how many scenarios it has and in how many of them the
two differ; the first few that differ are printed. The status is 1 where there are any.
"""
import itertools
import os
import subprocess
import sys

HERE = os.path.dirname(os.path.abspath(__file__))
KINDS = """request timed fast-reply slow-reply answer log-mod fetch fetch-reply sync-report view-ask view-change
start-view vector-ask vector-tell rejoin-ask rejoin-tell state-ask state-tell""".split()


def scenario(script, faults=(), f=1, proxies=1, clients=1, ticks=100, skews=()):
    """The text of a scenario whose first client has the script, and the others have none."""
    lines = ["nezha 1", f"f {f}", f"proxies {proxies}", f"clients {clients}", f"ticks {ticks}", *skews]
    for client in range(clients):
        lines += [f"client c{client}", *(script if client == 0 else []), "end"]
    return "\n".join([*lines, *faults, "done"]) + "\n"


def lost(replica, tick):
    return [f"crash r{replica} {tick}", f"restart r{replica} {tick + 3}"]


PUT_THEN_GET = ["put a 1", "get a"]


def prefixes():
    with open(f"{HERE}/../scenarios/leader_cut_off") as it:
        text = it.read()
    for kept in range(len(text)):
        yield f"the first {kept} bytes", text[:kept]


def crashes():
    for f in (1, 2):
        for replica, tick in itertools.product(range(2 * f + 1), range(1, 41)):
            yield f"f {f}, r{replica} at {tick}", scenario(PUT_THEN_GET, lost(replica, tick), f)


def together():
    for f in (1, 2):
        for a, b in itertools.combinations(range(2 * f + 1), 2):
            for tick in range(1, 41):
                faults = lost(a, tick) + lost(b, tick)
                yield f"f {f}, r{a} and r{b} at {tick}", scenario(PUT_THEN_GET, faults, f)


def pairs():
    script = ["put a 1", "cas a 1 2", "get a"]
    for a, b, first, second in itertools.product(range(3), range(3), range(10, 30), range(10, 30)):
        faults = lost(a, first) + lost(b, second)
        yield f"r{a} at {first}, r{b} at {second}", scenario(script, faults)


# All kinds of messages are sent here: a request is lost on its way to a follower, the view changes at an alarm, and a
# replica rejoins.
BUSY_SCRIPT = ["put a 1", "wait 20", "get a", "wait 40", "put b 2"]
BUSY_FAULTS = ["drop p0 r2 timed 1", "alarm r1 40", "crash r2 60", "restart r2 62"]


def first_deliveries(reference):
    """Of each kind, who sent and who got the first message of it, by the reference's trace."""
    found = {}
    for line in outcome(reference, "trace", scenario(BUSY_SCRIPT, BUSY_FAULTS, ticks=120))[1].decode().split("\n"):
        words = line.split()
        if len(words) > 4 and words[2] == "deliver":
            found.setdefault(words[3], (words[4], words[1]))
    missing = [kind for kind in KINDS if kind not in found]
    if missing:
        sys.exit(f"no message of these kinds is sent: {missing}")
    return found


def cuts(reference):
    for kind, (sender, receiver) in first_deliveries(reference).items():
        kept = 0
        while True:
            fault = f"cut {sender} {receiver} {kind} 1 {kept}"
            text = scenario(BUSY_SCRIPT, [*BUSY_FAULTS, fault], ticks=120)
            yield fault, text
            trace = outcome(reference, "trace", text)[1].decode()
            if f" {receiver} cut {kind} {sender} {kept} ->" not in trace:
                break
            kept += 1


# Fault lines, and the greatest number that may be written in each.
GREATEST = [
    ("drop p0 r1 timed {}", 1000000),
    ("hold p0 r1 timed 1 {}", 20000),
    ("twice p0 r1 timed 1 {}", 20000),
    ("cut p0 r1 timed 1 {}", 16777216),
    ("block p0 r1 1 {}", 20000),
    ("crash r1 {}", 20000),
    ("restart r1 {}", 20000),
    ("alarm r1 {}", 20000),
]


def limits():
    for f, proxies, clients in [(4, 8, 64), (5, 1, 1), (1, 9, 1), (1, 1, 65), (0, 1, 1), (1, 0, 1), (1, 1, 0)]:
        yield f"f {f}, {proxies} proxies, {clients} clients", scenario(PUT_THEN_GET, (), f, proxies, clients, 20)
    for ticks in (1, 20000, 20001, 0):
        yield f"{ticks} ticks", scenario(PUT_THEN_GET, ticks=ticks)
    for size in (32, 33):
        yield f"a key of {size} bytes", scenario([f"put {'k' * size} 1", f"get {'k' * size}"])
    for size in (256, 257):
        yield f"a value of {size} bytes", scenario([f"put a {'v' * size}", "get a"])
    for requests, ticks in [(2000, 1000), (2001, 900), (2000, 1001), (100, 20000), (101, 20000)]:
        script = [PUT_THEN_GET[n % 2] for n in range(requests)]
        yield f"{requests} requests and {ticks} ticks", scenario(script, ticks=ticks)
    for requests, count in [(200, 1000), (201, 1000), (0, 1000), (0, 1001), (2000, 100), (2000, 101)]:
        faults = [f"drop p0 r{n % 3} timed {n + 1}" for n in range(count)]
        yield f"{requests} requests and {count} fault lines", scenario(["put a 1"] * requests, faults, ticks=900)
    for wait in (20000, 20001, 0):
        yield f"wait {wait}", scenario([f"wait {wait}", "get a"])
    for skew in (2**62, -(2**62), 2**62 + 1, -(2**62) - 1):
        for actor in ("r0", "r1", "p0"):
            yield f"skew {actor} {skew}", scenario(PUT_THEN_GET, skews=[f"skew {actor} {skew}"])
    for line, most in GREATEST:
        for number in (0, 1, most, most + 1):
            yield line.format(number), scenario(PUT_THEN_GET, [line.format(number)])
    yield from long_texts()


def long_texts():
    short = scenario(PUT_THEN_GET, ticks=20)
    for size in (1048576, 1048577):
        lines = (size - len(short)) // 1000
        comments = ("#" + "x" * 998 + "\n") * (lines - 1)
        comments += "#" + "x" * (size - len(short) - len(comments) - 2) + "\n"
        yield f"{size} bytes with comments before", comments + short
        yield f"{size} bytes with comments after", short + comments
    yield "1048577 empty lines", "\n" * 1048577


def outcome(program, word, text):
    ended = subprocess.run([program, word], input=text.encode(), stdout=subprocess.PIPE, stderr=subprocess.DEVNULL, check=False)
    return ended.returncode, ended.stdout


def applied(store, words):
    """What a store answers to a command."""
    verb, key, rest = words[0], words[1], words[2:]
    held = store.get(key)
    if verb == "get":
        return "absent" if held is None else f"value {held}"
    if verb == "put":
        store[key] = rest[0]
        return "done"
    if verb == "del":
        return "absent" if store.pop(key, None) is None else "done"
    old, new = (None if word == "-" else word for word in rest)
    if held != old:
        return "absent" if held is None else "differs"
    if new is None:
        store.pop(key, None)
    else:
        store[key] = new
    return "done"


def is_of_one_store(text):
    """Whether the `at` lines have the answers of one store in turn, and each accepted answer is that of its line."""
    store, given = {}, {}
    lines = text.decode().split("\n")
    for line in lines:
        if line.startswith("at "):
            head, answer = line.split(" gives ")
            words = head.split()
            if applied(store, words[4:]) != answer:
                return False
            given[tuple(words[2:4])] = answer
    for line in lines:
        if line.startswith("accept "):
            words = line.split()
            if given.get(tuple(words[1:3])) != " ".join(words[3:-1]):
                return False
    return True


def compared(program, reference, text):
    """The reference's status, and in what the program is not as it has to be, or nothing."""
    status, wanted = outcome(reference, "trace", text)
    own_status, own = outcome(program, "trace", text)
    if (own_status, own) != (status, wanted):
        return status, f"status {own_status} for {status}, or another text"
    if status not in (0, 2):
        return status, f"status {status}"
    if status == 0 and not is_of_one_store(own.split(b"\ntext\n")[-1]):
        return status, "the answers are not those of one store"
    return status, None


def main():
    if len(sys.argv) < 3:
        sys.exit(__doc__)
    program, reference = (os.path.abspath(path) for path in sys.argv[1:3])
    tables = {"prefixes": prefixes, "crashes": crashes, "together": together, "pairs": pairs}
    tables |= {"cuts": lambda: cuts(reference), "limits": limits}
    failed = False
    for name in sys.argv[3:] or tables:
        count = refused = wrong = 0
        for what, text in tables[name]():
            status, fault = compared(program, reference, text)
            count += 1
            refused += status == 2
            if fault:
                wrong += 1
                if wrong <= 5:
                    print(f"  {name}, {what}: {fault}")
        print(f"{name}: {count} scenarios, of which {refused} are refused; {wrong} differ", flush=True)
        failed = failed or wrong > 0
    sys.exit(failed)


if __name__ == "__main__":
    main()
