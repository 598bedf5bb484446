#!/usr/bin/env python3
"""Times the proved program on scenarios of growing size.

    (cd crates/nezha && rt run < ../../scenarios/put_then_get)     makes crates/nezha/out/nezha
    bench/run.py [PROGRAM [WORKERS [REFERENCE]]]

prints a line for each scenario: how many requests and ticks it has, how long the run took by so many workers
(1 if left out), how much memory it took at most, and how many lines of output it made in a second. It judges nothing:
compare two runs on one quiet machine.

Several numbers of workers, as 1,2,4,8, give the seconds by each, the medians of seven runs in turn, and two ratios: to a
run by the first number of workers that is alone, and to one that has others beside it, as many as keep the processors as
busy. The second is the fairer one where processors are threads of shared cores: there a thread that is alone may be nearly
twice as fast as each of several, whatever they do.

With the path of a REFERENCE, another program with the same words, it first prints both side by side on the
generated runs `gen 7 COUNT`, ours by one worker: the best of five times each, their ratio, the memory of both,
and the exponents by which the times grow from one count to the next. Each line of a scenario then has the seconds of
the reference and the ratio, too.

    bench/run.py --table PROGRAM [REFERENCE]

prints the table of docs/SPEED.md: for each call by one worker the processor's seconds, the most memory and the page faults,
medians of nine calls, and the instructions, in millions. With a REFERENCE, which takes turns, also its seconds, and how many
times as long and as many instructions ours takes. Instructions are counted by `perf`, or by `valgrind` where the machine
does not count them for `perf`; without either there is a dash.
"""
import math
import os
import re
import shutil
import signal
import statistics
import subprocess
import sys
import tempfile
import time

HERE = os.path.dirname(os.path.abspath(__file__))
MASK = (1 << 64) - 1


def scenario(f, proxies, clients, ticks, scripts, faults=(), window=1):
    """The text of a scenario: a list of lines for each client."""
    lines = ["nezha 1" if window == 1 else "nezha 2", f"f {f}", f"proxies {proxies}", f"clients {clients}", f"ticks {ticks}"]
    lines += [f"window {window}"] * (window > 1)
    for client in range(clients):
        lines += [f"client c{client}", *scripts[client], "end"]
    return "\n".join([*lines, *faults, "done"]) + "\n"


def drawn(seed, count, ticks=1000):
    """The scenario that a seed draws, as the program's own generator does (docs/FORMATS.md)."""
    x = seed

    def draw():
        nonlocal x
        x = (x * 6364136223846793005 + 1442695040888963407) & MASK
        return x >> 33

    scripts = [[] for _ in range(16)]
    for i in range(count):
        a, b = draw() % 4, draw() % 16
        command = [f"put k{b} v{i}", f"get k{b}", f"del k{b}", f"cas k{b} - v{i}"][a]
        scripts[i % 16].append(command)
    faults = []
    for j in range(count // 50):
        replica, nth = draw() % 5, 1 + draw() % count
        faults.append(f"drop p{j % 2} r{replica} timed {nth}")
    return scenario(2, 2, 16, ticks, scripts, faults)


def even(f, proxies, clients, requests, ticks, window=1):
    """Puts and gets in turn, as many for each client."""
    scripts = [[] for _ in range(clients)]
    for i in range(requests):
        command = f"put k{i % 97} v{i}" if i % 2 == 0 else f"get k{i % 97}"
        scripts[i % clients].append(command)
    return scenario(f, proxies, clients, ticks, scripts, window=window)


# A value of 256 bytes, with the number of its request.
LONG = "v" * 250 + "{:06}"


def puts(clients, requests, value):
    """The scripts of so many clients, which put values of this form."""
    scripts = [[] for _ in range(clients)]
    for i in range(requests):
        scripts[i % clients].append(f"put k{i % 97} {value.format(i)}")
    return scripts


def storm(requests, ticks, period):
    """Values of 256 bytes, and every so many ticks one of five replicas is alarmed."""
    alarms = [f"alarm r{tick // period % 5} {tick}" for tick in range(period, ticks + 1, period)]
    return scenario(2, 2, 16, ticks, puts(16, requests, LONG), alarms)


def restart_lines(replicas, ticks, count):
    """Again and again the next of these replicas crashes, and restarts three ticks later."""
    lines = []
    for k in range(count):
        replica, tick = replicas[k % len(replicas)], 20 + k * (ticks - 40) // count
        lines += [f"crash r{replica} {tick}", f"restart r{replica} {tick + 3}"]
    return lines


def crashes(requests, ticks, count):
    """One of five replicas after another crashes and restarts."""
    return scenario(2, 2, 16, ticks, puts(16, requests, "v{}"), restart_lines(range(5), ticks, count))


def restarts(requests, ticks, count):
    """One of three replicas, which does not lead the first view, crashes and restarts again and again."""
    return scenario(1, 1, 4, ticks, puts(4, requests, "v{}"), restart_lines([1], ticks, count))


def faulty(requests, ticks, count):
    """As many fault lines as there may be, which strike early and late parcels of five replicas and two proxies."""
    lines = []
    for j in range(count):
        to, nth = f"p{j % 2} r{j % 5} timed", 1 + j * requests // count
        lines.append([f"drop {to} {nth}", f"hold {to} {nth} {1 + j % 9}", f"twice {to} {nth} {j % 7}"][j % 3])
    return scenario(2, 2, 16, ticks, puts(16, requests, "v{}"), lines)


def wide(requests, ticks):
    """64 clients with 16 requests open each, values of 256 bytes, nine replicas: each tick has thousands of items."""
    return scenario(4, 8, 64, ticks, puts(64, requests, LONG), window=16)


def rejoins(requests, rounds, value):
    """After the requests, again and again, four of nine replicas crash at once and rejoin: each gets the whole log."""
    lines = []
    for k in range(rounds):
        for j in range(4):
            replica, tick = (4 * k + j) % 8 + 1, 40 + 8 * k
            lines += [f"crash r{replica} {tick}", f"restart r{replica} {tick + 1}"]
    return scenario(4, 8, 64, 60 + 8 * rounds, puts(64, requests, value), lines, window=16)


def views(requests, rounds, value):
    """After the requests, again and again, nine replicas enter the next view: each sends its whole log, and gets one."""
    alarms = [f"alarm r{(k + 1) % 9} {40 + 12 * k}" for k in range(rounds)]
    return scenario(4, 8, 64, 60 + 12 * rounds, puts(64, requests, value), alarms, window=16)


def cases():
    with open(f"{HERE}/../scenarios/put_then_get") as it:
        yield "put and get", 2, 40, it.read()
    for requests in (250, 500, 1000, 2000):
        yield "drawn, more requests", requests, 1000, drawn(7, requests)
    for ticks in (1000, 2000, 4000, 8000):
        yield "drawn, more ticks", 250, ticks, drawn(7, 250, ticks)
    yield "nine replicas, 64 clients", 500, 2000, even(4, 8, 64, 500, 2000)
    yield "nine replicas, 64 clients", 1000, 2000, even(4, 8, 64, 1000, 2000)
    yield "nine replicas, full ticks", 2000, 500, even(4, 8, 64, 2000, 500)
    yield "nine replicas, window 16", 2000, 60, wide(2000, 60)
    yield "four of nine rejoin at once", 500, 460, rejoins(500, 50, LONG)
    yield "the same, short values", 1000, 260, rejoins(1000, 25, "v{:06}")
    yield "nine replicas change views", 1000, 264, views(1000, 17, LONG)
    yield "the same, short values", 1000, 264, views(1000, 17, "v{:06}")
    yield "little to do", 100, 20000, even(1, 1, 4, 100, 20000)
    yield "1,000 fault lines", 200, 1000, faulty(200, 1000, 1000)
    for requests in (250, 500, 1000):
        yield "an alarm every 20 ticks", requests, 2000, storm(requests, 2000, 20)
    for count in (25, 50, 100):
        yield f"{count} crashes", 500, 4000, crashes(500, 4000, count)


def opened(text):
    """A file that holds the text."""
    given = tempfile.TemporaryFile()
    given.write(text.encode())
    given.seek(0)
    return given


def begun(program, words, given, made):
    """The process of a run that reads the one file and writes the other."""
    child = os.fork()
    if child == 0:
        os.dup2(given.fileno(), 0)
        os.dup2(made.fileno(), 1)
        os.execv(program, [program, *words])
    return child


def measure(program, words, text):
    """Seconds, the most memory in MiB, lines of output, and the exit status."""
    with opened(text) as given, tempfile.TemporaryFile() as made:
        start = time.monotonic()
        _, status, used = os.wait4(begun(program, words, given, made), 0)
        seconds = time.monotonic() - start
        made.seek(0)
        return seconds, used.ru_maxrss / 1024, made.read().count(b"\n"), os.waitstatus_to_exitcode(status)


def again_and_again(program, words, text):
    """A process that begins the run anew whenever it ends, in a group of its own."""
    child = os.fork()
    if child == 0:
        os.setpgid(0, 0)
        while True:
            with opened(text) as given, open(os.devnull, "wb") as made:
                os.waitpid(begun(program, words, given, made), 0)
    os.setpgid(child, child)
    return child


def beside(program, words, text, count):
    """The seconds of a run while so many others go on beside it."""
    others = [again_and_again(program, words, text) for _ in range(count)]
    try:
        return measure(program, words, text)[0]
    finally:
        for child in others:
            os.killpg(child, signal.SIGKILL)
            os.waitpid(child, 0)


def in_turn(runs, rounds=7):
    """The median seconds of each of the runs, which take turns, so that each meets the machine in all its moods."""
    times = [[run() for run in runs] for _ in range(rounds)]
    return [statistics.median(column) for column in zip(*times)]


def shared(program, counts, text):
    """What the numbers of workers after the first cost: seconds, and their ratios to the first's, alone and beside others."""
    words = [["run", "--workers", count] for count in counts]
    others = [min(int(count), len(os.sched_getaffinity(0))) - 1 for count in counts[1:]]
    runs = [lambda own=own: measure(program, own, text)[0] for own in words]
    runs += [lambda count=count: beside(program, words[0], text, count) for count in others]
    one, *rest = in_turn(runs)
    many = len(others)
    return "".join(f" {by:9.3f} {by / one:7.2f} {by / same:7.2f}" for by, same in zip(rest[:many], rest[many:]))


def best(program, count):
    """The least seconds of five generated runs with so many requests, and the most memory of any in MiB."""
    runs = [measure(program, ["gen", "7", str(count)], "") for _ in range(5)]
    for _, _, _, status in runs:
        if status != 0:
            sys.exit(f"{program} gen 7 {count} ended with status {status}")
    return min(run[0] for run in runs), max(run[1] for run in runs)


def exponent(times, counts, at):
    """By which power of the count the time grew from the last count to this one."""
    if at == 0:
        return "-"
    return f"{math.log(times[at] / times[at - 1]) / math.log(counts[at] / counts[at - 1]):.2f}"


def side_by_side(program, reference):
    counts = (250, 500, 1000, 2000)
    ours, theirs = [], []
    print(f"{'gen 7':>8} {'ours, s':>9} {'ref, s':>9} {'ratio':>7} {'growth':>7} {'ref':>6} {'ours, MiB':>10} {'ref, MiB':>9}")
    for at, count in enumerate(counts):
        (seconds, memory), (other, other_memory) = best(program, count), best(reference, count)
        ours.append(seconds)
        theirs.append(other)
        growth, other_growth = exponent(ours, counts, at), exponent(theirs, counts, at)
        print(f"{count:8} {seconds:9.4f} {other:9.4f} {seconds / other:7.1f} {growth:>7} {other_growth:>6} {memory:10.1f} {other_memory:9.1f}")
    print()


def table_rows():
    """Each row: its name, the words of the call, and its input."""
    with open(f"{HERE}/../scenarios/put_then_get") as it:
        yield "a put and a get", ["run"], it.read()
    nine, idle = even(4, 8, 64, 1000, 2000), even(1, 1, 4, 100, 20000)
    often, seldom = restarts(200, 10000, 500), restarts(2000, 1000, 50)
    peek = ["peek", "r1", "k1"]
    yield "`gen 7 2000`", ["run"], drawn(7, 2000)
    yield "nine replicas, 64 clients, 1,000 requests, 2,000 ticks", ["run"], nine
    yield "100 requests in 20,000 ticks", ["run"], idle
    yield "1,000 fault lines, 200 requests", ["run"], faulty(200, 1000, 1000)
    yield "1,990 requests of 256 bytes, 100 alarms", ["run"], storm(1990, 1000, 10)
    yield "500 requests, 100 crashes and restarts", ["run"], crashes(500, 4000, 100)
    yield "500 restarts of one replica, 200 requests", ["run"], often
    yield "50 restarts of one replica, 2,000 requests", ["run"], seldom
    yield "64 clients, window 16, 2,000 requests", ["run"], even(2, 2, 64, 2000, 1000, 16)
    for command in (["pace"], peek, ["locks"], ["story"]):
        yield f"`{command[0]}`, nine replicas", command, nine
        yield f"`{command[0]}`, 20,000 ticks", command, idle
    yield "`peek`, 500 restarts", peek, often
    yield "`peek`, 50 restarts", peek, seldom


def spent(program, words, text):
    """The processor's seconds of a call, the most memory in MiB, and the page faults."""
    with opened(text) as given, open(os.devnull, "wb") as made:
        _, status, used = os.wait4(begun(program, words, given, made), 0)
        if os.waitstatus_to_exitcode(status) != 0:
            sys.exit(f"{program} {' '.join(words)} ended with status {os.waitstatus_to_exitcode(status)}")
        return used.ru_utime + used.ru_stime, used.ru_maxrss / 1024, used.ru_minflt


def counted(program, words, text):
    """The millions of instructions of a call, None where nothing here counts them."""
    with tempfile.TemporaryDirectory() as room:
        counters = [["perf", "stat", "-x", ",", "-e", "instructions:u"], ["valgrind", "--tool=callgrind", f"--callgrind-out-file={room}/out"]]
        for counter, shown in zip(counters, (r"^(\d+),", r"Collected : (\d+)")):
            if shutil.which(counter[0]):
                with opened(text) as given:
                    how = {"stdin": given, "stdout": subprocess.DEVNULL, "stderr": subprocess.PIPE, "text": True}
                    found = re.search(shown, subprocess.run([*counter, program, *words], **how).stderr, re.MULTILINE)
                if found:
                    return int(found[1]) / 1e6
    return None


def medians(runs):
    """Of each measure of the runs its median."""
    return [statistics.median(column) for column in zip(*runs)]


def table(program, reference=None):
    heads = ["run", "seconds", "MiB", "page faults", "10^6 instructions"]
    heads += ["the other, s", "times", "times, instructions"] * (reference is not None)
    print("| " + " | ".join(heads) + " |\n" + "|---" * len(heads) + "|")
    programs = [it for it in (program, reference) if it]
    for name, words, text in table_rows():
        rounds = [[spent(it, words, text) for it in programs] for _ in range(9)]
        (seconds, memory, faults), *other = [medians(runs) for runs in zip(*rounds)]
        count, *other_count = [counted(it, words, text) for it in programs]
        cells = [name, f"{seconds:.3f}", f"{memory:.0f}", f"{faults:,.0f}", f"{count:,.0f}" if count else "-"]
        if reference:
            ratio = f"{count / other_count[0]:.2f}" if count and other_count[0] else "-"
            cells += [f"{other[0][0]:.3f}", f"{seconds / other[0][0]:.2f}", ratio]
        print("| " + " | ".join(cells) + " |", flush=True)


def main():
    if sys.argv[1:2] == ["--table"]:
        return table(*map(os.path.abspath, sys.argv[2:4]))
    program = os.path.abspath(sys.argv[1] if len(sys.argv) > 1 else f"{HERE}/../crates/nezha/out/nezha")
    counts = (sys.argv[2] if len(sys.argv) > 2 else "1").split(",")
    if not os.access(program, os.X_OK):
        sys.exit(f"there is no program {program}: make it as the head of this file says")
    reference = os.path.abspath(sys.argv[3]) if len(sys.argv) > 3 else None
    if reference:
        side_by_side(program, reference)
    more = "".join(f" {'by ' + count + ', s':>9} {'alone':>7} {'beside':>7}" for count in counts[1:])
    more += f" {'ref, s':>9} {'ratio':>7}" if reference else ""
    print(f"{'scenario':28} {'requests':>8} {'ticks':>6} {'seconds':>9} {'MiB':>8} {'lines/s':>9} status{more}")
    for name, requests, ticks, text in cases():
        seconds, memory, lines, status = measure(program, ["run", "--workers", counts[0]], text)
        line = f"{name:28} {requests:8} {ticks:6} {seconds:9.3f} {memory:8.1f} {lines / seconds:9.0f} {status:6}"
        if counts[1:]:
            line += shared(program, counts, text)
        if reference:
            other = measure(reference, ["run"], text)[0]
            line += f" {other:9.3f} {seconds / other:7.1f}"
        print(line)


if __name__ == "__main__":
    main()
