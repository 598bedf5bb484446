#!/usr/bin/env python3
"""Judges damaged texts, and long ones, by the program and by a reference, another program with the same words.

    (cd crates/nezha && rt run < ../../scenarios/put_then_get)     makes crates/nezha/out/nezha
    bench/texts.py PROGRAM REFERENCE [COUNT]

First COUNT texts, 2,000 if left out: outputs of drawn scenarios, most of them damaged once or twice (`damages` below).
A line says how many had each verdict by the reference, and those that differ are printed. Then texts of 1 and of 8
MiB: the processor's least seconds of five runs, the most memory, and the ratios to the reference. The status is 1
where a verdict differs.

    bench/texts.py --cases FOLDER REFERENCE [COUNT]

writes the first texts as cases for `rt try --cases FOLDER`.
"""
import collections
import os
import random
import subprocess
import sys

import hostile
import run

MIB = 1 << 20


def script(rng):
    """Commands on few keys, some after a wait."""
    for _ in range(rng.choice([1, 2, 4, 8])):
        if rng.random() < 0.3:
            yield f"wait {rng.randint(1, 40)}"
        key = rng.choice("abk")
        yield rng.choice([f"get {key}", f"del {key}", f"put {key} {rng.randint(1, 4)}", f"cas {key} {rng.choice('-12')} {rng.choice('-12')}"])


def drawn(rng):
    """A scenario with a few faults, so that some requests stay open."""
    clients = rng.randint(1, 4)
    faults = []
    for _ in range(rng.choice([0, 1, 3, 6])):
        replica, client, tick = rng.randrange(3), rng.randrange(clients), rng.randint(1, 50)
        faults += rng.choice([[f"block r{replica} * {tick} {tick + 20}"], [f"block p0 c{client} {tick} 80"], hostile.lost(replica, tick), [f"alarm r{replica} {tick}"]])
    return run.scenario(1, 1, clients, 80, [list(script(rng)) for _ in range(clients)], faults, rng.choice([1, 4]))


def numbered(lines):
    """The lines, with the entries of the history numbered anew."""
    place = 0
    for line in lines:
        if line.startswith("at "):
            place += 1
            line = " ".join(["at", str(place), *line.split(" ")[2:]])
        yield line


def moved(rng, lines, sort, to):
    """One line of this sort at another place among these."""
    places = [at for at, line in enumerate(lines) if line.startswith(sort)]
    if places:
        line = lines.pop(rng.choice(places))
        lines.insert(rng.randint(0, to) if to else rng.choice(places), line)
    return list(numbered(lines))


def answers_exchanged(rng, lines):
    """Two lines of one sort with each other's answers."""
    sort, word = rng.choice([("at ", "gives"), ("accept ", None)])
    places = [at for at, line in enumerate(lines) if line.startswith(sort)]
    if len(places) > 1:
        one, other = rng.sample(places, 2)
        first, second = lines[one].split(" "), lines[other].split(" ")
        cuts = [words.index(word) if word else 3 for words in (first, second)]
        lines[one] = " ".join(first[:cuts[0]] + second[cuts[1]:])
        lines[other] = " ".join(second[:cuts[1]] + first[cuts[0]:])
    return lines


def word_exchanged(rng, lines):
    """A word from elsewhere."""
    at, other = rng.randrange(len(lines)), rng.randrange(len(lines))
    words = lines[at].split(" ")
    words[rng.randrange(len(words))] = rng.choice(lines[other].split(" "))
    return lines[:at] + [" ".join(words)] + lines[at + 1:]


def byte_changed(rng, lines):
    text = "\n".join(lines)
    at = rng.randrange(len(text))
    return (text[:at] + rng.choice("0 1c-a\n~\t") + text[at + 1:]).split("\n")


def damages(rng, lines):
    """The lines, damaged in one way."""
    at, other = rng.randrange(len(lines)), rng.randrange(len(lines))
    opens = [k for k, line in enumerate(lines) if line.startswith("open ")]
    way = rng.randrange(11)
    if way == 0:
        lines[at], lines[other] = lines[other], lines[at]
    elif way == 1:
        lines.insert(other, lines[at])
    elif way == 2:
        del lines[at]
    elif way == 3:
        return word_exchanged(rng, lines)
    elif way == 4:
        return byte_changed(rng, lines)
    elif way == 5:
        return moved(rng, lines, "at ", 0)
    elif way == 6:
        return moved(rng, lines, "accept ", len(lines) // 2)
    elif way == 7:
        return answers_exchanged(rng, lines)
    elif way == 8:
        lines.insert(rng.choice(opens) if opens else at, f"open c{rng.randrange(3)} {rng.randint(1, 4)}")
    elif way == 9 and opens:
        del lines[rng.choice(opens)]
    elif way == 10:
        lines = list(numbered(line for k, line in enumerate(lines) if k != at))
    return lines


def damaged(seed, reference):
    """An output of a run, damaged up to twice, and one in twenty without its last newline."""
    rng = random.Random(f"text {seed}")
    text = subprocess.run([reference, "run"], input=drawn(rng).encode(), stdout=subprocess.PIPE, check=True).stdout.decode()
    lines = text.split("\n")[:-1]
    for _ in range(rng.choice([0, 1, 1, 1, 2])):
        lines = damages(rng, lines) if lines else lines
    return "\n".join(lines) + ("" if rng.random() < 0.05 else "\n")


def verdict(program, text):
    ended = subprocess.run([program, "check"], input=text.encode(), stdout=subprocess.PIPE, check=False)
    return ended.returncode, ended.stdout


def compare(program, reference, count):
    """How many texts have each verdict; whether all have the same by both."""
    verdicts, differ = collections.Counter(), 0
    for seed in range(count):
        text = damaged(seed, reference)
        ours, wanted = verdict(program, text), verdict(reference, text)
        verdicts[wanted[1].split(b" ")[-1].strip().decode()] += 1
        if ours != wanted:
            differ += 1
            print(f"  text {seed}: {ours}, and by the reference {wanted}")
    print(f"{count} texts: " + ", ".join(f"{name} {many}" for name, many in sorted(verdicts.items())) + f"; {differ} differ")
    return differ == 0


def filled(size, lines):
    """Lines until the size is reached, and how many there are."""
    kept, used = [], 0
    for line in lines:
        if used + len(line) + 1 > size:
            break
        kept.append(line)
        used += len(line) + 1
    return kept


def numbers():
    return ((number % 64, number // 64) for number in range(1 << 30))


def all_open(size, command):
    """Each request is sent, and open."""
    sends = filled(size * len(command(0)) // (len(command(0)) + 6) * 3 // 4, (f"send c{c} {n} {command(n)}" for c, n in numbers()))
    return "\n".join([*sends, *(f"open {' '.join(line.split(' ')[1:3])}" for line in sends), "end"]) + "\n"


def complete(size):
    """Each request is sent and accepted in turn, and in the history."""
    three = ((f"send c{c} {n} put k{n % 16} v{n}\naccept c{c} {n} done fast", f"c{c} {n} put k{n % 16} v{n} gives done") for c, n in numbers())
    events, entries, used = [], [], 4
    for event, entry in three:
        entry = f"at {len(entries) + 1} {entry}"
        used += len(event) + len(entry) + 2
        if used > size:
            break
        events.append(event)
        entries.append(entry)
    return "\n".join([*events, *entries, "end"]) + "\n"


LONG = {
    "short lines, all requests open": lambda size: all_open(size, lambda n: "get a"),
    "long lines, all requests open": lambda size: all_open(size, lambda n: f"put k{n % 16} {'v' * 120}"),
    "requests sent, accepted, in the history": complete,
    "newlines": lambda size: "\n" * size,
    "one line": lambda size: "x" * (size - 1) + "\n",
    "one line of spaces": lambda size: " " * (size - 1) + "\n",
}


def measured(program, path):
    """The least seconds of five runs, and MiB."""
    best, most = 1e9, 0
    for _ in range(5):
        with open(path, "rb") as text:
            child = subprocess.Popen([program, "check"], stdin=text, stdout=subprocess.DEVNULL)
            _, _, used = os.wait4(child.pid, 0)
        best, most = min(best, used.ru_utime + used.ru_stime), max(most, used.ru_maxrss / 1024)
    return best, most


def write_apart(path, text, size):
    """Writes the text in a process of its own: memory of this one would count as memory of its children."""
    child = os.fork()
    if child == 0:
        with open(path, "w") as it:
            it.write(text(size))
        os._exit(0)
    os.waitpid(child, 0)


def time_long(program, reference):
    path = f"/tmp/text.{os.getpid()}"
    for what, text in LONG.items():
        for size in (MIB, 8 * MIB):
            write_apart(path, text, size)
            ours, theirs = measured(program, path), measured(reference, path)
            print(f"{size // MIB} MiB, {what}: {ours[0]:.3f} s, {ours[1]:.0f} MiB; of the reference's {ours[0] / max(theirs[0], 1e-3):.1f} and {ours[1] / theirs[1]:.1f}")
    os.remove(path)


def main():
    words = [word for word in sys.argv[1:] if word != "--cases"]
    if len(words) < 2:
        sys.exit(__doc__)
    count = int(words[2]) if len(words) > 2 else 2000
    program, reference = map(os.path.abspath, words[:2])
    if "--cases" not in sys.argv:
        same = compare(program, reference, count)
        time_long(program, reference)
        sys.exit(not same)
    os.makedirs(program, exist_ok=True)
    for seed in range(count):
        text = damaged(seed, reference)
        for end, data in (("", text.encode()), (".args", b"check\n"), (".stdout", verdict(reference, text)[1])):
            with open(f"{program}/text_{seed}{end}", "wb") as it:
                it.write(data)


if __name__ == "__main__":
    main()
