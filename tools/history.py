#!/usr/bin/env python3
"""Turns the text of a run into a history for other checkers, or searches an order that explains it.

    history.py < TEXT           a line of JSON for each event
    history.py --edn < TEXT     the same as maps of EDN, as Jepsen's
    history.py --check < TEXT   `linearizable`, or the first key whose answers no order explains; then the status is 1

TEXT is what `run`, `trace` or `story` print. An operation has an index, a process, a type (invoke; ok, or info if it stays
open), f (put, get, del or cas), key and value; if it is ok, also the answer and the path. The index is the time. A client is
16 processes, of which one has an operation where the client has no window. The search looks at what clients saw alone, and
not at the history that the text has.
"""

import argparse
import json
import sys

from reading import read_text

PROCESSES = 16  # as many as a client has requests open at most


def operations(events):
    """Each event of the clients as an operation."""
    slots, commands = {}, {}  # the open requests of each client in their slots; the words of each request
    for event in events:
        client, words = event.id.split("/")[0], event.command.split()
        if event.word == "at":
            continue
        open_now = slots.setdefault(client, {})
        if event.word == "send":
            commands[event.id] = words
            open_now[event.id] = next(k for k in range(PROCESSES) if k not in open_now.values())
        f, key, *value = commands[event.id]
        kind = {"send": "invoke", "accept": "ok", "open": "info"}[event.word]
        operation = {"process": PROCESSES * int(client[1:]) + open_now[event.id], "type": kind, "f": f, "key": key, "value": value}
        if kind == "ok":
            operation |= {"answer": event.answer, "path": event.path}
            del open_now[event.id]
        yield operation


def edn(value):
    """A map, a list, a number or a string as EDN; type and f are keywords."""
    if isinstance(value, dict):
        words = (f":{name} {':' + it if name in ('type', 'f') else edn(it)}" for name, it in value.items())
        return "{" + ", ".join(words) + "}"
    if isinstance(value, list):
        return "[" + " ".join(map(edn, value)) + "]"
    return json.dumps(value)


def executed(command, cell):
    """The answer of one key's cell to a command, and the cell after it."""
    f, _, *values = command.split()
    if f == "get":
        return ("absent" if cell is None else f"value {cell}"), cell
    if f == "del":
        return ("absent" if cell is None else "done"), None
    if f == "put":
        return "done", values[0]
    old, new = (None if value == "-" else value for value in values)
    if cell == old:
        return "done", new
    return ("absent" if cell is None else "differs"), cell


class Operation:
    """A request: its command, when it was sent, and when which answer was accepted; an open one may take effect at any time."""

    def __init__(self, command, sent):
        self.command, self.sent, self.accepted, self.answer = command, sent, float("inf"), None


def by_key(events):
    """The operations of each key, in the order of sending."""
    found = {}
    for time, event in enumerate(events):
        if event.word == "send":
            found[event.id] = Operation(event.command, time)
        elif event.word == "accept":
            found[event.id].accepted, found[event.id].answer = time, event.answer
    keys = {}
    for operation in found.values():
        keys.setdefault(operation.command.split()[1], []).append(operation)
    return keys


def is_explained(operations):
    """Whether some order explains the answers: it keeps that what was accepted comes before what was sent later. Wing and
    Gong's search: of what is left, any operation may be next that was sent before all of what is left was accepted."""
    whole = sum(1 << k for k, it in enumerate(operations) if it.answer is not None)
    todo, seen = [(0, None)], {(0, None)}
    while todo:
        done, cell = todo.pop()
        if done & whole == whole:
            return True
        left = [k for k in range(len(operations)) if not done >> k & 1]
        first = min(operations[k].accepted for k in left)
        for k in left:
            it = operations[k]
            if it.sent < first:
                answer, after = executed(it.command, cell)
                step = (done | 1 << k, after)
                if it.answer in (None, answer) and step not in seen:
                    seen.add(step)
                    todo.append(step)
    return False


def unexplained(events):
    """The first key whose answers no order explains, or None: keys are independent of each other."""
    return next((key for key, operations in sorted(by_key(events).items()) if not is_explained(operations)), None)


def main():
    words = argparse.ArgumentParser(description=__doc__, formatter_class=argparse.RawDescriptionHelpFormatter)
    words.add_argument("--edn", action="store_true", help="maps of EDN")
    words.add_argument("--check", action="store_true", help="search an order")
    given = words.parse_args()
    events = read_text(sys.stdin)
    if given.check:
        key = unexplained(events)
        print("linearizable" if key is None else f"no order explains the answers of key {key}")
        sys.exit(key is not None)
    for index, operation in enumerate(operations(events)):
        operation = {"index": index, **operation}
        print(edn(operation) if given.edn else json.dumps(operation))


if __name__ == "__main__":
    main()
