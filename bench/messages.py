"""Messages and frames as bytes, spelled by docs/FORMATS.md alone."""
import hashlib

PROXY, CLIENT = 16, 64
GET, PUT = b"\2\1a", b"\1\1a\0\1" + b"1"
DONE, ABSENT, VALUE_1 = b"\1", b"\3", b"\2\0\1" + b"1"


def number(width, value):
    return value.to_bytes(width, "big")


def key(place):
    deadline, client, num = place
    return number(8, deadline) + number(4, client) + number(4, num)


def command(text):
    return number(2, len(text)) + text


def vector(counters):
    return number(1, len(counters)) + b"".join(number(4, it) for it in counters)


def entries(items):
    return number(4, len(items)) + b"".join(key(place) + command(text) for place, text in items)


def digest(places):
    total = 0
    for place in places:
        total ^= int.from_bytes(hashlib.sha1(key(place)).digest(), "big")
    return number(20, total)


def request(num, text=GET):
    return 1, number(4, num) + command(text)


def timed(sent, place, text=GET):
    return 2, number(8, sent) + key(place) + command(text)


def fast_reply(ident, summed, delay, answer=None, counters=(0, 0, 0), view=0):
    given = b"\0" if answer is None else b"\1" + answer
    return 3, number(8, view) + key((0, *ident))[8:] + summed + vector(counters) + number(4, delay) + given


def slow_reply(ident, delay, view=0):
    return 4, number(8, view) + key((0, *ident))[8:] + number(4, delay)


def answer(num, given, path):
    return 5, number(4, num) + given + number(1, path)


def log_mod(start, commit, keys, counters=(0, 0, 0), view=0):
    head = number(8, view) + vector(counters) + number(4, commit) + number(4, start)
    return 6, head + number(1, len(keys)) + b"".join(map(key, keys))


def fetch(idents, view=0):
    return 7, number(8, view) + number(1, len(idents)) + b"".join(key((0, *it))[8:] for it in idents)


def fetch_reply(items, view=0):
    return 8, number(8, view) + entries(items)


def sync_report(synced, view=0):
    return 9, number(8, view) + number(4, synced)


def view_ask(view):
    return 10, number(8, view)


def view_change(view, last, counters, commit, items):
    return 11, number(8, view) + number(8, last) + vector(counters) + number(4, len(items)) + number(4, commit) + entries(items)


def start_view(view, counters, commit, items):
    return 12, number(8, view) + vector(counters) + number(4, commit) + entries(items)


def vector_ask(nonce):
    return 13, number(8, nonce)


def vector_tell(nonce, counters):
    return 14, number(8, nonce) + vector(counters)


def rejoin_ask(nonce, counters):
    return 15, number(8, nonce) + vector(counters)


def rejoin_tell(nonce, view, counters):
    return 16, number(8, nonce) + number(8, view) + vector(counters)


def state_ask(nonce, view, counters):
    return 17, number(8, nonce) + number(8, view) + vector(counters)


def state_tell(nonce, view, counters, commit, items):
    return 18, number(8, nonce) + number(8, view) + vector(counters) + number(4, commit) + entries(items)


def frame(sender, receiver, message):
    kind, body = message
    return number(4, len(body) + 6) + bytes([1, kind]) + number(2, sender) + number(2, receiver) + body
