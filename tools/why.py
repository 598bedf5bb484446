#!/usr/bin/env python3
"""Says of each request why it was fast, slow or open, and after how many ticks.

    why.py SCENARIO STORY          a line for each request, in the order of sending
    why.py --table SCENARIO STORY  how many requests took how many ticks

STORY is a file with the story of the run, or - for standard input. Of a replica that is not in the quorum the first cause
that fits is named.
"""

import argparse
from collections import Counter

from reading import read_scenario, read_story

AWAY = {"down": "it was down", "rejoining": "it was rejoining", "view-change": "it was in a view change"}


class Request:
    """What a story has about a request, in order: parcels by kind, replies that reached proxies, and how it ended."""

    def __init__(self, name, command, tick):
        self.name, self.command, self.sent = name, command, tick
        self.asks, self.copies, self.answers, self.replies = [], [], [], []
        self.decided = None  # the record in which the first proxy decided, and its answer
        self.accepted = None  # the record and the event

    def replies_to(self, proxy, upto, replica=None):
        """The replies that reached a proxy up to a place of the story."""
        return [
            reply.parcel for reply in self.replies
            if reply.actor == proxy and reply.place <= upto and replica in (None, reply.parcel.sender)
        ]


def requests_of(story):
    found = {}
    for now in story.records:
        for event in now.events:
            if event.word == "send":
                found[event.id] = Request(event.id, event.command, now.tick)
            elif event.id in found:
                found[event.id].accepted = (now, event)
        if now.what == "deliver" and now.kind in ("fast-reply", "slow-reply"):
            found[now.parcel.id].replies.append(now)
        for p in now.sends:
            if p.kind in ("request", "timed", "answer"):
                request = found[p.id]
                {"request": request.asks, "timed": request.copies, "answer": request.answers}[p.kind].append(p)
        for answer in now.decides():
            request = found[answer.id]
            request.decided = request.decided or (now, answer)
    return found.values()


def met(arrival, name):
    """Why a copy of a request that arrived was not released in its turn, or nothing."""
    if arrival.what == "cut":
        return "its copy was cut"
    if arrival.before.mode != "normal":
        return AWAY[arrival.before.mode]
    after = arrival.after or arrival.before
    return "it came too late (its key is not above the log's last)" if name in after.ids("late") else None


def was_stamped_anew(request):
    """Whether a replica has the request with a deadline that no proxy gave it: then the leader did."""
    given = {int(copy.fields["deadline"]) for copy in request.copies}
    states = [arrival.after or arrival.before for copy in request.copies for arrival in copy.arrivals]
    return any(name == request.name and deadline not in given for state in states for deadline, name in state.early + state.log)


def difference(replica, reply, lead):
    """How a reply differs from the leader's, or nothing."""
    if reply.fields["view"] != lead.fields["view"]:
        return f"{replica} replied in view {reply.fields['view']}"
    if reply.kind == "fast-reply" and reply.fields["vector"] != lead.fields["vector"]:
        return f"{replica} has another crash vector ({reply.fields['vector']}; the leader {lead.fields['vector']})"
    if reply.kind == "fast-reply" and reply.fields["digest"] != lead.fields["digest"]:
        return f"{replica}'s log before it differs from the leader's"
    return None


def why_not(request, replica, proxy, upto, lead):
    """Why a replica is not in the quorum of this proxy at a place of the story: the first cause that fits."""
    replies = request.replies_to(proxy, upto, replica)
    later = request.replies_to(proxy, float("inf"), replica)[len(replies) :]
    in_view = [p for p in replies if lead and p.fields["view"] == lead.fields["view"]]
    if in_view and difference(replica, in_view[-1], lead):
        return difference(replica, in_view[-1], lead)
    if later:
        return f"{replica}: its reply came after the decision"
    if replies and lead:
        return difference(replica, replies[-1], lead)
    copies = [p for p in request.copies if p.to == replica and p.sender == proxy and p.place <= upto]
    arrivals = [arrival for p in copies for arrival in p.arrivals if arrival.place <= upto]
    if not copies:
        return f"{replica} was sent nothing"
    if not any(p.fates for p in copies):
        return f"{replica}: its copy was lost"
    if not arrivals:
        return f"{replica}: its copy is on the way"
    return f"{replica}: " + (met(arrivals[-1], request.name) or "its reply was lost or is on the way")


def quorum(scenario, request):
    """Who agreed when a proxy decided, and why the others were not in the quorum."""
    now, answer = request.decided
    view = now.parcel.fields["view"]
    replies = [p for p in request.replies_to(now.actor, now.place) if p.fields["view"] == view]
    leader = scenario.leader(int(view))
    lead = next((p for p in replies if p.sender == leader and p.kind == "fast-reply"), None)
    agree = {p.sender for p in replies if lead and not difference(p.sender, p, lead)}
    needed = scenario.f + (scenario.f + 1) // 2 + 1
    names = ", ".join(r for r in scenario.replicas if r in agree)
    if answer.fields["path"] == "fast":
        return f"{names} agree in view {view} ({needed} needed)"
    others = [why_not(request, r, now.actor, now.place, lead) for r in scenario.replicas if r not in agree]
    return f"a slow quorum came first ({names}; fast needs {needed}); {', '.join(others)}"


def undecided(scenario, request):
    """How far each ask of a request came that no proxy decided."""
    said, end = [], float("inf")
    for ask in request.asks:
        if not ask.came_whole():
            fate = "was lost" if not ask.fates else "was cut" if ask.arrivals else "is on the way"
            said.append(f"the request to {ask.to} at {ask.tick} {fate}")
            continue
        replies = request.replies_to(ask.to, end)
        leads = [p for p in replies if "answer" in p.fields]
        lead = leads[-1] if leads else None
        last = {p.sender: p for p in replies}
        heard = sorted(last)
        outside = [r for r in scenario.replicas if r not in last or lead and difference(r, last[r], lead)]
        others = [why_not(request, r, ask.to, end, lead) for r in outside]
        has = "an answer of a leader" if leads else "no answer of a leader"
        said.append(f"{ask.to} has {has} and replies of {', '.join(heard) or 'nobody'}" + (f" ({', '.join(others)})" if others else ""))
    return "; ".join(dict.fromkeys(said))


def explain(scenario, request):
    said = []
    if request.decided:
        said.append(quorum(scenario, request))
        for p in request.answers:
            if not p.came_whole():
                fate = "was lost" if not p.fates else "was cut" if p.arrivals else "did not arrive in time"
                said.append(f"an answer of tick {p.tick} {fate}")
    elif not request.accepted:
        said.append(undecided(scenario, request))
    if was_stamped_anew(request):
        said.append("the leader gave it a later deadline")
    again = [str(p.tick) for p in request.asks[1:]]
    if again:
        said.append(f"asked again at {', '.join(again[:3])}{' and later' * (len(again) > 3)}")
    if request.accepted:
        now, event = request.accepted
        head = f"{event.path} after {now.tick - request.sent} ticks"
    elif request.decided:
        now, answer = request.decided
        head = f"open, though {now.actor} decided it at {now.tick} ({answer.fields['path']})"
    else:
        head = "open"
    return f"{request.name} {request.command}: {head}: {'; '.join(said)}"


def table(requests):
    """Lines `ticks N requests M`, and how many are open."""
    took = Counter(r.accepted[0].tick - r.sent for r in requests if r.accepted)
    return [f"ticks {n} requests {took[n]}" for n in sorted(took)] + [f"open {sum(not r.accepted for r in requests)}"]


def main():
    words = argparse.ArgumentParser(description=__doc__, formatter_class=argparse.RawDescriptionHelpFormatter)
    words.add_argument("scenario")
    words.add_argument("story")
    words.add_argument("--table", action="store_true", help="how many requests took how many ticks")
    given = words.parse_args()
    scenario, requests = read_scenario(given.scenario), requests_of(read_story(given.story))
    for line in table(requests) if given.table else (explain(scenario, request) for request in requests):
        print(line)


if __name__ == "__main__":
    main()
