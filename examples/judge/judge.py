#!/usr/bin/env python3
"""Judges an answer to a recovery, given as a check text, from its history alone.

    examples/judge/judge.py < examples/check/answer_valid.in

It does what README.md says under 'How to judge a certificate without the planner', and shares
nothing with recline. The text has to be one that `recline check` can read.
"""

import math
import sys
from collections.abc import Iterator

WRONG = {
    16: "BadShape", 11: "NotTop", 12: "NotReceived", 13: "NotOrphan", 14: "LineDiffers",
    15: "NotConsistent", 41: "StateDiffers", 42: "IncarnationDiffers", 43: "NotInTransit",
    44: "ReplayDiffers", 45: "ReplayRepeated", 46: "ReplayMissing",
}
NOW = math.inf  # where a process stands: the choice after its checkpoints 1, 2, ..; 0 is the first
Name = tuple[int, int, int]  # a message: its sender, its number among the sends, its incarnation


def choice_of(field: str) -> float:
    """A choice."""
    return NOW if field == "now" else int(field)


def name_of(sender: str, incarnation: str, number: str) -> Name:
    """A message's name."""
    return int(sender), int(number), int(incarnation)


def faults(text: str) -> Iterator[tuple[object, int]]:
    """What is wrong with an answer, each with its entry and number: the first is the verdict."""
    (_, _, n), *records = [line.split(",") for line in text.splitlines() if line]
    incarnations: list[int] = []
    ends: dict[tuple[int, float], int] = {}  # how many events stand before a choice of a process
    states: dict[tuple[int, float], str] = {}
    sends: dict[Name, tuple[int, int, str]] = {}  # the addressee, the place and the body
    receipts: dict[tuple[int, Name], int] = {}  # by process and message, the first place
    claim: dict[str, list[list[str]]] = {kind: [] for kind in ("damage", "bar", "pass", "replay")}
    for kind, *it in records:
        if kind == "tape":
            p, sent, checks, place = len(incarnations), 0, 0, 0
            incarnations.append(int(it[1]))
            ends[p, 0], ends[p, NOW], states[p, 0], states[p, NOW] = 0, 0, "", "-"
        elif kind not in ("send", "recv", "check", "mark"):
            claim.setdefault(kind, []).append(it)
        else:
            if kind == "send":
                sends[p, sent, int(it[1])] = int(it[0]), place, it[2].lower()
                sent += 1
            elif kind == "recv":
                receipts.setdefault((p, name_of(*it)), place)
            elif kind == "check":
                checks += 1
                ends[p, checks], states[p, checks] = place + 1, it[0].lower()
            place += 1
            ends[p, NOW] = place

    line = [choice_of(field) for field in claim["line"][0]]
    passes = [(int(p), choice_of(choice), name_of(*it)) for p, choice, *it in claim["pass"]]
    failed = set(map(int, claim["failed"][0]))
    damaged = {(int(p), int(check)) for p, check in claim["damage"]}
    bars = {int(p): int(check) for p, check in claim["bar"]}
    named = [*enumerate(line), *((p, choice) for p, choice, _ in passes), *damaged, *bars.items()]
    if len(line) != int(n) or not all(it in ends for it in named):
        yield "-", 16
    surviving: list[list[float]] = [[] for _ in line]
    for p, choice in sorted(ends):
        is_lost = (p, choice) in damaged or choice == NOW and p in failed
        if not is_lost and choice <= bars.get(p, NOW):
            surviving[p].append(choice)

    def is_sent(name: Name, choice: float) -> bool:
        """Whether a message is sent before a choice of its sender."""
        return name in sends and sends[name][1] < ends[name[0], choice]

    def is_received(p: int, name: Name, choice: float) -> bool:
        """Whether a message is received before a choice of a process."""
        return receipts.get((p, name), NOW) < ends[p, choice]

    for entry, (p, choice, name) in enumerate(passes):
        if choice != surviving[p][-1]:
            yield entry, 11
        if not is_received(p, name, choice):
            yield entry, 12
        if is_sent(name, surviving[name[0]][-1]):
            yield entry, 13
        surviving[p].pop()
    if line != [left[-1] for left in surviving]:
        yield "-", 14
    if any(is_received(p, it, line[p]) and not is_sent(it, line[it[0]]) for p, it in receipts):
        yield "-", 15
    if "start" not in claim:
        return

    for p, (_, incarnation, state) in enumerate(claim["start"]):
        if state.lower() != states[p, line[p]]:
            yield p, 41
        if int(incarnation) != incarnations[p] + (line[p] != NOW):
            yield p, 42
    in_transit = {name: send for name, send in sends.items()
                  if is_sent(name, line[name[0]])
                  and not is_received(send[0], name, line[send[0]])}
    last: Name = -1, 0, 0
    for entry, (*it, to, at, body) in enumerate(claim["replay"]):
        name = name_of(*it)
        if name not in in_transit:
            yield entry, 43
        if (int(to), int(at), body.lower()) != in_transit[name]:
            yield entry, 44
        if name <= last:
            yield entry, 45
        last = name
    if len(claim["replay"]) < len(in_transit):
        yield "-", 46


def verdict(text: str) -> str:
    """The verdict on a check text."""
    for entry, number in faults(text):
        return f"invalid,{entry},{number},{WRONG[number]}"
    return "valid"


if __name__ == "__main__":
    told = verdict(sys.stdin.read())
    print(told)
    sys.exit(told != "valid")
