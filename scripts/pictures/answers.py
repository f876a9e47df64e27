"""The rest of a claim in sentences: where each process goes on, and what is sent again and why."""

from collections.abc import Iterator

from slow_model.claims import Claim, Replay, Start
from slow_model.histories import Name, Send
from slow_model.texts import NOW

from . import words

OF_STARTS = ("StateDiffers", "IncarnationDiffers")
OF_REPLAYS = ("NotInTransit", "ReplayDiffers", "ReplayRepeated", "ReplayMissing")
CODES = (*OF_STARTS, *OF_REPLAYS)


def explanation(claim: Claim, fault: int | None, code: str) -> Iterator[str]:
    """Starts and replays up to the first that is wrong, with what would be right in its place."""
    yield "Where each process goes on:"
    for p, (start, right) in enumerate(zip(claim.starts, claim.right_starts())):
        yield f"  {goes_on(claim, p, start)}"
        if code in OF_STARTS and p == fault:
            yield f"That is wrong: {wrong_start(code, start, right)}."
            return
    sends = sends_of(claim)
    right_ones = [name for name, _ in claim.history.in_transit(claim.line)]
    yield "What is sent again:" if claim.replays else "Nothing is sent again."
    for i, replay in enumerate(claim.replays):
        if code in OF_REPLAYS and i == fault:
            said = words.capital(words.message(replay.message))
            yield f"  {said}. That is wrong: {wrong_replay(claim, i, code, sends)}."
            return
        yield f"  {reason(claim, sends[replay.message])}"
    if code == "ReplayMissing":
        given = {replay.message for replay in claim.replays}
        missing = next(name for name in right_ones if name not in given)
        yield f"One is missing. {reason(claim, sends[missing])}"
    else:
        yield "So it is: that is all that is in transit at the line, and the answer is right."


def sends_of(claim: Claim) -> dict[Name, Replay]:
    """Each message on a tape, as it would be sent again."""
    found = {}
    for p, tape in enumerate(claim.history.tapes):
        sends = [(place, event) for place, event in enumerate(tape) if isinstance(event, Send)]
        for (name, to), (place, send) in zip(claim.history.sent(p), sends):
            found[name] = Replay(name, to, place, send.body)
    return found


def at_place(claim: Claim, place: int) -> str:
    """The place of a send, which is told of what is kept alone."""
    return f"at place {place}" + (" of what is kept" if claim.history.floors else "")


def goes_on(claim: Claim, p: int, start: Start) -> str:
    """What the claim says of a process."""
    under = f"under incarnation {start.incarnation}"
    if claim.line[p] == NOW:
        return f"{words.first_process(p)} stays where it stands, {under}, with {state(start)}."
    goes = f"{words.first_process(p)} goes back to {words.choice_of(claim.line[p])}"
    return f"{goes} and goes on from {state(start)}, {under}."


def state(start: Start) -> str:
    """The stored state that a process goes on from."""
    if start.state is None:
        return "no stored state"
    return f"the state {start.state.hex()}" if start.state else "the empty state"


def wrong_start(code: str, start: Start, right: Start) -> str:
    """What is wrong with a start, and what would be right."""
    if code == "StateDiffers":
        return f"the claim has {state(start)}, and right is {state(right)}"
    return f"the claim has incarnation {start.incarnation}, and right is {right.incarnation}"


def reason(claim: Claim, replay: Replay) -> str:
    """Why a message is sent again."""
    sender, to = replay.message.sender, replay.to
    start, end = claim.line[sender], claim.line[to]
    before = "" if start == NOW else f" before {words.choice_of(start)},"
    sent = f"{words.process(sender)} sent it{before} {at_place(claim, replay.place)}"
    goes = "stays where it stands" if end == NOW else f"goes back to {words.choice_of(end)}"
    there = "" if end == NOW else " there"
    got = f"{words.process(to)}, which {goes}, has not received it{there}"
    return f"{words.capital(words.message(replay.message))} is sent again: {sent}; {got}."


def wrong_replay(claim: Claim, i: int, code: str, sends: dict[Name, Replay]) -> str:
    """What is wrong with a replay, and what would be right."""
    replay, right = claim.replays[i], sends.get(claim.replays[i].message)
    sender = replay.message.sender
    ends = words.choice_of(claim.line[sender])
    has_not = f"{words.process(sender)} has not sent it before {ends}, and nothing is sent again"
    if right is None:
        return has_not
    if code == "NotInTransit":
        if right.message in claim.history.received(right.to, claim.line[right.to]):
            place = words.choice_of(claim.line[right.to])
            got = f"{words.process(right.to)} has received it before {place}"
            return f"{got}, and would receive it twice"
        return has_not
    if code == "ReplayDiffers":
        pairs = [
            (f"goes to {words.process(replay.to)}", f"to {words.process(right.to)}"),
            (f"is sent {at_place(claim, replay.place)}", f"at place {right.place}"),
            (f"has the body {replay.body.hex() or '-'}", f"the body {right.body.hex() or '-'}"),
        ]
        said, would_be = next(pair for pair, one, other in zip(pairs, replay[1:], right[1:])
                              if one != other)
        return f"the claim says that it {said}, and right is {would_be}"
    last = words.message(claim.replays[i - 1].message)
    return f"it stands after {last}, and each stands there once, by sender and then number"
