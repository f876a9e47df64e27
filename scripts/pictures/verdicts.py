"""A check text in sentences: what is claimed, what each entry says, and what is wrong with it.

Where the beginning of the history was let go, all is told by the numbers of the whole.
"""

from collections.abc import Iterator
from dataclasses import dataclass

from slow_model.claims import Claim
from slow_model.histories import Check, Entry, Floor, Name, Recv, Send
from slow_model.texts import NOW

from . import answers, sentences, words
from .texts import Choice

MOST_NAMED = 6  # so many messages are listed


@dataclass(frozen=True)
class Tape:
    """What is asked of a tape: where its checks and its sends stand, and its receipts.

    `first` is its least choice, and `bar` the check that the process is barred at, or NOW.
    """

    first: int
    checks: tuple[int, ...]
    sends: dict[Name, int]
    receipts: tuple[tuple[int, Name], ...]
    surviving: tuple[Choice, ...]
    bar: Choice

    def place(self, choice: Choice) -> float:
        """How many events stand before a choice that the tape has."""
        if choice == NOW:
            return NOW
        return (0, *self.checks)[int(choice) - self.first]

    def sent(self, name: Name, choice: Choice) -> bool:
        """Whether a message of this process is sent before a choice."""
        return name in self.sends and self.sends[name] <= self.place(choice)

    def received(self, choice: Choice) -> list[Name]:
        """The messages that are received before a choice."""
        return [name for place, name in self.receipts if place <= self.place(choice)]

    def lower(self, choice: Choice) -> Choice:
        """The latest surviving choice before one."""
        return max(it for it in self.surviving if it < choice)


def tapes_of(claim: Claim) -> list[Tape]:
    """The tapes of a claim's history."""
    found = []
    history = claim.history
    for p, events in enumerate(history.tapes):
        placed = list(enumerate(events, 1))
        checks = tuple(place for place, it in placed if isinstance(it, Check))
        places = [place for place, it in placed if isinstance(it, Send)]
        sends = {name: place for (name, _), place in zip(history.sent(p), places)}
        receipts = tuple((place, it.message) for place, it in placed if isinstance(it, Recv))
        surviving = tuple(history.surviving(claim.marks, claim.failed, p))
        bar = claim.marks.bars.get(p, NOW)
        found.append(Tape(history.first(p), checks, sends, receipts, surviving, bar))
    return found


def explanation(claim: Claim, verdict: str) -> Iterator[str]:
    """A claim in paragraphs and the entries of a list, with the verdict of the program."""
    kind, *fields = verdict.strip().split(",")
    code = fields[2] if fields else ""
    fault = int(fields[0]) if fields and fields[0] != "-" else None
    yield from claimed(claim)
    if code == "BadShape":
        yield words.capital(f"{misshapen(claim)}.")
    else:
        tapes = tapes_of(claim)
        ceilings = [tape.surviving[-1] for tape in tapes]
        is_of_answer = code in answers.CODES
        yield from entries(claim, tapes, ceilings, None if is_of_answer else fault, code)
        if kind == "valid" or is_of_answer:
            yield valid(claim)
            if claim.starts:
                yield from answers.explanation(claim, fault, code)
        elif code == "LineDiffers":
            yield words.capital(f"{other_line(claim, ceilings)}.")
        elif code == "NotConsistent":
            yield words.capital(f"{inconsistent(claim, tapes)}.")
    yield f"The verdict: {verdict.strip()}"
    if fault is not None and code not in answers.CODES:
        yield f"It counts the entries from 0: its entry {fault} is number {fault + 1} of this list."


def entries(
    claim: Claim, tapes: list[Tape], ceilings: list[Choice], fault: int | None, code: str
) -> Iterator[str]:
    """The entries as a list, up to the first that is wrong. It lowers the ceilings as they go."""
    if claim.entries:
        yield "What the entries say, one after another, and whether it is so:"
    wide = len(str(len(claim.entries))) + 2
    for number, entry in enumerate(claim.entries):
        said = sentences.orphan(
            entry.at, entry.choice, entry.message, ceilings[entry.message.sender]
        )
        item = f"{number + 1:>{wide}}. {said}"
        if number == fault:
            yield f"{item} That is wrong: {wrong(entry, code, tapes, ceilings)}."
            yield from unread(claim, number)
            return
        ceilings[entry.at] = fall = tapes[entry.at].lower(entry.choice)
        yield f"{item} So it is, and it falls to {words.choice_of(fall)}."


# What is claimed.


def claimed(claim: Claim) -> Iterator[str]:
    """What was let go, who failed, what is damaged, who is barred, and the line."""
    gone = [let_go(p, floor) for p, floor in enumerate(claim.history.floors) if any(floor)]
    if gone:
        yield words.capital(f"{words.listed(gone)}. All numbers are those of the whole history.")
    failed = sorted(claim.failed)
    parts = [f"{words.processes(failed)} failed" if failed else "nobody failed"]
    by_process: dict[int, list[int]] = {}
    for p, check in sorted(claim.marks.damaged):
        by_process.setdefault(p, []).append(check)
    for p, checks in by_process.items():
        are = words.are(len(checks))
        parts.append(f"{words.checks(checks)} of {words.process(p)} {are} damaged")
    for p, check in sorted(claim.marks.bars.items()):
        parts.append(f"{words.process(p)} is barred at {words.choice_of(check)}")
    stands = [
        f"{words.process(p)} {words.at_choice(choice)}" for p, choice in enumerate(claim.line)
    ]
    line = f"The latest line that can be gone on from is then {words.listed(stands)}."
    yield f"The claim: {words.listed(parts)}. {line}"


def let_go(p: int, floor: Floor) -> str:
    """What is let go of a process."""
    parts = []
    if floor.sends:
        count = "message" if floor.sends == 1 else f"{floor.sends:,} messages"
        parts.append(f"its first {count}")
    if floor.check:
        parts.append(f"what was before its checkpoint {floor.check}")
    return f"{words.process(p)} has let go {words.listed(parts)}"


# What is wrong.


def wrong(entry: Entry, name: str, tapes: list[Tape], ceilings: list[Choice]) -> str:
    """What is wrong with an entry."""
    tape, sender = tapes[entry.at], entry.message.sender
    if name == "NotTop":
        return not_top(entry, tape, ceilings[entry.at])
    if name == "NotReceived":
        names = [words.message(it) for it in tape.received(entry.choice)]
        some = words.listed([*names[:MOST_NAMED], *(["others"] if len(names) > MOST_NAMED else [])])
        got = f"what it has received is {some}" if names else "it has received nothing"
        before = "" if entry.choice == NOW else f"before {words.choice_of(entry.choice)} "
        has_not = f"{words.process(entry.at)} has not received {words.message(entry.message)}"
        return f"{before}{has_not}; {got}"
    left = ceilings[sender]
    before = " by now"
    if left != NOW:
        before = f" before {words.choice_of(left)}, from which it can still go on"
    return (
        f"{words.process(sender)} has sent that message{before}, so that nothing speaks against "
        f"{words.process(entry.at)} having received it"
    )


def not_top(entry: Entry, tape: Tape, ceiling: Choice) -> str:
    """That an entry passes over another choice than the latest one that is left."""
    place = words.choice_of(ceiling)
    left = f"the latest place that {words.process(entry.at)} can still go on from is {place}"
    if entry.choice < ceiling and entry.choice in tape.surviving:
        return f"{left}, and that has to be given up before {words.choice_of(entry.choice)}"
    if entry.choice in tape.surviving:
        gone = f"{words.choice_of(entry.choice)} is given up already"
    elif entry.choice > tape.bar:
        bar = f"{words.process(entry.at)} is barred at {words.choice_of(tape.bar)}"
        gone = f"{bar}, and {words.choice_of(entry.choice)} is later than that"
    elif entry.choice == NOW:
        gone = f"{words.process(entry.at)} failed, and where it stands is lost"
    else:
        gone = f"{words.choice_of(entry.choice)} is damaged, and never one to go on from"
    return f"{gone}; {left}"


def unread(claim: Claim, number: int) -> Iterator[str]:
    """That the entries after the first wrong one were not looked at."""
    rest = len(claim.entries) - number - 1
    if rest:
        them = "The entry after it was" if rest == 1 else f"The {rest:,} entries after it were"
        yield f"{them} not looked at."


def other_line(claim: Claim, ceilings: list[Choice]) -> str:
    """Where the entries lead to another line."""
    parts = [
        f"{words.process(p)} to {words.choice_of(left)}, "
        f"where the claim has {words.choice_of(choice)}"
        for p, (left, choice) in enumerate(zip(ceilings, claim.line))
        if left != choice
    ]
    if not claim.entries:
        return f"without an entry the line is another one: {words.listed(parts)}"
    return f"so the entries lead to another line: {words.listed(parts)}"


def inconsistent(claim: Claim, tapes: list[Tape]) -> str:
    """A message that the claimed line receives and does not send."""
    for p, choice in enumerate(claim.line):
        for name in tapes[p].received(choice):
            if not tapes[name.sender].sent(name, claim.line[name.sender]):
                receipt = (
                    f"{words.process(p)}, {words.at_choice(choice)}, "
                    f"has received {words.message(name)}"
                )
                ends = words.choice_of(claim.line[name.sender])
                none = f"{words.process(name.sender)} has not sent it before {ends}"
                return f"that line cannot be gone on from: {receipt}, and {none}"
    return "a message is received before that line that is not sent before it"


def misshapen(claim: Claim) -> str:
    """What the claim names and the history does not have."""
    history, count = claim.history, len(claim.history.tapes)
    if len(claim.line) != count:
        return (
            f"the claimed line has {words.counted(len(claim.line), 'choice')}, and the history has "
            f"{words.counted(count, 'process', 'processes')}"
        )
    checks = [history.checks(p) for p in history.processes()]
    named = [("said to be damaged", p, check) for p, check in sorted(claim.marks.damaged)]
    named += [("said to be a bar", p, check) for p, check in sorted(claim.marks.bars.items())]
    named += [("in the line", p, choice) for p, choice in enumerate(claim.line)]
    named += [("passed over in an entry", entry.at, entry.choice) for entry in claim.entries]
    for what, p, choice in named:
        if choice != NOW and choice > checks[p]:
            has = words.counted(checks[p], "checkpoint")
            return f"{words.choice_at(p, choice)} is {what}, and that process has {has}"
    return "it names what the history does not have"


def valid(claim: Claim) -> str:
    """That nothing is wrong."""
    if not claim.entries:
        return (
            "No entry is needed: the line is at the latest places that can be used, and it "
            "receives no message that is not sent before it. So it is the latest line."
        )
    return (
        "So the entries lead to the claimed line, and that receives no message that is not sent "
        "before it. So it is the latest line: each later place that can be used is in the list, "
        "with the orphan message that speaks against it."
    )
