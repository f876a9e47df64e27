"""Judges generations of workers by the plain definitions."""

import collections
import struct
import zlib

import worker_rules as rules
from worker_records import Difference, Generation, Plan, name_of

INITIAL_DAMAGE, NO_SUCH_CHECK, ALREADY_DAMAGED, MARKED = 7, 4, 8, 100


def is_kept(check: int, choice: int | None) -> bool:
    """Whether a check stays where its process goes on from this choice; None is where it stands."""
    return choice is None or check <= choice


def data(field: str) -> bytes:
    """Bytes as a worker puts them down: their length and themselves."""
    return struct.pack(">Q", len(field) // 2) + bytes.fromhex(field)


def answers(history: rules.History, p: int, opening: int) -> bytes:
    """What the calls of a worker must have answered, by its events, as the worker puts it down."""
    tape = history.tapes[p]
    events = tape.events
    number = sum(event[0] == "send" for event in events[:opening])
    index = sum(event[0] == "check" for event in events[:opening])
    found: list[bytes] = []
    forced = b""
    for event in events[opening:]:
        kind = event[0]
        if kind == "send":
            numbers = struct.pack(">IIII", int(event[1]), p, int(event[2]), number)
            found += [b"s", numbers, data(event[3])]
            number += 1
        elif kind == "recv":
            name = name_of(event[1:])
            body = history.tapes[name[0]].sends[name[2]][3]
            found += [b"r", struct.pack(">IIII", name[0], *name), data(body)]
        elif kind == "mark":
            found += [b"m", struct.pack(">II", int(event[1]), int(event[2])), forced]
            forced = b""
        else:
            index += 1
            if event[2] == "-":
                found += [b"c", struct.pack(">I", index), data(event[1])]
            elif p == 0:
                found += [b"b", struct.pack(">I", int(event[2])), data(event[1])]
            else:
                forced = b"f" + data(event[1])
    return b"".join(found)


class Judge:
    """Judges the generations of one program, one after another."""

    def __init__(self) -> None:
        self.counts: collections.Counter[str] = collections.Counter()
        self.opening: list[list[str]] = []
        self.opened: list[int] = []
        self.incarnations: list[int] = []
        self.damaged: set[tuple[int, int]] = set()
        self.floor = 0
        # The history and the plan that the next generation goes on from.
        self.last: tuple[rules.History, Plan] | None = None
        self.lengths: list[int] = []

    def judge(self, now: Generation) -> None:
        """Judges a generation; raises a difference where something is not as it must be."""
        if now.number == 0:
            self.open_lineage(now.n)
        else:
            self.go_on(now)
        own = rules.History(now.own)
        self.opened = [len(it) for it in self.opening]
        self.judge_opening(now, own)
        rules.must_fit(own)
        self.judge_calls(now, own)
        self.judge_collected(now, own)
        self.judge_rounds(own)
        self.judge_live(now, own)
        self.judge_gathered(now, own)
        self.count(now, own)

    def open_lineage(self, n: int) -> None:
        """A fleet has done nothing."""
        self.opening = [[] for _ in range(n)]
        self.incarnations = [0] * n
        self.damaged = set()
        self.floor = 0

    def go_on(self, now: Generation) -> None:
        """A generation goes on from the line that was planned of the last one."""
        if self.last is None:
            raise Difference("a restart before the first generation")
        own, plan = self.last
        if now.restarted != plan:
            raise Difference("the restart does not go on from the line that was planned")
        self.opening = rules.cut(own, self.lengths, plan.line)
        for p, it in enumerate(plan.line):
            self.incarnations[p] += it is not None
        self.damaged = {(p, k) for p, k in self.damaged if is_kept(k, plan.line[p])}
        self.counts["restarts"] += 1

    def judge_opening(self, now: Generation, own: rules.History) -> None:
        """Each tape begins with the opening one, and new messages have the present incarnation."""
        if now.own.incarnations != self.incarnations:
            raise Difference(f"incarnations {now.own.incarnations} and not {self.incarnations}")
        for p, tape in enumerate(own.tapes):
            if tape.records[: self.opened[p]] != self.opening[p]:
                raise Difference(f"the tape of worker {p} does not begin with the opening one")
            for place, _addressee, inc, _body in tape.sends:
                if place >= self.opened[p] and inc != self.incarnations[p]:
                    raise Difference(f"worker {p} sends under incarnation {inc}")

    def judge_calls(self, now: Generation, own: rules.History) -> None:
        """Each worker was answered what its tape says, and got the bodies that were sent."""
        for p in range(now.n):
            log = now.logs[p]
            if log.faults:
                raise Difference(f"worker {p} had {log.faults} wrong answers")
            if log.digest != zlib.crc32(answers(own, p, self.opened[p])):
                raise Difference(f"worker {p} was not answered what its tape says")
            if self.opened[p] + log.reported > len(own.tapes[p].events):
                raise Difference(f"worker {p} reported more than it did")
            self.counts["full"] += log.full
            self.counts["nothing"] += log.nothing

    def judge_collected(self, now: Generation, own: rules.History) -> None:
        """The collector has the opening tapes, and then what it took of the reports."""
        taken, planned, kept, faults = now.watch
        if now.collected.incarnations != now.own.incarnations:
            raise Difference("the collector has other incarnations")
        for p, records in enumerate(now.collected.records):
            most = self.opened[p] + now.logs[p].reported
            is_prefix = records == own.tapes[p].records[: len(records)]
            if not is_prefix or not self.opened[p] <= len(records) <= most:
                raise Difference(f"of worker {p} something was collected that it did not report")
            taken -= len(records) - self.opened[p]
        if taken:
            raise Difference(f"the collector took {taken} more reports than it has")
        if faults or kept != planned:
            raise Difference(f"{planned} live plans, {kept} kept their lines, {faults} faults")
        self.counts["live"] += planned

    def judge_rounds(self, own: rules.History) -> None:
        """Rounds are numbered on after the last one that the lead began."""
        lead = list(own.tapes[0].round_checks)
        if lead != list(range(self.floor + 1, self.floor + 1 + len(lead))):
            raise Difference(f"rounds {lead} after round {self.floor}")
        self.floor += len(lead)

    def judge_live(self, now: Generation, own: rules.History) -> None:
        """The plans on the way are the latest lines of what was collected by then."""
        everyone = set(range(now.n))
        for live in now.lives:
            for p, events in enumerate(live.events):
                if not self.opened[p] <= events <= len(now.collected.records[p]):
                    raise Difference(f"a live plan is of {events} events of worker {p}")
            rules.must_be_planned(own, live.events, everyone, self.damaged, live.plan)
            self.counts["judged"] += 1

    def judge_gathered(self, now: Generation, own: rules.History) -> None:
        """What was gathered is what a worker did, or reported; plan and rounds are right."""
        self.lengths = own.whole()
        for p in now.failed:
            self.lengths[p] = self.opened[p] + now.logs[p].reported
        if now.gathered.incarnations != now.own.incarnations:
            raise Difference("what was gathered has other incarnations")
        for p, records in enumerate(now.gathered.records):
            if records != own.tapes[p].records[: self.lengths[p]]:
                raise Difference(f"what was gathered of worker {p} is not what it did or reported")
        self.judge_damage(now, own)
        if not now.is_right:
            raise Difference("the checker refuses the plan")
        rules.must_be_planned(own, self.lengths, now.failed, self.damaged, now.plan)
        front = rules.front_of(own, self.lengths, now.plan.line)
        for number in own.tapes[0].round_checks:
            if rules.is_completed(own, self.lengths, number):
                self.judge_round(own, number, front)
        self.last = own, now.plan

    def judge_round(self, own: rules.History, number: int, front: list[int]) -> None:
        """A completed round is a snapshot, and no line is earlier where its checks survive."""
        rules.must_be_snapshot(own, number)
        places = [tape.round_checks[number] + 1 for tape in own.tapes]
        checks = [(p, tape.fronts.index(places[p])) for p, tape in enumerate(own.tapes)]
        if not self.damaged.intersection(checks) and any(a < b for a, b in zip(front, places)):
            raise Difference(f"the line is earlier than round {number}")
        self.counts["rounds"] += 1

    def judge_damage(self, now: Generation, own: rules.History) -> None:
        """Marks are refused where they must be."""
        for p, check, code in now.damages:
            checks = sum(front <= self.lengths[p] for front in own.tapes[p].fronts) - 1
            wanted = MARKED
            if check == 0:
                wanted = INITIAL_DAMAGE
            elif check > checks:
                wanted = NO_SUCH_CHECK
            elif (p, check) in self.damaged:
                wanted = ALREADY_DAMAGED
            if code != wanted:
                told = f"damage of check {check} of worker {p} is answered {code}"
                raise Difference(f"{told}, wanted {wanted}")
            if code == MARKED:
                self.damaged.add((p, check))
                self.counts["damages"] += 1

    def count(self, now: Generation, own: rules.History) -> None:
        """Counts what was judged."""
        self.counts["generations"] += 1
        self.counts["lineages"] += now.number == 0
        self.counts["failures"] += len(now.failed)
        self.counts["entries"] += len(now.plan.passed)
        self.counts["replays"] += len(now.plan.replays)
        self.counts["events"] += sum(own.whole()) - sum(self.opened)
        for p, tape in enumerate(own.tapes):
            opened = self.opened[p]
            self.counts["messages"] += sum(place >= opened for place in tape.receipts.values())
            self.counts["sends"] += sum(it[0] >= opened for it in tape.sends)
