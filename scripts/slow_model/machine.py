"""The machine: one method for each command, which answers the records of its reply or refuses."""

from collections.abc import Sequence
from typing import NamedTuple

from .claims import mark_records
from .floors import kept_marks
from .histories import Check, Item, Line, Mark, Marker, Name, Recv, Send
from .planning import Computation
from .texts import MOST_BODY, MOST_ROUND, MOST_STATE, OF_FORGET, Records, refuse


class Round(NamedTuple):
    """A listed round: its checks, and what its channels hold, by sender, addressee and order."""
    number: int
    checks: Line
    channels: list[tuple[int, int, Name]]


class World(Computation):
    """A computation with links, the last round begun, listed rounds, and copies without order."""

    def __init__(self, n: int, mode: str) -> None:
        super().__init__(n)
        self.is_fifo = mode == "fifo"
        self.begun = 0
        self.listed: list[Round] = []
        self.copies: dict[tuple[int, int], list[Name]] = {}

    def link(self, p: int, q: int) -> Sequence[Item]:
        """What a link holds."""
        if self.is_fifo:
            return self.history.link(p, q)
        return self.copies.get((p, q), [])

    def open_round(self) -> int | None:
        """The greatest round on the tapes where it is not completed, or none."""
        newest = self.history.newest_round()
        return newest if newest and not self.history.is_completed(newest, self.is_fifo) else None

    def add_check(self, p: int, state: bytes, number: int | None) -> int:
        """Adds a check and answers its index."""
        self.history.tapes[p].append(Check(state, number))
        return self.history.checks(p)

    def list_completed(self) -> None:
        """Lists the newest round where the step before has completed it."""
        newest = self.history.newest_round()
        known = [listed.number for listed in self.listed]
        if newest <= self.last_gone or newest in known or self.open_round():
            return
        pairs = [(p, q) for p in range(self.n) for q in range(self.n) if p != q]
        channels = [
            (p, q, name) for p, q in pairs
            for name in self.history.channel(newest, p, q, self.is_fifo)
        ]
        self.listed.append(Round(newest, self.history.round_line(newest), channels))

    # Steps. The refusals stand in the order in which they are asked.

    def send(self, source: int, to: int, body: bytes) -> Records:
        """Sends a message."""
        self.known(source, to)
        refuse(2, len(body) > MOST_BODY)
        refuse(17, source == to)
        refuse(3, self.has_no_room(source, 1))
        self.history.tapes[source].append(Send(to, self.history.incarnations[source], body))
        name, _ = self.history.sent(source)[-1]
        if not self.is_fifo:
            self.copies.setdefault((source, to), []).append(name)
        return [("sent", *name)]

    def deliver(self, source: int, to: int, pick: int, state: bytes) -> Records:
        """Takes the item at a place of a link."""
        self.known(source, to)
        refuse(17, source == to)
        refuse(5, len(state) > MOST_STATE)
        items = self.link(source, to)
        refuse(18, not items)
        refuse(19, pick >= (1 if self.is_fifo else len(items)))
        item = items[pick]
        if isinstance(item, Marker):
            return self.take_marker(source, to, item.round, state)
        if not self.history.is_held(item):
            return [("stale", *item)]
        if item in self.history.received(to):
            return [("repeated", *item)]
        return self.take_message(to, item, state)

    def take_marker(self, source: int, to: int, number: int, state: bytes) -> Records:
        """Takes a marker; a process that has no check of its round takes that first."""
        forced = self.history.check_of_round(to, number) is None
        refuse(3, self.has_no_room(to, 1 + forced))
        if forced:
            self.add_check(to, state, number)
        self.history.tapes[to].append(Mark(source, number))
        self.list_completed()
        return [("marked", number, "forced" if forced else "closed")]

    def take_message(self, to: int, message: Name, state: bytes) -> Records:
        """A message of a later colour than its receiver's forces a check."""
        number = 0 if self.is_fifo else self.history.message_colour(message)
        forced = number > self.history.colour_of(to)
        refuse(3, self.has_no_room(to, 1 + forced))
        if forced:
            self.add_check(to, state, number)
        self.history.tapes[to].append(Recv(message))
        self.list_completed()
        return [("took", *message, number if forced else None)]

    def check(self, at: int, state: bytes) -> Records:
        """Takes a check."""
        self.known(at)
        refuse(5, len(state) > MOST_STATE)
        refuse(3, self.has_no_room(at, 1))
        return [("checked", at, self.add_check(at, state, None))]

    def begin(self, at: int, state: bytes) -> Records:
        """Begins the next round."""
        self.known(at)
        refuse(5, len(state) > MOST_STATE)
        refuse(20, self.open_round())
        refuse(23, self.begun == MOST_ROUND)
        refuse(3, self.has_no_room(at, 1))
        self.begun += 1
        check = self.add_check(at, state, self.begun)
        self.list_completed()
        return [("begun", at, check, self.begun)]

    def turn(self, at: int, state: bytes) -> Records:
        """Takes the check of the open round."""
        self.known(at)
        refuse(22, self.is_fifo)
        refuse(5, len(state) > MOST_STATE)
        number = self.open_round()
        refuse(21, not number or self.history.check_of_round(at, number))
        refuse(3, self.has_no_room(at, 1))
        check = self.add_check(at, state, number)
        self.list_completed()
        return [("turned", at, check, number)]

    def recover(self, *failed: int) -> Records:
        """Goes on from the line that is planned for these failed processes."""
        line, replays, records = self.restarted(failed)
        self.listed = [
            listed for listed in self.listed
            if all(check <= line[p] for p, check in enumerate(listed.checks))
        ]
        if not self.is_fifo:
            for name, to in replays:
                self.copies.setdefault((name.sender, to), []).append(name)
        return records

    def forget(self, number: int | None = None) -> Records:
        """Lets go what is before a listed round, or before the line where every process fails."""
        refuse(22, not self.is_fifo)
        refuse(20, self.open_round())
        records = self.let_go(self.live_line() if number is None else self.safe_line(number))
        self.last_gone = self.begun
        self.listed = [
            listed for listed in self.listed
            if all(check >= self.floors[p].check for p, check in enumerate(listed.checks))
        ]
        return [("forgot", number), *records]

    def safe_line(self, number: int) -> Line:
        """The checks of a listed round, all of which survive."""
        lines = [listed.checks for listed in self.listed if listed.number == number]
        refuse(48, not lines)
        refuse(49, not all(self.marks.allow(p, check) for p, check in enumerate(lines[0])))
        return lines[0]

    # Views.

    def save(self) -> Records:
        """The text of what is kept, by which the same machine begins anew."""
        refuse(22, not self.is_fifo)
        refuse(20, self.open_round())
        kept, marks = self.kept(), kept_marks(self.marks, self.floors)
        kept.floors = list(self.floors)
        records: Records = [*kept.records(OF_FORGET), *mark_records(kept, marks)]
        for number, checks, _ in self.listed:
            own = [kept.kept_choice(p, check) for p, check in enumerate(checks)]
            records.append(("round", number, *own))
        return [*records, ("saved", self.begun)]

    def rounds(self) -> Records:
        """The listed rounds."""
        records: Records = [("rounds", len(self.listed))]
        for number, checks, channels in self.listed:
            records.append(("round", number, *checks))
            records += [("channel", number, p, q, *name[1:]) for p, q, name in channels]
        return records

    def answer(self, *failed: int) -> Records:
        """The claim that `bundle` writes, in version 3 or 4, with the starts and the replays."""
        line, replays, [_, *told] = self.planned("planned", failed)
        (first, version, n), *claim, end = self.bundle(*failed)
        starts: Records = [("start", p, inc, state) for _, p, _, inc, state in told[:self.n]]
        kept = self.kept()
        sends = [kept.send_of(name) for name, _ in replays]
        again: Records = [
            ("replay", *kept.kept_name(name), to, place, body)
            for (name, to), (place, body) in zip(replays, sends, strict=True)
        ]
        return [(first, max(version, 3), n), *claim, *starts, *again, end]
