"""The definitions of histories, lines, certificates, transit and rounds, over plain lists.

They are written anew from the definitions, and know nothing of the code that they judge: an orphan
is looked for among the events, and a recovery line is what is left where each receiver of an orphan
falls below the choice that has received it.
"""

import bisect

from worker_records import Choice, Difference, Name, Passed, Plan, Texts, name_of

# Of each process its surviving choices, each with the events before it, the latest last.
Choices = list[list[tuple[int, Choice]]]
# By two processes, the names and the rounds of markers on a link.
Links = dict[tuple[int, int], list[Name | int]]

NOT_SENT = 1 << 60


class Tape:
    """The events of a process, and where they stand."""

    def __init__(self, incarnation: int, records: list[str]) -> None:
        self.incarnation = incarnation
        self.records = records
        self.events = [record.split(",") for record in records]
        # Of each number: place, addressee, incarnation, body.
        self.sends: list[tuple[int, int, int, str]] = []
        self.receipts: dict[Name, int] = {}  # place of the Recv of a name
        self.fronts = [0]  # how many events lie before each check and with it
        self.round_checks: dict[int, int] = {}  # place of the Check of a round
        # Place of the first Mark of a sender and a round.
        self.marks: dict[tuple[int, int], int] = {}
        for place, event in enumerate(self.events):
            self.put_down(place, event)

    def put_down(self, place: int, event: list[str]) -> None:
        """Puts down where an event stands."""
        kind = event[0]
        if kind == "send":
            self.sends.append((place, int(event[1]), int(event[2]), event[3]))
        elif kind == "recv":
            name = name_of(event[1:])
            if name in self.receipts:
                raise Difference(f"message {name} is received twice")
            self.receipts[name] = place
        elif kind == "check":
            self.fronts.append(place + 1)
            if event[2] != "-":
                if int(event[2]) in self.round_checks:
                    raise Difference(f"two checks of round {event[2]}")
                self.round_checks[int(event[2])] = place
        else:
            self.marks.setdefault((int(event[1]), int(event[2])), place)


class History:
    """The tapes of all processes, and who received what of whom."""

    def __init__(self, texts: Texts) -> None:
        pairs = zip(texts.incarnations, texts.records)
        self.tapes = [Tape(incarnation, records) for incarnation, records in pairs]
        self.n = len(self.tapes)
        # By sender: the place of the Send, the receiver, the place of the Recv.
        self.received: list[list[tuple[int, int, int]]] = [[] for _ in self.tapes]
        for q, tape in enumerate(self.tapes):
            for (p, inc, number), place in tape.receipts.items():
                self.received[p].append((self.sent_at(p, inc, number), q, place))
        for of_one in self.received:
            of_one.sort()

    def sent_at(self, p: int, inc: int, number: int) -> int:
        """The place of the Send of a name on its sender's tape."""
        sends = self.tapes[p].sends
        if number < len(sends) and sends[number][2] == inc:
            return sends[number][0]
        return NOT_SENT

    def whole(self) -> list[int]:
        """How many events each tape has."""
        return [len(tape.events) for tape in self.tapes]


def links(history: History) -> tuple[Links, Links]:
    """What each process sent to each other one and received of it, in order: names and markers."""
    sent: Links = {}
    received: Links = {}
    for p, tape in enumerate(history.tapes):
        number = 0
        for event in tape.events:
            if event[0] == "send":
                sent.setdefault((p, int(event[1])), []).append((p, int(event[2]), number))
                number += 1
            elif event[0] == "recv":
                name = name_of(event[1:])
                received.setdefault((p, name[0]), []).append(name)
            elif event[0] == "mark":
                received.setdefault((p, int(event[1])), []).append(int(event[2]))
            elif event[2] != "-":
                for q in range(history.n):
                    if q != p:
                        sent.setdefault((p, q), []).append(int(event[2]))
    return sent, received


def must_fit(history: History) -> None:
    """Links that keep their order can lead to this history."""
    sent, received = links(history)
    for (q, p), taken in received.items():
        if sent.get((p, q), [])[: len(taken)] != taken:
            raise Difference(f"what {q} received of {p} does not begin what {p} sent to it")
    for p, tape in enumerate(history.tapes):
        for (_, number), place in tape.marks.items():
            if tape.round_checks.get(number, NOT_SENT) > place:
                raise Difference(f"worker {p} has a mark of round {number} before its check")


def surviving(
    history: History, lengths: list[int], failed: set[int], damaged: set[tuple[int, int]]
) -> Choices:
    """Of each process its surviving choices, each with the events before it, the latest last."""
    found: Choices = []
    for p, tape in enumerate(history.tapes):
        count = bisect.bisect_right(tape.fronts, lengths[p])
        choices: list[tuple[int, Choice]] = [
            (tape.fronts[k], k) for k in range(count) if (p, k) not in damaged
        ]
        if p not in failed:
            choices.append((lengths[p], None))
        found.append(choices)
    return found


def latest(history: History, choices: Choices) -> tuple[list[Choice], list[int]]:
    """The recovery line: from the latest choices on, each receiver of an orphan falls below it."""
    at = [len(it) - 1 for it in choices]
    front = [it[-1][0] for it in choices]
    fallen = list(range(history.n))
    while fallen:
        p = fallen.pop()
        of_one = history.received[p]
        for _, q, place in of_one[bisect.bisect_left(of_one, (front[p],)) :]:
            if place < front[q]:
                while choices[q][at[q]][0] > place:
                    at[q] -= 1
                front[q] = choices[q][at[q]][0]
                fallen.append(q)
    return [choices[p][at[p]][1] for p in range(history.n)], front


def front_of(history: History, lengths: list[int], line: list[Choice]) -> list[int]:
    """How many events lie before each choice of a line."""
    fronts = [tape.fronts for tape in history.tapes]
    return [lengths[p] if it is None else fronts[p][it] for p, it in enumerate(line)]


def is_consistent(history: History, front: list[int]) -> bool:
    """Whether no message is received before the line that is not sent before it."""
    for p, of_one in enumerate(history.received):
        for _, q, place in of_one[bisect.bisect_left(of_one, (front[p],)) :]:
            if place < front[q]:
                return False
    return True


def in_transit(history: History, front: list[int]) -> list[Name]:
    """What is sent before the line and not received before it, by sender, then number."""
    found = []
    for p, tape in enumerate(history.tapes):
        for number, (place, to, inc, _) in enumerate(tape.sends):
            if place >= front[p]:
                break
            name = (p, inc, number)
            if history.tapes[to].receipts.get(name, NOT_SENT) >= front[to]:
                found.append(name)
    return found


def must_lead(
    history: History, choices: Choices, passed: list[Passed], line: list[Choice]
) -> None:
    """The entries lead from the latest surviving choices to the line, each by an orphan."""
    at = [len(it) - 1 for it in choices]
    for k, (q, choice, name) in enumerate(passed):
        front, ceiling = choices[q][at[q]]
        if choice != ceiling:
            raise Difference(f"entry {k} is not the present ceiling")
        if history.tapes[q].receipts.get(name, NOT_SENT) >= front:
            raise Difference(f"the message of entry {k} is not received before its choice")
        if history.sent_at(*name) < choices[name[0]][at[name[0]]][0]:
            raise Difference(f"the message of entry {k} is sent before the ceiling of its sender")
        if at[q] == 0:
            raise Difference(f"entry {k} goes below the initial state")
        at[q] -= 1
    if [choices[p][at[p]][1] for p in range(history.n)] != line:
        raise Difference("the entries do not lead to the line")


def must_be_planned(
    history: History,
    lengths: list[int],
    failed: set[int],
    damaged: set[tuple[int, int]],
    plan: Plan,
) -> None:
    """The plan is the latest line, with entries that lead to it and what is in transit there."""
    choices = surviving(history, lengths, failed, damaged)
    line, front = latest(history, choices)
    if plan.line != line:
        raise Difference(f"the line is {plan.line}, the latest one {line}")
    if not is_consistent(history, front):
        raise Difference("the line has an orphan")
    if plan.replays != in_transit(history, front):
        raise Difference("the replays are not what is in transit at the line")
    must_lead(history, choices, plan.passed, line)
    if not 1 <= plan.sweeps <= len(plan.passed) + 1:
        raise Difference(f"{plan.sweeps} sweeps for {len(plan.passed)} entries")


def is_completed(history: History, lengths: list[int], number: int) -> bool:
    """Whether each tape has its check of a round, and after it a mark from each other process."""
    for q, tape in enumerate(history.tapes):
        check = tape.round_checks.get(number, NOT_SENT)
        if check >= lengths[q]:
            return False
        for p in range(history.n):
            if p != q and not check < tape.marks.get((p, number), NOT_SENT) < lengths[q]:
                return False
    return True


def channel(tape: Tape, sender: int, number: int) -> list[Name]:
    """What is received of a sender after the check of a round and before the sender's mark."""
    check = tape.round_checks[number]
    mark = tape.marks.get((sender, number), NOT_SENT)
    receipts = tape.receipts.items()
    return [name for name, place in receipts if name[0] == sender and check < place < mark]


def must_be_snapshot(history: History, number: int) -> None:
    """The checks of a completed round are consistent, and its channels what is in transit there."""
    front = [tape.round_checks[number] + 1 for tape in history.tapes]
    if not is_consistent(history, front):
        raise Difference(f"round {number} has an orphan")
    there: dict[tuple[int, int], list[Name]] = {}
    for name in in_transit(history, front):
        there.setdefault((name[0], history.tapes[name[0]].sends[name[2]][1]), []).append(name)
    for q, tape in enumerate(history.tapes):
        for p in range(history.n):
            if p != q and channel(tape, p, number) != there.get((p, q), []):
                raise Difference(f"round {number} has another channel from {p} to {q}")


def cut(history: History, lengths: list[int], line: list[Choice]) -> list[list[str]]:
    """The tapes after a restart: cut at the line, without marks and rounds."""
    front = front_of(history, lengths, line)
    tapes = []
    for p, tape in enumerate(history.tapes):
        records = []
        for event, record in zip(tape.events[: front[p]], tape.records):
            if event[0] == "check":
                records.append(f"check,{event[1]},-")
            elif event[0] != "mark":
                records.append(record)
        tapes.append(records)
    return tapes
