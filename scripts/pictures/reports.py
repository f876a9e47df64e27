"""Reading reports and the answers to them, as a script in an order that arrows go forward in.

Processes report in any order between them: a receipt may stand before its send. Up to each recovery
a send is put before its receipts here, and the check of a round before the markers of its process.
Each process keeps its order, and what has no order so far stays as it came.
"""

import re
from collections import defaultdict, deque
from collections.abc import Iterator
from heapq import heappop, heappush
from typing import NamedTuple

from .program import FAULT, Fault
from .texts import Command, Fields, Reply, Script

Record = tuple[Fields, Reply]
Key = tuple[int, ...]  # a message by its name, or a process and a round
STALE = "47"


class Step(NamedTuple):
    """A command with its reply: on whose line it is, what it gives, and what it comes after."""

    command: Command
    reply: Reply
    process: int
    gives: Key | None = None
    needs: Key | None = None


def are_in(text: bytes) -> bool:
    """Whether a text is one of reports: it has a `reports` record, and no `world` stands first."""
    has_world = text.lstrip(b"\r\n").startswith(b"world,")
    return not has_world and re.search(rb"^reports,", text, re.MULTILINE) is not None


def read(text: bytes, output: bytes, with_plan: bool) -> tuple[Script, list[Reply]]:
    """What was done, as a script with its replies. The numbers of records are those of the text.

    With a plan it ends at the last one that no recovery comes after, as if that were a recovery.
    """
    records = list(zip(lines_of(text), answers_of(output), strict=True))
    first = next((fields for fields, reply in records if not reply), None)
    if first is None:
        raise Fault(FAULT, "no `reports` record of the input is taken")
    processes = int(first[2])
    if with_plan:
        records = up_to_plan(records, processes)
    steps: list[Step] = []
    phase: list[Step] = []
    for number, (fields, reply) in enumerate(records, 1):
        if reply and reply[0][0] == "recovered":
            recovery = Step(Command(number, fields[0], fields[1:]), reply, -1)
            steps += [*forward(phase), recovery]
            phase = []
        else:
            phase += steps_of(number, fields, reply)
    steps += forward(phase)
    return Script(processes, None, [it.command for it in steps]), [it.reply for it in steps]


def lines_of(text: bytes) -> Iterator[Fields]:
    """The fields of each record, also of one that is none; empty lines are not counted."""
    *ends, rest = text.split(b"\n")
    for line in [*(end.removesuffix(b"\r") for end in ends), rest]:
        if line:
            yield line.decode("ascii", "replace").split(",")


def answers_of(output: bytes) -> Iterator[Reply]:
    """The records of each answer: an empty line ends it."""
    reply: Reply = []
    for line in output.decode("ascii").splitlines():
        if line:
            reply.append(line.split(","))
        else:
            yield reply
            reply = []


def up_to_plan(records: list[Record], processes: int) -> list[Record]:
    """The records up to the last plan, which becomes a recovery; all where a recovery is later."""
    for place in range(len(records) - 1, -1, -1):
        (kind, *failed), reply = records[place]
        if reply and reply[0][0] == "recovered":
            break
        if reply and reply[0][0] == "planned":
            failed = [str(p) for p in range(processes)] if kind == "live" else failed
            counts, *others = reply
            return [*records[:place], ([kind, *failed], [["recovered", *counts[1:]], *others])]
    return records


def steps_of(number: int, fields: Fields, reply: Reply) -> Iterator[Step]:
    """What a record did, with the fields of a script's command; nothing of one that asks."""
    kind, *values = fields
    answer, *said = reply[0] if reply else [""]
    if answer == "sent":
        p, _, to, body = values
        name = tuple(map(int, said))
        yield Step(Command(number, kind, [p, to, body]), reply, int(p), gives=name)
    elif answer == "took":
        p, _, sender, *_ = values
        name = tuple(map(int, said[:3]))
        yield Step(Command(number, kind, [sender, p]), reply, int(p), needs=name)
    elif answer == "checked":
        p, _, state, of_round = values
        command = Command(number, kind, [p, state])
        if of_round == "-":
            yield Step(command, reply, int(p))
        else:
            yield Step(command, [[*reply[0], of_round]], int(p), gives=(int(p), int(of_round)))
    elif answer == "marked":
        p, _, sender, of_round = values
        needs = int(sender), int(of_round)
        yield Step(Command(number, kind, [sender, p]), reply, int(p), needs=needs)
    elif answer in ("damaged", "barred"):
        yield Step(Command(number, kind, values), reply, int(values[0]))
    elif answer in ("refused", "fault"):
        why = "faulty" if answer == "fault" else "late" if said[0] == STALE else "unfit"
        yield Step(Command(number, kind, values), [[why]], -1)


def forward(steps: list[Step]) -> Iterator[Step]:
    """The steps, each after what it needs if that is among them, and else as they came.

    Where some wait for each other, the one that came first waits no longer.
    """
    queues: defaultdict[int, deque[int]] = defaultdict(deque)
    for place, step in enumerate(steps):
        queues[step.process].append(place)
    missing = {step.gives for step in steps if step.gives}
    waiting: defaultdict[Key, list[int]] = defaultdict(list)
    ready: list[int] = []
    is_told = [False] * len(steps)

    def come(process: int) -> None:
        """Has the next step of a process be ready, or wait."""
        if queue := queues[process]:
            needs = steps[queue[0]].needs
            if needs and needs in missing:
                waiting[needs].append(queue[0])
            else:
                heappush(ready, queue[0])

    for process in list(queues):
        come(process)
    oldest = 0
    for _ in steps:
        while is_told[oldest]:
            oldest += 1
        place = heappop(ready) if ready else oldest
        step, is_told[place] = steps[place], True
        yield step
        if step.gives in missing:
            missing.discard(step.gives)
            for other in waiting.pop(step.gives, []):
                if not is_told[other]:
                    heappush(ready, other)
        queues[step.process].popleft()
        come(step.process)
