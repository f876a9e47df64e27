"""`recline collect` for a job of MPI: it takes the notes of all ranks, and plans from them."""

from __future__ import annotations

import queue
import subprocess
import threading
from collections.abc import Sequence
from typing import IO, NamedTuple

AT_ONCE = 512  # records that are sent before their answers are read
MOST_OF_VERSION_1 = 64  # ranks


class PlannerError(Exception):
    """The planner has ended, or refuses a note."""


class Replay(NamedTuple):
    """The name of a message in transit at a line."""

    sender: int
    incarnation: int
    number: int


class Plan(NamedTuple):
    """What a line says of each rank, and the messages in transit there."""

    checks: list[int]
    incarnations: list[int]
    replays: list[Replay]
    entries: int  # of its certificate


def plan_in(answer: Sequence[str]) -> Plan:
    """The plan that an answer has. Every rank failed, so each goes on from a check."""
    plan = Plan([], [], [], int(answer[0].split(",")[2]))
    for record in answer[1:]:
        word, *fields = record.split(",")
        if word == "line":
            plan.checks.append(int(fields[1]))
            plan.incarnations.append(int(fields[2]))
        elif word == "replay":
            plan.replays.append(Replay(*map(int, fields)))
    return plan


def first_record(ranks: int) -> str:
    """The first record of an input of `recline collect`."""
    return f"reports,{1 if ranks <= MOST_OF_VERSION_1 else 2},{ranks}"


class Planner:
    """A `recline collect` that runs."""

    def __init__(self, command: Sequence[str], ranks: int) -> None:
        self._process = subprocess.Popen(
            command, stdin=subprocess.PIPE, stdout=subprocess.PIPE, start_new_session=True
        )
        self._answers: queue.SimpleQueue[list[str] | None] = queue.SimpleQueue()
        self._reader = threading.Thread(target=self._read, daemon=True)
        self._reader.start()
        self.ranks = ranks
        self.take([first_record(ranks)])

    def __enter__(self) -> Planner:
        """It ends with its block."""
        return self

    def __exit__(self, *_: object) -> None:
        """Ends it."""
        for pipe in self._pipes():
            pipe.close()
        self._process.kill()
        self._process.wait()

    def _pipes(self) -> list[IO[bytes]]:
        """Its standard input."""
        return [self._process.stdin] if self._process.stdin else []

    def _read(self) -> None:
        """Parts what it writes into answers, an empty line after each; None at the end."""
        answer: list[str] = []
        assert self._process.stdout
        for line in self._process.stdout:
            text = line.decode("ascii").rstrip("\n")
            if text:
                answer.append(text)
            else:
                self._answers.put(answer)
                answer = []
        self._answers.put(None)

    def _tell(self, records: Sequence[str]) -> None:
        """Sends records."""
        assert self._process.stdin
        try:
            self._process.stdin.write("".join(f"{it}\n" for it in records).encode("ascii"))
            self._process.stdin.flush()
        except OSError as error:
            raise PlannerError(f"the planner takes no more: {error.strerror}") from None

    def _answer_to(self, record: str) -> list[str]:
        """The next answer, which is no refusal."""
        answer = self._answers.get()
        if answer is None:
            raise PlannerError(f"the planner has ended, with status {self._process.wait()}")
        if answer and answer[0].startswith(("refused,", "fault,")):
            raise PlannerError(f"the planner answers {answer[0]} to {record}")
        return answer

    def take(self, records: Sequence[str]) -> None:
        """Notes, each of which has to be taken."""
        for begin in range(0, len(records), AT_ONCE):
            some = records[begin : begin + AT_ONCE]
            self._tell(some)
            for record in some:
                self._answer_to(record)

    def ask(self, question: str) -> Plan:
        """A plan: of `live`, or of a recovery."""
        self._tell([question])
        return plan_in(self._answer_to(question))

    def history(self) -> list[str]:
        """The history text of what is collected."""
        self._tell(["history"])
        return self._answer_to("history")

    def live(self) -> Plan:
        """The line that stays consistent whatever comes later."""
        return self.ask("live")

    def recover(self) -> Plan:
        """The line of all ranks, from which they go on."""
        return self.ask(",".join(["recover", *map(str, range(self.ranks))]))
