"""The folder of a job of MPI: the notes that its ranks write, and what they read when they go on.

    notes.LIFE.RANK      records of `recline collect`, as recline_mpi.c writes them
    payload.LIFE.RANK    the payload of the messages that the rank sent in that life
    keep.LIFE.RANK       8 bytes: how far that payload may be let go
    resume.RANK          where the rank goes on, and which messages it sends again

A life is the time from one start of the job to its end or failure; they are numbered from 0.
"""

from __future__ import annotations

import contextlib
import fcntl
import os
import pathlib
import re
import struct
import time
from collections.abc import Iterator
from typing import NamedTuple

from mpi_planner import Plan, first_record

BODY = struct.Struct(">IQQQiQ")  # life, place, length, communicator, tag, digest
SECONDS_BETWEEN = 0.05  # two tries for a lock
NAME = re.compile(r"(notes|payload|keep)\.(\d+)\.(\d+)", re.ASCII)


class StillRuns(Exception):
    """A rank of a life that has ended by a failure has not ended."""


class Sent(NamedTuple):
    """A message that was noted: whom it was sent to, and where its payload is."""

    incarnation: int
    to: int
    body: str

    def life(self) -> int:
        """The life in which it was sent."""
        life: int = BODY.unpack(bytes.fromhex(self.body))[0]
        return life

    def begin(self) -> int:
        """The place of its payload in the file of that life."""
        begin: int = BODY.unpack(bytes.fromhex(self.body))[1]
        return begin


class Checkpoint(NamedTuple):
    """A checkpoint that was noted: how many messages were sent before it, and its file."""

    sends: int
    path: str


class Rank:
    """What the notes of a rank say of it, up to now."""

    def __init__(self) -> None:
        self.sent: list[Sent] = []
        self.checkpoints = [Checkpoint(0, "")]
        self.notes = 0

    def take(self, record: str) -> None:
        """A note."""
        word, *fields = record.split(",")
        self.notes += 1
        if word == "send":
            self.sent.append(Sent(int(fields[1]), int(fields[2]), fields[3]))
        elif word == "check":
            sends, _, path = os.fsdecode(bytes.fromhex(fields[2])).partition(" ")
            self.checkpoints.append(Checkpoint(int(sends), path))

    def goes_back(self, check: int) -> None:
        """What came after a check is cut."""
        del self.checkpoints[check + 1 :]
        del self.sent[self.checkpoints[check].sends :]


def has_lock(file: int) -> bool:
    """Tries to get the lock on a file; answers whether it has."""
    try:
        fcntl.flock(file, fcntl.LOCK_EX | fcntl.LOCK_NB)
    except BlockingIOError:
        return False
    return True


def records_in(data: bytes) -> tuple[list[str], int]:
    """The whole lines of some bytes, and how many bytes these are. Half a line is none."""
    end = data.rfind(b"\n") + 1
    return data[:end].decode("ascii").splitlines(), end


class Folder:
    """A folder, for a job of so many ranks."""

    def __init__(self, path: pathlib.Path, ranks: int) -> None:
        self.path, self.ranks = path, [Rank() for _ in range(ranks)]
        path.mkdir(mode=0o700, parents=True, exist_ok=True)
        self.begin_life(0)

    def _files(self) -> Iterator[tuple[str, int, int, pathlib.Path]]:
        """Its files of ranks: the kind, the life, the rank."""
        for path in self.path.iterdir():
            if found := NAME.fullmatch(path.name):
                yield found[1], int(found[2]), int(found[3]), path

    def lives(self) -> int:
        """How many lives have left notes: the highest of them and one more."""
        return 1 + max((life for kind, life, _, _ in self._files() if kind == "notes"), default=-1)

    def new_notes(self) -> list[str]:
        """What the ranks have noted in this life since they were asked last, and is whole."""
        records = []
        for number, rank in enumerate(self.ranks):
            with contextlib.suppress(FileNotFoundError):
                with open(self.path / f"notes.{self.life}.{number}", "rb") as file:
                    file.seek(self._read[number])
                    lines, size = records_in(file.read())
                self._read[number] += size
                for line in lines:
                    rank.take(line)
                records += lines
        return records

    def wait_for_ends(self, seconds: float) -> None:
        """Waits for the ends of all ranks of this life: each holds a lock on its notes until then.

        A rank may live on for some time after its mpirun was killed, and no note may come after
        the plan.
        """
        last = time.monotonic() + seconds
        for number in range(len(self.ranks)):
            with contextlib.suppress(FileNotFoundError):
                with open(self.path / f"notes.{self.life}.{number}", "rb") as file:
                    while not has_lock(file.fileno()):
                        if time.monotonic() > last:
                            raise StillRuns(f"rank {number} of the job that failed still runs")
                        time.sleep(SECONDS_BETWEEN)

    def next_life(self, plan: Plan) -> None:
        """The job has failed, and goes on from this plan: what came after it is cut."""
        for rank, check in zip(self.ranks, plan.checks, strict=True):
            rank.goes_back(check)
        self.begin_life(self.life + 1)

    def begin_life(self, life: int) -> None:
        """The notes of that life are read from their beginning."""
        self.life, self._read = life, [0] * len(self.ranks)

    def write_resume(self, plan: Plan) -> None:
        """Writes for each rank where it goes on. The life is the next one by now."""
        for number, rank in enumerate(self.ranks):
            checkpoint = rank.checkpoints[plan.checks[number]]
            again = [rank.sent[it.number] for it in plan.replays if it.sender == number]
            lines = [
                f"ranks {len(self.ranks)}",
                f"life {self.life}",
                f"incarnation {plan.incarnations[number]}",
                f"sends {checkpoint.sends}",
                f"checkpoint {checkpoint.path}",
                *(f"again {it.to} {it.body}" for it in again),
                "end",
            ]
            self._put(f"resume.{number}", "".join(f"{line}\n" for line in lines))

    def _put(self, name: str, text: str) -> None:
        """Writes a file: it is there as a whole or not at all."""
        new = self.path / f"{name}.new"
        with open(new, "wb") as file:
            file.write(os.fsencode(text))
            file.flush()
            os.fsync(file.fileno())
        new.replace(self.path / name)

    def let_go(self, plan: Plan) -> list[str]:
        """Lets go what no later line needs: payload, and the checkpoints whose paths it answers."""
        passed = []
        for number, (rank, check) in enumerate(zip(self.ranks, plan.checks, strict=True)):
            first = rank.checkpoints[check].sends
            needed = [rank.sent[it.number] for it in plan.replays if it.sender == number]
            self._let_payload_go(number, [*needed, *rank.sent[first:]])
            for at in range(check):
                if rank.checkpoints[at].path:
                    passed.append(rank.checkpoints[at].path)
                    rank.checkpoints[at] = rank.checkpoints[at]._replace(path="")
        return passed

    def _let_payload_go(self, number: int, needed: list[Sent]) -> None:
        """Lets go the payload of a rank but for these messages, and what it has not noted yet."""
        lives = {sent.life() for sent in needed}
        for life in range(self.life):
            if life not in lives:
                with contextlib.suppress(FileNotFoundError):
                    (self.path / f"payload.{life}.{number}").unlink()
        begins = [sent.begin() for sent in needed if sent.life() == self.life]
        own = self.ranks[number].sent
        if not begins and own and own[-1].life() == self.life:
            begins = [own[-1].begin()]
        if begins:
            with contextlib.suppress(FileNotFoundError):
                with open(self.path / f"keep.{self.life}.{number}", "r+b") as file:
                    file.write(struct.pack("=Q", min(begins)))


def journal(path: pathlib.Path, ranks: int, is_whole: bool = False) -> Iterator[str]:
    """The input of `recline collect` for all lives, up to the last recovery or as a whole."""
    folder = Folder(path, ranks)
    everyone = ",".join(["recover", *map(str, range(ranks))])
    last = folder.lives() - 1
    yield first_record(ranks)
    for life in range(last + is_whole):
        folder.begin_life(life)
        yield from folder.new_notes()
        if life < last:
            yield everyone
