"""The hub: it keeps what all processes report, and has them recover together."""

from __future__ import annotations

import asyncio
import contextlib
import logging
import os
import socket
from collections.abc import Sequence
from typing import Any

from recline_report import wire

from .members import FINAL, FOR_NOW, Connection, Member, Refusal, Waiting
from .roster import Roster

logger = logging.getLogger("recline_hub")
HELLO_SECONDS = 10.0  # in which who connects has to say what for
LIMIT = 1 << 18  # bytes that are read ahead of a connection
MOST_BEHIND = 64 << 20  # bytes of the journal that may wait to be answered
SPARE = 64  # connections beside two for each process


class Hub:
    """Keeps the notes of all processes in a journal, and feeds a service of `recline collect`.

    `token` is what who connects over TCP has to have. `is_automatic`: a process that was started
    again is recovered without being asked for. `is_durable`: what is acknowledged survives a loss
    of power. `forget_every`: after so many notes the service lets go what no recovery needs.
    """

    def __init__(
        self, processes: int, journal: str, command: Sequence[str], *, token: bytes | None = None,
        within: float = 10.0, is_automatic: bool = False, is_durable: bool = False,
        forget_every: int | None = None,
    ) -> None:
        self._token, self._is_automatic, self._is_durable = token, is_automatic, is_durable
        self._roster = Roster(processes, journal, command, within, is_durable, forget_every)
        self._connections = 0

    async def run(self) -> None:
        """Keeps the service fed, for as long as the hub runs."""
        await self._roster.run()

    # Who connects.

    async def serve(self, reader: asyncio.StreamReader, writer: asyncio.StreamWriter) -> None:
        """Serves a connection to its end."""
        connection = Connection(writer)
        self._connections += 1
        try:
            if self._connections > SPARE + 2 * len(self._roster.members):
                raise Refusal("there are too many connections", FOR_NOW)
            made = writer.get_extra_info("socket")
            if made.family != socket.AF_UNIX:
                wire.tune(made._sock if hasattr(made, "_sock") else made)
            await self._greet(reader, connection)
        except Refusal as refusal:
            connection.tell("error", why=refusal.why, final=refusal.is_final)
        except (OSError, EOFError, ValueError, UnicodeDecodeError) as error:
            logger.info("a connection has ended: %r", error)
        except asyncio.CancelledError:
            pass
        finally:
            self._connections -= 1
            connection.close()

    async def _greet(self, reader: asyncio.StreamReader, connection: Connection) -> None:
        """Greets, and does what the answer asks for."""
        nonce = wire.new_nonce()
        connection.put(f"recline_hub,{wire.VERSION},{nonce}\n".encode())
        try:
            line = await asyncio.wait_for(_line(reader), HELLO_SECONDS)
        except asyncio.TimeoutError:
            raise Refusal("it was not said what is wanted") from None
        kind, *fields = line.decode("ascii").split(",")
        if kind == "report" and len(fields) == 6:
            *told, theirs, given = fields
        elif kind == "ask" and len(fields) > 2:
            theirs, given, *told = fields
        else:
            raise Refusal("a hub is asked to `report` or to `ask`")
        if not wire.is_proof(given, wire.proof(self._token, "asks", nonce, theirs, *told)):
            raise Refusal("the token is wrong, or there is none")
        own = wire.proof(self._token, "hub", theirs, nonce)
        if kind == "ask":
            answer = await self._answer(told)
            connection.tell("answer", proof=own, answer=answer)
            with contextlib.suppress(OSError):
                await connection.writer.drain()
        else:
            await self._report(reader, connection, own, told)

    # Who reports.

    async def _report(
        self, reader: asyncio.StreamReader, connection: Connection, proof: str, told: list[str]
    ) -> None:
        """Takes the notes of a process."""
        process, processes = wire.known_numbers(told[:2])
        life = told[2]
        if processes != len(self._roster.members):
            raise Refusal(f"there are {len(self._roster.members)} processes, and not {processes}")
        if process >= processes:
            raise Refusal(f"there is no process {process}")
        if not (life.isalnum() and len(life) <= 64):
            raise Refusal("no life is called so")
        member = self._roster.members[process]
        await self._roster.ready.wait()
        if told[3] == wire.NONE:
            await self._begin(reader, member, Waiting(life, connection, proof))
        else:
            self._go_on(member, connection, proof, life, wire.known_numbers(told[3:])[0])
        try:
            while not connection.is_over and await self._hear(reader, member, connection):
                pass
        finally:
            if member.connection is connection:
                member.connection = None

    async def _begin(
        self, reader: asyncio.StreamReader, member: Member, waiting: Waiting
    ) -> None:
        """Lets a life begin: the first one at once, another in the recovery that it waits for.

        What is sent to a process while nobody reports for it may be lost. So a life that takes the
        place of another begins in a recovery, after which all that is in transit is sent again.
        """
        while not member.has_begun and self._roster.hold is not None:
            await self._roster.until_changed(reader)
        if not member.has_begun or member.life == waiting.life and not member.kept:
            self._roster.welcome(member, waiting, self._roster.hold)
            return
        if member.connection or member.waiting:
            raise Refusal(f"process {member.process} reports already", FOR_NOW)
        is_awaited = member.life is None and not member.is_lost
        if not member.is_lost:
            self._roster.lose(member)
            await self._roster.tell_changed()
        member.waiting = waiting
        waiting.connection.tell("wait", proof=waiting.proof)
        if is_awaited or self._is_automatic:
            self._roster.start(self._roster.recover_quietly(member))
        try:
            while member.connection is not waiting.connection:
                await self._roster.until_changed(reader)
        finally:
            if member.waiting is waiting:
                member.waiting = None

    def _go_on(
        self, member: Member, connection: Connection, proof: str, life: str, recoveries: int
    ) -> None:
        """Lets a life go on that has reported before."""
        if recoveries > self._roster.recoveries:
            raise Refusal("this journal does not have all that it was told")
        if life != member.life or recoveries < self._roster.recoveries - 1:
            connection.tell("gone", why=f"process {member.process} counts as failed")
            raise EOFError("it counts as failed")
        if member.connection:
            member.connection.end()
        member.connection, member.is_ended = connection, False
        is_told = recoveries == self._roster.recoveries
        connection.tell(
            "welcome", proof=proof, kept=member.kept, hold=self._roster.hold,
            recovery=None if is_told else member.record.as_json(),
        )

    async def _hear(
        self, reader: asyncio.StreamReader, member: Member, connection: Connection
    ) -> bool:
        """Does what a line says, and answers whether more may come."""
        line = await _line(reader)
        kind, *fields = line.decode("ascii").split(",")
        if kind == "notes" and len(fields) == 2:
            first, size = wire.known_numbers(fields)
            if not 0 < size <= wire.MOST_BATCH:
                raise Refusal(f"{size} bytes of notes: 1 to {wire.MOST_BATCH} come together")
            await self._keep(member, connection, first, await reader.readexactly(size))
        elif kind == "held" and len(fields) == 2:
            recovery, total = wire.known_numbers(fields)
            is_all = total == member.kept and member.connection is connection
            if is_all and recovery == self._roster.hold:
                member.is_held = True
                await self._roster.tell_changed()
        elif line == b"bye":
            self._roster.add_life("ended", member)
            member.is_ended = True
            await self._roster.tell_changed()
            return False
        else:
            raise Refusal(f"no reporter says {line[:80].decode('ascii')!r}")
        return True

    async def _keep(
        self, member: Member, connection: Connection, first: int, text: bytes
    ) -> None:
        """Keeps those of some notes that are not kept yet, and says so."""
        if not member.are_notes(text):
            raise Refusal(f"these are not all notes of process {member.process}")
        await self._roster.feed.room(MOST_BEHIND)
        if member.connection is not connection or member.is_held:
            raise Refusal(f"process {member.process} does not report here now", FOR_NOW)
        count = text.count(b"\n")
        known = member.kept - first
        if known < 0:  # they were acknowledged and lost, as after a loss of power
            logger.error("process %d has told more than is kept", member.process)
            self._roster.lose(member)
            raise Refusal(f"notes are missing: {member.kept} are kept", FOR_NOW)
        if known < count:
            self._append(text.split(b"\n", known)[known] if known else text)
            member.kept += count - known
            self._roster.feed.poke()
            if self._is_durable:
                loop = asyncio.get_running_loop()
                await loop.run_in_executor(None, self._roster.journal.sync)
            self._roster.count(count - known)
        connection.put(b"kept,%d\n" % member.kept)
        await asyncio.sleep(0)  # so that others have their turn

    def _append(self, text: bytes) -> None:
        """Adds notes to the journal, or says why not."""
        try:
            self._roster.journal.append(text)
        except OSError as error:
            logger.error("the journal takes no more: %r", error)
            raise

    # Who asks.

    async def _answer(self, words: list[str]) -> dict[str, Any]:
        """The answer to a question, or to the wish for a recovery."""
        kind, *fields = words
        try:
            numbers = wire.known_numbers(fields)
        except ValueError:
            raise Refusal("processes are numbers") from None
        if kind == "status" and not numbers:
            return self._status()
        if kind == "recover" and numbers:
            within, *failed = numbers
            self._test(failed)
            return {"text": (await self._roster.recover(failed, within / 1_000)).decode("ascii")}
        if kind == "plan" or kind == "live" and not numbers:
            self._test(numbers)
            text = (await self._roster.feed.ask(",".join([kind, *fields]))).decode("ascii")
            if not text.startswith("planned,"):
                raise Refusal(text)
            return {"text": text}
        if kind == "forget" and not numbers:
            return {"text": (await self._roster.forget()).decode("ascii")}
        raise Refusal("a hub is asked for `status`, `plan`, `live`, `recover` or `forget`")

    def _test(self, failed: Sequence[int]) -> None:
        """Raises where there is no such process."""
        for p in failed:
            if p >= len(self._roster.members):
                raise Refusal(f"there is no process {p}")

    def _status(self) -> dict[str, Any]:
        """What there is."""
        roster = self._roster
        return {
            "processes": [
                {"process": it.process, "state": it.state(), "incarnation": it.record.incarnation,
                 "kept": it.kept}
                for it in roster.members
            ],
            "recoveries": roster.recoveries, "recovering": roster.hold is not None,
            "ready": roster.ready.is_set(), "connections": self._connections,
            "journal": os.path.abspath(roster.journal.path), "bytes": roster.journal.end,
            "service": {"pid": roster.feed.pid, "starts": roster.feed.starts,
                        "answered": roster.feed.answered},
        }


async def _line(reader: asyncio.StreamReader) -> bytes:
    """A line, without its line feed."""
    line = await reader.readline()
    if not line.endswith(b"\n"):
        raise EOFError(f"it ended with {len(line)} bytes of a line")
    if len(line) > wire.MOST_LINE:
        raise Refusal(f"a line of {len(line)} bytes: {wire.MOST_LINE} at most")
    return line[:-1]
