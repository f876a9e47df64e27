"""What a reporter's calls and its thread share: names, notes that wait, and what holds them."""

from __future__ import annotations

import collections
import dataclasses
import logging
import threading
from collections.abc import Callable

from recline import MessageName

from . import wire
from .batches import Batch, Bell
from .wire import HubError, Recovery

logger = logging.getLogger("recline_report")
_new = tuple.__new__  # makes a named tuple without a call between


class WentBack(Exception):
    """The process goes back: nothing of it is noted until `Reporter.take_recovery` is called."""

    def __init__(self, recovery: Recovery) -> None:
        super().__init__(recovery)
        self.recovery = recovery

    def __str__(self) -> str:
        return f"process {self.recovery.process} goes back to its check {self.recovery.choice}"


class TakenAsFailed(HubError):
    """The hub has counted this process as failed, and another may have its place."""


class NoteRefused(HubError):
    """The service refused a note, so that its history is not what this process did."""


class Over(HubError):
    """The reporter is closed, or belongs to the process that forked this one."""


class Desk:
    """What a process has noted, and what stands in the way of its calls.

    `Reporter` says what each call does. The other methods are for its thread.
    """

    def __init__(self, process: int, processes: int, room: int, start: Recovery | None) -> None:
        if not 1 <= processes <= wire.MOST_PROCESSES or not 0 <= process < processes:
            raise ValueError(f"process {process} of {processes}: there may be 1 to 256")
        self.process, self.processes = process, processes
        self.life = wire.new_nonce()
        self._room = room
        self._lock = threading.Lock()
        self._change = threading.Condition(self._lock)
        self._bell = Bell()  # rung for the thread
        self._flag = Bell()  # rings while a recovery waits to be taken, and at the end
        # What the calls look at: one word says whether anything stands in their way.
        self._gate = True
        self._over: BaseException | None = None
        self._holding = False
        self._went_back: Recovery | None = None
        self._pending: Recovery | None = None
        self._refused: NoteRefused | None = None
        self._has_said_full = False
        # Notes: those that no batch has yet, and the batches that are not kept yet.
        self._notes: list[str] = []
        self._batches: collections.deque[Batch] = collections.deque()
        self._used = self._taken = self._kept = 0
        self._is_idle = self._is_closing = self._says_bye = False
        self._waiters = 0
        self._start: Recovery | None = None
        self._awaited: set[MessageName] = set()
        self._heads: dict[int, str] = {}
        if start is not None:
            self._begin(start)

    # Where the process stands.

    def _begin(self, recovery: Recovery) -> None:
        """Goes on from a record of the line."""
        self._incarnation, self.recoveries = recovery.incarnation, recovery.number
        self._sends, self._checks = recovery.sends, recovery.checks
        who = f"{self.process},{recovery.incarnation},"
        self._receives, self._stores = f"recv,{who}", f"check,{who}"
        others = [p for p in range(self.processes) if p != self.process]
        self._heads = {p: f"send,{who}{p}," for p in others}
        self._know(recovery)
        self._notes, self._used, self._taken, self._kept = [], 0, 0, 0
        self._batches.clear()
        if self._start is None:
            self._start = recovery
        self._set_gate()

    def _know(self, recovery: Recovery) -> None:
        """Learns which messages there are, and which still come."""
        self.recoveries, self._runs, self._sent = recovery.number, recovery.runs, recovery.sent
        self._awaited = {letter.name for letter in recovery.awaited}

    @property
    def start(self) -> Recovery:
        """Where the process began to report."""
        assert self._start is not None
        return self._start

    @property
    def incarnation(self) -> int:
        """How often the process has gone back."""
        return self._incarnation

    # The calls of the process.

    def send(self, to: int, body: bytes = b"") -> MessageName:
        """Notes a message to another process, before it leaves, and names it.

        `body`: 64 bytes at most, the message or what says how to make it again.
        """
        if to not in self._heads:
            raise ValueError(f"process {self.process} sends nothing to process {to}")
        if len(body) > wire.MOST_BODY:
            raise ValueError(f"{len(body)} bytes are noted with a message, and 64 may be")
        tail = body.hex() + "\n"
        with self._lock:
            if self._gate:
                self._pass()
            number = self._sends
            self._sends = number + 1
            self._note(self._heads[to] + tail)
            return _new(MessageName, (self.process, self._incarnation, number))

    def received(self, name: MessageName) -> bool:
        """Notes that a message came, before the process uses it.

        Not where the process has to drop it: a message that was cut by a recovery, or that came
        already. Then the answer is no, and nothing is noted.
        """
        sender, incarnation, number = name
        if sender not in self._heads:
            raise ValueError(f"process {self.process} receives nothing of process {sender}")
        if not 0 <= number <= wire.MOST_NUMBER or not 0 <= incarnation <= wire.MOST_INCARNATION:
            raise ValueError(f"no message is {name}")
        tail = "%d,%d,%d\n" % (sender, incarnation, number)
        with self._lock:
            if self._gate:
                self._pass()
            if self.recoveries and not self._is_new(MessageName(sender, incarnation, number)):
                return False
            self._note(self._receives + tail)
            return True

    def check(self, state: bytes = b"") -> int:
        """Notes that the process has stored a state, 4,096 bytes at most, and numbers the check."""
        if len(state) > wire.MOST_STATE:
            raise ValueError(f"a state of {len(state)} bytes: {wire.MOST_STATE} at most")
        tail = state.hex() + ",-\n"
        with self._lock:
            if self._gate:
                self._pass()
            self._checks += 1
            self._note(self._stores + tail)
            return self._checks

    def would_wait(self) -> bool:
        """Whether `send`, `received` and `check` would wait now, or raise."""
        return self._gate

    def _note(self, note: str) -> None:
        """Takes a note for the thread."""
        self._notes.append(note)
        self._used += len(note)
        if self._used >= self._room:
            self._gate = True
        if self._is_idle:
            self._ring()

    def _ring(self) -> None:
        """Wakes the thread."""
        self._is_idle = False
        self._bell.ring()

    def _is_new(self, name: MessageName) -> bool:
        """Whether a message counts at the last line, and has not come."""
        runs = self._runs[name.sender]
        run = next((run for run in reversed(runs) if run.first <= name.number), None)
        if run is None or run.incarnation != name.incarnation:
            return False
        if name.number >= self._sent[name.sender]:
            return True
        if name not in self._awaited:
            return False
        self._awaited.discard(name)
        return True

    def _set_gate(self) -> None:
        """Whether anything stands in the way of the calls."""
        self._gate = bool(
            self._over or self._went_back or self._holding or self._used >= self._room
        )

    def _pass(self) -> None:
        """Waits until nothing stands in the way, or raises what does."""
        while True:
            if self._over is not None:
                raise self._over
            if self._went_back is not None:
                raise WentBack(self._went_back)
            self._set_gate()
            if not self._gate:
                return
            if self._used >= self._room and not self._has_said_full:
                self._has_said_full = True
                logger.warning(
                    "process %d waits: %d bytes of its notes wait to be kept", self.process,
                    self._used,
                )
            self._wait_for(lambda: not self._holding and self._used < self._room, None)

    def _wait_for(self, is_so: Callable[[], bool], timeout: float | None) -> bool:
        """Waits until something is so, the process goes back, or the reporter is over."""
        self._waiters += 1
        if self._is_idle:
            self._ring()
        try:
            return self._change.wait_for(
                lambda: is_so() or self._over is not None or self._went_back is not None, timeout
            )
        finally:
            self._waiters -= 1

    def flush(self, timeout: float | None = None) -> None:
        """Waits until all notes of this process so far are kept.

        Raises `TimeoutError`; `NoteRefused` where one was refused; and what `send` raises.
        """
        with self._lock:
            wanted = self._taken + len(self._notes)
            if not self._wait_for(lambda: self._kept >= wanted, timeout):
                raise TimeoutError(f"{wanted - self._kept} notes are not kept")
            refused, self._refused = self._refused, None
            if refused is not None:
                raise refused
            if self._over is not None and self._kept < wanted:
                raise self._over
            if self._went_back is not None:
                raise WentBack(self._went_back)

    # Recoveries.

    def take_recovery(self) -> Recovery | None:
        """The last recovery, where it was not taken yet; the process goes on from there.

        It has to send again what `resend` says, also where it stays. Raises why the reporter is
        over, where it is: `TakenAsFailed`.
        """
        with self._lock:
            if self._over is not None:
                raise self._over
            recovery, self._pending, self._went_back = self._pending, None, None
            if recovery is not None:
                self._flag.hear()
            self._set_gate()
            self._change.notify_all()
            return recovery

    def wait_recovery(self, timeout: float | None = None) -> Recovery | None:
        """The same, once there is one; none where the time is over before."""
        with self._lock:
            self._waiters += 1
            try:
                self._change.wait_for(lambda: self._pending or self._over, timeout)
            finally:
                self._waiters -= 1
        return self.take_recovery()

    def fileno(self) -> int:
        """What can be read, as `select` says, where `take_recovery` has something to say."""
        return self._flag.fileno()

    # What the thread calls.

    def _take_batch(self) -> Batch | None:
        """The next notes that go together, or none; then the thread is idle."""
        with self._lock:
            notes = self._notes
            if not notes:
                self._is_idle = True
                return None
            if self._used > wire.MOST_BATCH // 2:
                notes = self._some_notes()
            self._notes = self._notes[len(notes):]
            first, self._taken = self._taken, self._taken + len(notes)
        batch = Batch(first, notes)  # without the lock, which the calls want
        self._batches.append(batch)
        return batch

    def _some_notes(self) -> list[str]:
        """The first notes, as many as may go together."""
        size = 0
        for count, note in enumerate(self._notes):
            size += len(note)
            if size > wire.MOST_BATCH:
                return self._notes[:count]
        return self._notes

    def _was_kept(self, kept: int) -> None:
        """So many notes of this incarnation are kept."""
        with self._lock:
            while self._batches and self._batches[0].first + self._batches[0].count <= kept:
                self._used -= len(self._batches.popleft().text)
            self._kept = max(self._kept, kept)
            if self._gate:
                self._set_gate()
            if self._waiters:
                self._change.notify_all()

    def _hold(self, is_held: bool) -> None:
        """Calls wait, or go on."""
        with self._lock:
            self._holding = is_held
            self._set_gate()
            self._change.notify_all()

    def _was_refused(self, refused: NoteRefused) -> None:
        """A note was refused."""
        logger.error("process %d: %s", self.process, refused)
        with self._lock:
            self._refused = self._refused or refused

    def _recover(self, recovery: Recovery) -> None:
        """Takes this process's record of a line."""
        with self._lock:
            if self._start is None:
                self._begin(recovery)
            elif recovery.number > self.recoveries:
                if recovery.choice is None:
                    self._know(recovery)
                else:
                    self._begin(recovery)
                    self._went_back = recovery
                self._wait_to_be_taken(recovery)
            self._holding = False
            self._set_gate()
            self._change.notify_all()

    def _wait_to_be_taken(self, recovery: Recovery) -> None:
        """Keeps a recovery for the process, which may not have taken the one before."""
        before = self._pending
        if before is None:
            self._flag.ring()
        elif recovery.choice is None and before.choice is not None:
            # It stays where the one before has put it.
            recovery = dataclasses.replace(recovery, choice=before.choice, state=before.state)
            self._went_back = recovery
        self._pending = recovery

    def _end(self, cause: BaseException) -> None:
        """The reporter is over, and why. The lock is held."""
        if self._over is None:
            self._over = cause
        self._gate = True
        self._change.notify_all()
        self._bell.ring()
        self._flag.ring()

    def _fail(self, cause: BaseException) -> None:
        """The thread cannot go on."""
        with self._lock:
            self._end(cause)
