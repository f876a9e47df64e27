"""The thread of a reporter, which has its notes kept: by a hub, or in a file."""

from __future__ import annotations

import collections
import fcntl
import os
import select
import socket
import threading
import time
from typing import Any

from . import wire
from .batches import Batch
from .desk import Desk, NoteRefused, TakenAsFailed, logger
from .wire import HubError, Recovery

LINGER = 0.001  # seconds in which further notes come to a batch
MOST_AHEAD = 1 << 18  # bytes that wait to be written
PIECE = 1 << 16
FIRST_PAUSE, LAST_PAUSE = 0.02, 1.0  # seconds before a hub is looked for again
SECONDS = 10.0  # for a hub to answer


class Link(threading.Thread):
    """What both kinds have: waiting for notes."""

    def __init__(self, reporter: Desk) -> None:
        super().__init__(name=f"reporter-{reporter.process}", daemon=True)
        self.reporter = reporter
        self.trouble = "none was looked for"

    def is_parked(self) -> bool:
        """Whether a hub has answered, and asks to wait."""
        return False

    def let_go(self) -> None:
        """Closes what is open."""

    def is_over(self) -> bool:
        """Whether nothing more is to be done."""
        return self.reporter._over is not None and not self.reporter._is_closing


class FileLink(Link):
    """Appends the notes to a file."""

    def __init__(self, reporter: Desk, path: str | os.PathLike[str], durable: bool) -> None:
        super().__init__(reporter)
        self._durable = durable
        self._file = os.open(path, os.O_RDWR | os.O_CREAT | os.O_APPEND | os.O_CLOEXEC, 0o666)
        try:
            fcntl.flock(self._file, fcntl.LOCK_EX | fcntl.LOCK_NB)
            self._open(os.fspath(path))
        except BaseException:
            os.close(self._file)
            raise

    def _open(self, path: str) -> None:
        """Begins the file, or cuts off the end of a last line that was half written."""
        first = f"{wire.first_line(self.reporter.processes)}\n".encode()
        size = os.fstat(self._file).st_size
        begun = os.pread(self._file, len(first), 0)
        if not first.startswith(begun):
            raise ValueError(f"{path}: it begins with {begun!r}, and not with {first!r}")
        if size <= len(first):
            os.ftruncate(self._file, 0)
            self._put(first)
        elif self.reporter._start is None:
            raise FileExistsError(f"{path}: it has notes; `start` says where the process goes on")
        else:
            end = size - min(size, wire.MOST_LINE)
            rest = os.pread(self._file, size - end, end)
            os.ftruncate(self._file, end + rest.rfind(b"\n") + 1)
        if self.reporter._start is None:
            self.reporter._recover(wire.start_of(self.reporter.process, self.reporter.processes))

    def _put(self, text: bytes) -> None:
        """Appends all of it."""
        rest = memoryview(text)
        while rest:
            rest = rest[os.write(self._file, rest):]
        if self._durable:
            os.fsync(self._file)

    def run(self) -> None:
        """Writes until the reporter is closed."""
        reporter = self.reporter
        try:
            while not self.is_over():
                batch = reporter._take_batch()
                if batch:
                    self._put(batch.text)
                    reporter._was_kept(batch.first + batch.count)
                elif reporter._is_closing:
                    break
                else:
                    select.select([reporter._bell], [], [])
                    self.reporter._bell.hear()
                    if not reporter._waiters:
                        time.sleep(LINGER)
        except OSError as error:
            reporter._fail(error)
        os.close(self._file)

    def let_go(self) -> None:
        """Closes the file."""
        os.close(self._file)


class HubLink(Link):
    """Sends the notes to a hub, and hears what it says."""

    def __init__(self, reporter: Desk, address: wire.Address, token: bytes | None) -> None:
        super().__init__(reporter)
        self._address, self._token = address, token
        self._socket: socket.socket | None = None
        self._talk: wire.Talk | None = None
        self._is_welcome = self._is_parked = False
        self._hold: int | None = None
        self._came, self._out = bytearray(), bytearray()
        self._again: collections.deque[Batch] = collections.deque()

    def is_parked(self) -> bool:
        """Whether the hub has the process wait for a recovery."""
        return self._is_parked

    def let_go(self) -> None:
        """Closes the connection."""
        if self._socket is not None:
            self._socket.close()

    def run(self) -> None:
        """Looks for the hub, as often as it is lost, until the reporter is over."""
        pause = FIRST_PAUSE
        reporter = self.reporter
        while not self.is_over():
            try:
                self._is_welcome = self._is_parked = False
                with wire.connect(self._address, SECONDS) as made:
                    self._socket = made
                    self._go_on(made)
                return
            except (TakenAsFailed, Refusal, PermissionError) as error:
                reporter._fail(error)
                return
            except (OSError, HubError, ValueError) as error:
                pause = FIRST_PAUSE if self._is_welcome else min(2 * pause, LAST_PAUSE)
                self.trouble = str(error) or repr(error)
                logger.info("process %d: the hub is away: %r", reporter.process, error)
            except BaseException as error:
                reporter._fail(error)
                raise
            select.select([reporter._bell], [], [], pause)
            self.reporter._bell.hear()

    def _go_on(self, made: socket.socket) -> None:
        """Talks on a connection, until it ends or the reporter is closed."""
        self._came.clear()
        self._out.clear()
        self._talk, self._hold = None, None
        made.setblocking(False)
        ready = select.poll()
        ready.register(self.reporter._bell, select.POLLIN)
        ready.register(made, select.POLLIN)
        quiet = time.monotonic() + SECONDS
        while True:
            is_last = self._is_welcome and self._fill()
            ready.modify(made, select.POLLIN | (select.POLLOUT if self._out else 0))
            if is_last and not self._out:
                self._part(made)
                return
            if self.is_over():
                return
            for file, event in ready.poll(None if self._is_welcome or self._is_parked else 1_000):
                if file == self.reporter._bell.fileno():
                    self.reporter._bell.hear()
                    if not self.reporter._waiters and not self._out:
                        time.sleep(LINGER)
                    continue
                if event & select.POLLOUT:
                    del self._out[:made.send(self._out)]
                if event & ~select.POLLOUT:
                    self._read(made)
            if not (self._is_welcome or self._is_parked) and time.monotonic() > quiet:
                raise HubError(f"the hub said nothing for {SECONDS} seconds")

    def _part(self, made: socket.socket) -> None:
        """Waits until the hub has read all: a connection that is closed before may lose some."""
        made.settimeout(1)
        made.shutdown(socket.SHUT_WR)
        while made.recv(PIECE):
            pass

    def _fill(self) -> bool:
        """Writes what there is to say, and answers whether that was all, for good."""
        reporter = self.reporter
        while len(self._out) < MOST_AHEAD:
            batch = self._again.popleft() if self._again else reporter._take_batch()
            if batch is None:
                if self._hold is not None:
                    self._out += b"held,%d,%d\n" % (self._hold, reporter._taken)
                    self._hold = None
                if reporter._is_closing:
                    if reporter._says_bye:
                        self._out += b"bye\n"
                        reporter._says_bye = False
                    return True
                return False
            self._out += b"notes,%d,%d\n" % (batch.first, len(batch.text)) + batch.text
        return False

    def _read(self, made: socket.socket) -> None:
        """Reads what came, and does what whole lines say."""
        piece = made.recv(PIECE)
        if not piece:
            raise HubError("the hub has ended the connection")
        start = len(self._came)
        self._came += piece
        end = self._came.rfind(b"\n", start)
        if end >= 0:
            lines = bytes(self._came[:end]).split(b"\n")
            del self._came[:end + 1]
            for line in lines:
                self._heard(line)

    def _heard(self, line: bytes) -> None:
        """Does what a line says."""
        if self._talk is None:
            self._talk = wire.Talk.of_greeting(self._token, line.decode("latin-1"))
            self._tell_who()
        elif line.startswith(b"kept,"):
            self.reporter._was_kept(int(line[5:]))
        else:
            it = wire.read_json(line)
            kind = it.pop("is")
            if kind not in _HEARD:
                raise HubError(f"no hub says {line[:80]!r}")
            _HEARD[kind](self, it)

    def _tell_who(self) -> None:
        """Answers the greeting."""
        reporter, talk = self.reporter, self._talk
        assert talk is not None
        recoveries = wire.NONE if reporter._start is None else str(reporter.recoveries)
        told = [str(reporter.process), str(reporter.processes), reporter.life, recoveries]
        fields = ["report", *told, talk.own, talk.proof(*told)]
        self._out += ",".join(fields).encode() + b"\n"

    def _on_welcome(self, it: dict[str, Any]) -> None:
        """The hub takes notes, from so many on."""
        assert self._talk is not None
        self._talk.test(it["proof"])
        reporter = self.reporter
        self._is_parked = False
        if it["recovery"] is not None:
            reporter._recover(Recovery.of_json(it["recovery"]))
        reporter._was_kept(it["kept"])
        with reporter._lock:
            self._again = collections.deque(reporter._batches)
        self._is_welcome = True
        reporter._hold(it["hold"] is not None)
        self._hold = it["hold"]

    def _on_wait(self, it: dict[str, Any]) -> None:
        """The process has failed before, and goes on once there was a recovery."""
        assert self._talk is not None
        self._talk.test(it["proof"])
        self._is_parked = True

    def _on_hold(self, it: dict[str, Any]) -> None:
        """All notes are wanted, and then none till the recovery."""
        self.reporter._hold(True)
        self._hold = it["recovery"]

    def _on_go_on(self, _it: dict[str, Any]) -> None:
        """There is no recovery."""
        self._hold = None
        self.reporter._hold(False)

    def _on_recovery(self, it: dict[str, Any]) -> None:
        """There was one."""
        self._hold = None
        self._again.clear()
        self.reporter._recover(Recovery.of_json(it["recovery"]))

    def _on_refused(self, it: dict[str, Any]) -> None:
        """A note was refused."""
        self.reporter._was_refused(NoteRefused(f"{it['code']} {it['name']}: {it['record']}"))

    def _on_gone(self, it: dict[str, Any]) -> None:
        """Another has this place."""
        raise TakenAsFailed(it["why"])

    def _on_error(self, it: dict[str, Any]) -> None:
        """The hub says no."""
        raise (Refusal if it["final"] else HubError)(it["why"])


class Refusal(HubError):
    """The hub says no, and will again."""


_HEARD = {
    "welcome": HubLink._on_welcome, "wait": HubLink._on_wait, "hold": HubLink._on_hold,
    "go_on": HubLink._on_go_on, "recovery": HubLink._on_recovery,
    "refused": HubLink._on_refused, "gone": HubLink._on_gone, "error": HubLink._on_error,
}


def link_of(
    reporter: Desk, to: str | os.PathLike[str], token: str | os.PathLike[str] | None,
    durable: bool,
) -> Link:
    """The thread for an address or a file."""
    if isinstance(to, str) and to.startswith(("unix:", "tcp:")):
        if reporter._start is not None:
            raise ValueError("a hub says itself where a process goes on")
        return HubLink(reporter, wire.address_of(to), wire.read_token(token))
    return FileLink(reporter, to, durable)
