"""A reporter: it names what its process does, and has a thread send the notes of it."""

from __future__ import annotations

import os
import threading
import time
import weakref

from . import wire
from .desk import Desk, Over, WentBack, logger
from .links import link_of
from .wire import HubError, Recovery

ROOM = 16 << 20  # bytes of notes
BYE = 2.0  # seconds in which a hub is told that the process has ended


class Reporter(Desk):
    """Notes what a process sends, receives and stores, for a hub or into a file.

    `to` is the address of a hub, `unix:PATH` or `tcp:HOST:PORT`, or the path of a file, which is
    then a log of this process alone (`merge` makes an input of `recline collect` of many).

    `send`, `received` and `check` return at once: a thread sends the notes in batches. They wait
    where `room` bytes of notes wait for the hub, and while the hub holds the processes for a
    recovery; and where the process goes back they raise `WentBack` until `take_recovery` is called.
    Each may be called by several threads. After a fork the child's reporter is over.

    `start` says where the process goes on: the first time at its initial state, and where it was
    started again in place of one that failed at its record of the line. For a hub the constructor
    waits for it, at most `timeout` seconds while no hub answers; a process that is started again
    waits longer, for the recovery. For a file `start` is given where the process was started again.

    `token`: the path of the file with the hub's token. `durable`: a file is synced to its device
    before `flush` returns.

    Raises `HubError` where the hub says no, `TimeoutError` where there is none, `OSError`.
    """

    def __init__(
        self, process: int, processes: int, to: str | os.PathLike[str], *, room: int = ROOM,
        token: str | os.PathLike[str] | None = None, timeout: float = 30.0,
        start: Recovery | None = None, durable: bool = False,
    ) -> None:
        super().__init__(process, processes, room, start)
        try:
            self._link = link_of(self, to, token, durable)
        except BaseException:
            self._let_go()
            raise
        _running.add(self)
        self._link.start()
        try:
            self._wait_for_start(timeout)
        except BaseException as error:
            self._fail(error)
            self._link.join()
            self._let_go()
            raise

    def _wait_for_start(self, timeout: float) -> None:
        """Waits until it is known where the process goes on."""
        end = time.monotonic() + timeout
        with self._lock:
            while self._start is None and self._over is None:
                if not self._change.wait(max(end - time.monotonic(), 0.01)):
                    if self._link.is_parked():
                        end = time.monotonic() + timeout
                    elif time.monotonic() >= end:
                        cause = TimeoutError(f"no hub for {timeout} seconds: {self._link.trouble}")
                        self._end(cause)
            if self._start is None:
                assert self._over is not None
                raise self._over

    # The end.

    def close(self, timeout: float | None = None) -> None:
        """Flushes, tells the hub that the process has ended well, and ends the thread."""
        self._close(True, timeout)

    def _close(self, is_well: bool, timeout: float | None) -> None:
        """Ends the thread once all is kept, and raises what stood in the way."""
        if self not in _running:
            return
        is_kept = False
        try:
            self.flush(timeout)
            is_kept = True
        finally:
            with self._lock:
                self._is_closing, self._says_bye = is_kept, is_kept and is_well
                self._end(Over("the reporter is closed"))
            self._link.join(BYE)
            self._is_closing = False
            self._fail(Over("the reporter is closed"))
            self._link.join()
            self._let_go()

    def _let_go(self) -> None:
        """Closes what is open."""
        _running.discard(self)
        self._bell.close()
        self._flag.close()

    def __enter__(self) -> Reporter:
        return self

    def __exit__(self, kind: type[BaseException] | None, *_raised: object) -> None:
        if kind is None:
            self.close()
            return
        try:
            self._close(False, 1.0)
        except (HubError, WentBack, OSError) as error:
            logger.warning("process %d: not all is kept: %r", self.process, error)


_running: weakref.WeakSet[Reporter] = weakref.WeakSet()


def _leave_to_parent() -> None:
    """A child that is forked lets go what the reporters of its parent hold."""
    for reporter in list(_running):
        reporter._lock = threading.Lock()  # a thread of the parent may have held it
        reporter._change = threading.Condition(reporter._lock)
        reporter._over, reporter._gate = Over("it belongs to the process that forked this"), True
        reporter._link.let_go()
        reporter._let_go()


os.register_at_fork(after_in_child=_leave_to_parent)
