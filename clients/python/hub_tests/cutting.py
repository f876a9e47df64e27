"""Hands on what goes between reporters and a hub, and cuts it off when it is told to."""

from __future__ import annotations

import contextlib
import socket
import threading

PIECE = 4_096


class Cutter:
    """Listens at one path, and connects whoever comes with another path."""

    def __init__(self, path: str, to: str) -> None:
        self._to, self._lock = to, threading.Lock()
        self._pairs: list[tuple[socket.socket, socket.socket]] = []
        self._listener = socket.socket(socket.AF_UNIX, socket.SOCK_STREAM)
        self._listener.bind(path)
        self._listener.listen(64)
        threading.Thread(target=self._accept, daemon=True).start()

    def _accept(self) -> None:
        """Takes connections until the listener is closed."""
        with contextlib.suppress(OSError):
            while True:
                made, _ = self._listener.accept()
                there = socket.socket(socket.AF_UNIX, socket.SOCK_STREAM)
                try:
                    there.connect(self._to)
                except OSError:
                    made.close()
                    there.close()
                    continue
                with self._lock:
                    self._pairs.append((made, there))
                for one, other in ((made, there), (there, made)):
                    threading.Thread(target=self._hand_on, args=(one, other), daemon=True).start()

    def _hand_on(self, one: socket.socket, other: socket.socket) -> None:
        """Hands on what comes, in small pieces, until an end is cut."""
        with contextlib.suppress(OSError):
            while piece := one.recv(PIECE):
                other.sendall(piece)
        for end in (one, other):
            with contextlib.suppress(OSError):
                end.shutdown(socket.SHUT_RDWR)

    def cut(self) -> None:
        """Cuts all that is connected."""
        with self._lock:
            pairs, self._pairs = self._pairs, []
        for pair in pairs:
            for end in pair:
                with contextlib.suppress(OSError):
                    end.shutdown(socket.SHUT_RDWR)

    def close(self) -> None:
        """Ends it."""
        self.cut()
        self._listener.close()
