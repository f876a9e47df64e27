"""Checkpoints in files of their own: the service is told their names, and says which may go."""

import os
import pathlib

from recline import Service


class Files:
    """A folder of checkpoints. What a checkpoint stores at the service is the name of its file."""

    def __init__(self, folder: str) -> None:
        self.folder = pathlib.Path(folder)
        self.folder.mkdir(parents=True, exist_ok=True)
        self.written = max((int(path.name) for path in self.paths()), default=0)
        self.deleted = 0

    def paths(self) -> list[pathlib.Path]:
        """The files that are there."""
        return [path for path in self.folder.iterdir() if path.name.isdigit()]

    def put(self, state: bytes) -> bytes:
        """Writes a state to a new file, for good, and answers its name."""
        self.written += 1
        path = self.folder / str(self.written)
        with path.open("wb") as file:
            file.write(state)
            file.flush()
            os.fsync(file.fileno())
        return path.name.encode()

    def state(self, name: bytes) -> bytes:
        """What a file has; of an initial state, which has none, nothing."""
        return (self.folder / name.decode()).read_bytes() if name else b""

    def sweep(self, service: Service) -> None:
        """Deletes all files but those that a recovery may still go back to.

        No later line is before that of `live`. A file that no checkpoint names goes too: it was
        written for one that the service has not been told of, or that a recovery took back.
        """
        needed = {
            check.state.decode()
            for tape, obsolete in zip(service.history().tapes, service.obsolete())
            for check in tape.checks()[obsolete.stop - 1 :]
        }
        for path in self.paths():
            if path.name not in needed:
                path.unlink()
                self.deleted += 1
