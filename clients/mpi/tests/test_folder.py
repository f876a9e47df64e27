"""Tests of the folder of a job: half a line, where ranks go on, and what is let go."""

import fcntl
import pathlib
import struct
import sys
import tempfile
import unittest

sys.dont_write_bytecode = True  # leaves nothing beside the scripts
sys.path.insert(0, str(pathlib.Path(__file__).resolve().parent.parent))

from mpi_folder import BODY, Folder, StillRuns, journal, records_in
from mpi_planner import Plan, Replay, plan_in
from mpi_script import script_of


def body(life: int, place: int) -> str:
    """The body of a note."""
    return BODY.pack(life, place, 24, 1, 0, 99).hex()


def check(sends: int, path: str) -> str:
    """The state of a checkpoint."""
    return f"{sends} {path}".encode().hex()


class FolderTests(unittest.TestCase):
    """A job of two ranks, of which rank 0 has sent three messages and has two checkpoints."""

    def setUp(self) -> None:
        """The notes of its first life, as killed ranks leave them."""
        folder = tempfile.TemporaryDirectory()
        self.addCleanup(folder.cleanup)
        self.path = pathlib.Path(folder.name)
        self.notes = [
            f"send,0,0,1,{body(0, 0)}", f"check,0,0,{check(1, '/a/first')},-",
            f"send,0,0,1,{body(0, 32)}", f"check,0,0,{check(2, '/a/second one')},-",
            f"send,0,0,1,{body(0, 64)}",
        ]
        self.write(0, 0, "\n".join([*self.notes, "send,0,0,1,0000"]))
        self.write(0, 1, "recv,1,0,0,0,0\n")
        self.folder = Folder(self.path, 2)

    def write(self, life: int, rank: int, text: str) -> None:
        """The notes of a rank, with the files that it has beside them."""
        (self.path / f"notes.{life}.{rank}").write_text(text, encoding="ascii")
        (self.path / f"payload.{life}.{rank}").write_bytes(bytes(128))
        (self.path / f"keep.{life}.{rank}").write_bytes(bytes(8))

    def test_half_a_line(self) -> None:
        """Half a line is none, and is read when it is whole."""
        self.assertEqual(records_in(b"a\nb\nc"), (["a", "b"], 4))
        self.assertEqual(records_in(b"c"), ([], 0))
        self.assertEqual(self.folder.new_notes(), [*self.notes, "recv,1,0,0,0,0"])
        self.assertEqual(self.folder.new_notes(), [])
        with open(self.path / "notes.0.1", "a", encoding="ascii") as file:
            file.write("recv,1,0,0,0,1")
            file.flush()
            self.assertEqual(self.folder.new_notes(), [])
            file.write("\n")
        self.assertEqual(self.folder.new_notes(), ["recv,1,0,0,0,1"])

    def test_where_ranks_go_on(self) -> None:
        """What came after the line is cut, and the file of each rank says where it goes on."""
        self.folder.new_notes()
        plan = Plan([2, 0], [1, 1], [Replay(0, 0, 1)], 0)
        self.folder.next_life(plan)
        self.folder.write_resume(plan)
        self.assertEqual(len(self.folder.ranks[0].sent), 2)
        self.assertEqual(
            (self.path / "resume.0").read_text(encoding="ascii").splitlines(),
            ["ranks 2", "life 1", "incarnation 1", "sends 2", "checkpoint /a/second one",
             f"again 1 {body(0, 32)}", "end"],
        )
        self.assertEqual(
            (self.path / "resume.1").read_text(encoding="ascii").splitlines(),
            ["ranks 2", "life 1", "incarnation 1", "sends 0", "checkpoint ", "end"],
        )

    def test_let_go(self) -> None:
        """What stands before the line is let go, but for what is in transit there."""
        self.folder.new_notes()
        passed = self.folder.let_go(Plan([2, 0], [0, 0], [Replay(0, 0, 1)], 0))
        self.assertEqual(passed, ["/a/first"])
        self.assertEqual(self.kept(0), 32)
        self.assertEqual(self.folder.let_go(Plan([2, 0], [0, 0], [], 0)), [])
        self.assertEqual(self.kept(0), 64)

    def kept(self, life: int) -> int:
        """How far the payload of rank 0 may be let go."""
        place: int = struct.unpack("=Q", (self.path / f"keep.{life}.0").read_bytes())[0]
        return place

    def test_files_of_earlier_lives(self) -> None:
        """The payload of an earlier life goes when nothing of it is needed."""
        self.folder.new_notes()
        self.folder.next_life(Plan([2, 0], [1, 1], [Replay(0, 0, 1)], 0))
        self.write(1, 0, f"send,0,1,1,{body(1, 0)}\n")
        self.folder.new_notes()
        self.folder.let_go(Plan([2, 0], [0, 0], [Replay(0, 0, 1)], 0))
        self.assertTrue((self.path / "payload.0.0").exists())
        self.assertFalse((self.path / "payload.0.1").exists())
        self.folder.let_go(Plan([2, 0], [0, 0], [], 0))
        self.assertFalse((self.path / "payload.0.0").exists())
        self.assertEqual(self.kept(1), 0)

    def test_lives_and_journal(self) -> None:
        """Lives are counted by their notes, and the journal ends with the last recovery."""
        self.assertEqual(self.folder.lives(), 1)
        self.assertEqual(list(journal(self.path, 2)), ["reports,1,2"])
        self.write(1, 0, f"check,0,1,{check(0, '/a')},-\n")
        self.assertEqual(self.folder.lives(), 2)
        recovered = ["reports,1,2", *self.notes, "recv,1,0,0,0,0", "recover,0,1"]
        self.assertEqual(list(journal(self.path, 2)), recovered)
        self.assertEqual(list(journal(self.path, 2, True)), 
                         [*recovered, f"check,0,1,{check(0, '/a')},-"])

    def test_a_rank_that_still_runs(self) -> None:
        """It holds a lock on its notes."""
        self.folder.wait_for_ends(0)
        with open(self.path / "notes.0.1", "ab") as file:
            fcntl.flock(file, fcntl.LOCK_EX)
            with self.assertRaisesRegex(StillRuns, "^rank 1 of the job that failed still runs$"):
                self.folder.wait_for_ends(0.1)
        self.folder.wait_for_ends(0)

    def test_plans(self) -> None:
        """What an answer says."""
        answer = ["recovered,2,1,1", "line,0,1,1,a1", "line,1,0,3,", "pass,1,now,0,0,1",
                  "replay,0,0,0"]
        self.assertEqual(plan_in(answer), Plan([1, 0], [1, 3], [Replay(0, 0, 0)], 1))

    def test_script(self) -> None:
        """Receipts stand after their sends, and take messages from where the link has them."""
        history = ["history,1,2", "tape,0,1", "recv,1,0,2", "send,1,1,ff", "check,aa,-",
                   "tape,1,0", "send,0,0,", "send,1,0,", "recv,1,0,1", "send,0,0,", "recv,0,1,0",
                   "recv,0,1,7"]
        self.assertEqual(
            script_of(history),
            ["world,1,2,unordered", "send,1,0,", "send,1,0,", "deliver,1,0,1,", "send,0,1,",
             "deliver,0,1,0,", "check,0,aa", "recover,0,1"],
        )


if __name__ == "__main__":
    unittest.main()
