"""Runs the program on long texts that are made to hurt, and tells what time and memory they take.

    scripts/trial long_texts [PROGRAM] [--size BYTES] [--only NAME,..] [--runs K] [--list]

PROGRAM is the built program of this repository where none is given. Each kind of text is made at
a quarter, at half and at all of the size (67,108,864 bytes, the most that an input may have; less
for kinds that reach another limit before), and must be answered as the kind says. The table has
the bytes read and written at the full size, the seconds of the processor, the least of K runs (1),
the greatest memory, and by how much each of the two grows where the text doubles, from a quarter to
half and from half to all: 2 is linear. Then the kinds that took more than 256 MiB run in so little
memory, all of the text, half, a quarter and a tenth of it; what wants more must end with status 3,
a line that says so, and a prefix of the right output. The last line says how many runs were
answered as they must be; the status is 0 where all were.
"""

import argparse
import multiprocessing
import os
import pathlib
import re
import resource
import subprocess
import tempfile
from collections.abc import Callable
from typing import NamedTuple

import preloaded
from slow_model.texts import earliest_version

MOST_INPUT = 67_108_864
LITTLE_MEMORY = 1 << 28
WANT_OF_MEMORY = re.compile(rb"recline: record \d+: 0 OutOfMemory\n")
MIB = 1 << 20


class Kind(NamedTuple):
    """A kind of text: its job, the text of about so many bytes, and what comes of it.

    `told` is the end of the line on standard error, and `most` the bytes that it can have.
    """

    job: str
    made: Callable[[int], bytes]
    status: int
    told: bytes
    most: int


class Ran(NamedTuple):
    """What a run came to."""

    read: int
    written: int
    seconds: float
    memory: int
    status: int
    told: bytes


def again(record: bytes, size: int) -> bytes:
    """The record so often that this many bytes are not passed."""
    return record * (size // len(record))


def counted(record: str, size: int, most: int) -> bytes:
    """Records with 0, 1, .. in place of the number sign: about so many bytes, at most so many."""
    many = min(size // (len(record) + 6), most)
    return b"".join(record.replace("#", str(i)).encode() for i in range(many))


def rotated(record: str, n: int, size: int) -> bytes:
    """Records with the processes 0 to n-1 in turn in place of P, and the next one in place of Q."""
    turn = "".join(record.replace("P", str(p)).replace("Q", str((p + 1) % n)) for p in range(n))
    return again(turn.encode(), size)


def damaged(size: int) -> bytes:
    """Checks of one process, and damage of each."""
    many = min(size // 24, 1_000_000)
    damage = b"".join(b"damage,0,%d\n" % check for check in range(1, many + 1))
    return b"check,0,\n" * many + damage


def long_tapes(record: bytes, size: int) -> bytes:
    """A claim on tapes of these events, a million on each at most."""
    n = min(1 + size // len(record) // 1_000_000, 64)
    each = again(record, min((size - 1000) // n, 1_000_000 * len(record)))
    tapes = b"".join(b"tape,%d,0\n" % p + each for p in range(n))
    return b"history,1,%d\n" % n + tapes + b"failed\nline" + b",now" * n + b"\nend\n"


def receipts_of_all(size: int) -> bytes:
    """A claim on receipts from 256 senders in turn, whose numbers grow."""
    many = min(size // 17, 1_000_000)
    receipts = b"".join(b"recv,%d,0,%d\n" % (at % 256, at) for at in range(many))
    tapes = b"".join(b"tape,%d,0\n" % p for p in range(1, 256))
    line = b"failed\nline" + b",now" * 256 + b"\nend\n"
    return b"history,2,256\ntape,0,0\n" + receipts + tapes + line


def copies(size: int) -> bytes:
    """Messages that nobody takes, and recoveries that each add a copy of them all.

    The replies have about so many bytes.
    """
    many = int((size / 16) ** 0.5)
    return b"send,0,1,\n" * many + b"recover\n" * many


def faulty(job: str, made: Callable[[int], bytes], told: str) -> Kind:
    """A text that has this fault."""
    return Kind(job, made, 2, told.encode(), MOST_INPUT)


def script(
    commands: Callable[[int], bytes],
    n: int = 1,
    mode: str = "fifo",
    status: int = 0,
    most: int = MOST_INPUT,
) -> Kind:
    """A script of these commands, among so many processes."""
    first = f"world,{earliest_version(n)},{n},{mode}\n".encode()
    return Kind("run", lambda size: first + commands(size - len(first)), status, b"", most)


def claimed(
    tape: Callable[[int], bytes],
    rest: Callable[[int], bytes],
    status: int,
    most: int = MOST_INPUT,
) -> Kind:
    """A claim on a history of one process."""
    first = b"history,1,1\ntape,0,0\n"
    end = b"end\n"

    def made(size: int) -> bytes:
        """The text of that size."""
        return first + tape(size - 60) + rest(size - 60) + end

    return Kind("check", made, status, b"", most)


def nothing(_size: int) -> bytes:
    """No events."""
    return b""


def stays(_size: int) -> bytes:
    """The claim that nobody failed and nobody goes back."""
    return b"failed\nline,now\n"


KINDS = {
    # faults of the text, found at its beginning, in its middle or at its end
    "one line": faulty("run", lambda size: b"x" * size, "record 1: 34 NoWorld"),
    "empty lines": faulty("run", lambda size: b"\n" * size, "record 1: 34 NoWorld"),
    "lines of a return": faulty("check", lambda size: again(b"\r\n", size), "1: 34 NoWorld"),
    "commas": faulty("run", lambda size: b"," * size, "record 1: 34 NoWorld"),
    "records of a comma": faulty("check", lambda size: again(b",\n", size), "1: 34 NoWorld"),
    "commas after a command": faulty(
        "run", lambda size: b"world,1,1,fifo\nrecover" + b"," * (size - 22), "2: 33 BadNumber"
    ),
    "a bad byte at the end": faulty(
        "run", lambda size: b"\n" * (size - 1) + b'"', "record 0: 32 BadRecord"
    ),
    "a bad record at the end": faulty(
        "run",
        lambda size: b"world,1,1,fifo\n" + again(b"check,0,\n", size - 30) + b"check,0,6\n",
        ": 33 BadNumber",
    ),
    # long fields, and long lists of them
    "a long body": script(lambda size: b"send,0,1," + again(b"61", size - 20), n=2, status=1),
    "a long state": script(lambda size: b"check,0," + again(b"aF", size - 20), status=1),
    "a number of zeros": script(lambda size: b"check," + b"0" * (size - 20) + b","),
    "a process that failed often": script(lambda size: b"recover" + again(b",0", size - 20)),
    "a claim that it failed often": claimed(
        nothing, lambda size: b"failed" + again(b",0", size) + b"\nline,0\n", 0
    ),
    # commands that are refused, or look at little
    "refused sends": script(lambda size: again(b"send,0,0,\n", size), status=1),
    "lists of no rounds": script(lambda size: again(b"rounds\n", size)),
    "histories of nothing": script(lambda size: again(b"history\n", size)),
    "bundles of nothing": script(lambda size: again(b"bundle\n", size)),
    "recoveries of nothing": script(lambda size: again(b"recover\n", size)),
    # tapes and links that grow
    "sends": script(lambda size: rotated("send,P,Q,\n", 64, size), n=64),
    "copies": script(lambda size: rotated("send,P,Q,\n", 64, size), n=64, mode="unordered"),
    "checks": script(lambda size: rotated("check,P,\n", 64, size), n=64),
    "a ring": script(lambda size: rotated("send,P,Q,61\ndeliver,P,Q,0,\n", 64, size), n=64),
    # the same of 256 processes; the vector of a check has a number for each
    "copies among 256": script(
        lambda size: rotated("send,P,Q,\n", 256, size), n=256, mode="unordered"
    ),
    "checks of 256": script(lambda size: rotated("check,P,\n", 256, size), n=256, most=16_777_216),
    "a ring of 256": script(
        lambda size: rotated("send,P,Q,61\ndeliver,P,Q,0,\n", 256, size), n=256
    ),
    "recoveries of 256": script(lambda size: again(b"recover\n", size), n=256, most=160_000),
    "bundles of 256": script(lambda size: again(b"bundle\n", size), n=256, most=160_000),
    "rounds of one process": script(lambda size: again(b"begin,0,\n", size), most=589_815),
    "rounds of two processes": script(
        lambda size: again(b"begin,0,\nturn,1,\n", size), n=2, mode="unordered", most=1_114_115
    ),
    "damaged checks": script(damaged, most=24_000_000),
    # what recoveries multiply; the first is as long as what it writes
    "copies of recoveries": script(copies, n=2, mode="unordered"),
    "checks with recoveries": script(
        lambda size: again(b"check,0,\nrecover,0\n", size), n=2, mode="unordered", most=1_245_185
    ),
    # claims
    "damage of no checks": claimed(
        nothing, lambda size: counted("damage,0,1#\n", size, 10_000_000) + stays(size), 1
    ),
    "entries": claimed(
        nothing, lambda size: stays(size) + again(b"pass,0,0,0,0,0\n", size), 1
    ),
    "receipts": claimed(
        lambda size: counted("recv,0,0,#\n", size, 1_000_000), stays, 1, most=17_000_000
    ),
    "receipts of like names": claimed(
        lambda size: counted("recv,0,0,#000\n", size, 1_000_000), stays, 1, most=20_000_000
    ),
    "receipts of 256 senders": Kind("check", receipts_of_all, 1, b"", 17_000_000),
    "marks": Kind("check", lambda size: long_tapes(b"mark,0,1\n", size), 0, b"", MOST_INPUT),
    "sends of a claim": Kind(
        "check", lambda size: long_tapes(b"send,0,0,\n", size), 0, b"", MOST_INPUT
    ),
}


def little_memory() -> None:
    """The process gets no more memory than this."""
    resource.setrlimit(resource.RLIMIT_AS, (LITTLE_MEMORY, LITTLE_MEMORY))


def write_text(kind: Kind, size: int, path: str) -> None:
    """Writes a text of a kind into a file."""
    pathlib.Path(path).write_bytes(kind.made(size))


def ran(
    program: str, kind: Kind, size: int, folder: str, limit: Callable[[], None] | None = None
) -> Ran:
    """Runs the program on a text of a kind; what it reads and writes are files of the folder."""
    # A process of its own makes the text: the program's memory would seem to begin with this one's.
    writer = multiprocessing.get_context("fork").Process(
        target=write_text, args=(kind, size, f"{folder}/in")
    )
    writer.start()
    writer.join()
    if writer.exitcode:
        raise SystemExit("a text was not written")
    with open(f"{folder}/in", "rb") as given, open(f"{folder}/out", "wb") as got:
        with subprocess.Popen(
            [program, kind.job], stdin=given, stdout=got, stderr=subprocess.PIPE, preexec_fn=limit
        ) as child:
            told = child.stderr.read() if child.stderr else b""
            _, status, used = os.wait4(child.pid, 0)
            child.returncode = os.waitstatus_to_exitcode(status)
    read, written = os.path.getsize(f"{folder}/in"), os.path.getsize(f"{folder}/out")
    seconds = used.ru_utime + used.ru_stime
    return Ran(read, written, seconds, used.ru_maxrss << 10, child.returncode, told)


def is_told(kind: Kind, it: Ran) -> bool:
    """Whether a run is answered as its kind says."""
    wanted = it.told.endswith(kind.told + b"\n") if kind.told else not it.told
    return it.status == kind.status and wanted


def growth(before: float, after: float, least: float) -> str:
    """By how much a quantity grew, where it is large enough to tell."""
    return f"{after / before:6.2f}" if before > least else "     -"


def least(program: str, kind: Kind, size: int, folder: str, times: int) -> Ran:
    """Runs the program so often on a text of a kind: the fastest run, or one that is not right."""
    runs = [ran(program, kind, size, folder) for _ in range(times)]
    wrong = [it for it in runs if not is_told(kind, it)]
    return wrong[0] if wrong else min(runs, key=lambda it: it.seconds)


def measured(program: str, name: str, size: int, folder: str, times: int) -> tuple[bool, bool]:
    """Runs a kind of text at three sizes, prints its line, and says what came of it.

    That is whether all were answered, and whether the longest took more than little memory.
    """
    kind = KINDS[name]
    size = min(size, kind.most)
    runs = [least(program, kind, size // part, folder, times) for part in (4, 2, 1)]
    quarter, half, whole = runs
    print(
        f"{name:28} {whole.read:11,} {whole.written:12,} {whole.seconds:8.2f} s"
        f" {whole.memory / MIB:7.0f} MiB"
        f" {growth(quarter.seconds, half.seconds, 0.05)}"
        f" {growth(half.seconds, whole.seconds, 0.05)}"
        f" {growth(quarter.memory, half.memory, 32 * MIB)}"
        f" {growth(half.memory, whole.memory, 32 * MIB)}",
        flush=True,
    )
    wrong = [it for it in runs if not is_told(kind, it)]
    for it in wrong:
        print(f"    at {it.read:,} bytes: status {it.status}, {it.told[:200]!r}", flush=True)
    return not wrong, whole.memory > LITTLE_MEMORY


def is_starved(program: str, name: str, size: int, folder: str) -> bool | None:
    """Whether a text ends as it must without the memory that it wants; None where it wants less."""
    kind = KINDS[name]
    right = ran(program, kind, size, folder)
    if right.memory < LITTLE_MEMORY:
        return None
    os.replace(f"{folder}/out", f"{folder}/right")
    it = ran(program, kind, size, folder, little_memory)
    with open(f"{folder}/right", "rb") as whole, open(f"{folder}/out", "rb") as front:
        pieces = iter(lambda: front.read(MIB), b"")
        is_prefix = all(piece == whole.read(len(piece)) for piece in pieces)
    said = it.told.decode(errors="replace").strip()
    print(f"{name:28} {it.read:11,} {it.written:12,}   status {it.status}, {said}", flush=True)
    return is_prefix and it.status == 3 and WANT_OF_MEMORY.fullmatch(it.told) is not None


def add_words(line: argparse.ArgumentParser) -> None:
    """Adds the words of this job to those that are read."""
    line.add_argument("program", nargs="?", help="the program")
    line.add_argument("--size", type=int, default=MOST_INPUT, metavar="BYTES", help="the full size")
    line.add_argument("--only", default=",".join(KINDS), metavar="NAME,..", help="these alone")
    line.add_argument("--runs", type=int, default=1, metavar="K", help="how often each runs (1)")
    line.add_argument("--list", action="store_true", help="print the kinds, and run nothing")


def run(asked: argparse.Namespace) -> int:
    """Runs the kinds that are asked for, and answers the status."""
    if asked.list:
        print("\n".join(KINDS))
        return 0
    program = asked.program or preloaded.built_program()
    names = asked.only.split(",")
    print(f"{'kind':28} {'read':>11} {'written':>12}    seconds      memory   growth of each")
    with tempfile.TemporaryDirectory(prefix="recline-texts-") as folder:
        found = {it: measured(program, it, asked.size, folder, asked.runs) for it in names}
        right = [is_right for is_right, _ in found.values()]
        print(f"in {LITTLE_MEMORY // MIB} MiB of memory:")
        hungry = [it for it, (_, is_hungry) in found.items() if is_hungry]
        sizes = {it: min(asked.size, KINDS[it].most) for it in hungry}
        # Parts of the text can be read, and then its commands want memory.
        parts = [(it, size // part) for it, size in sizes.items() for part in (1, 2, 4, 10)]
        starved = [is_starved(program, it, size, folder) for it, size in parts]
        right += [it for it in starved if it is not None]
    print(f"hostile texts: {right.count(True)} of {len(right)} answered as they must be")
    return 0 if all(right) else 1
