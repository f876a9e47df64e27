"""Judging a whole answer, compared with judging its line and certificate alone.

Usage: scripts/measure answers [--program PATH] [--events N] [--replays N] [--runs K]
                               [--instructions] [--most RATIO]

Of one history, and the failure of one process of eight, the program writes two check texts: that of
`bundle`, to which the second version of the format is given, and that of `answer`, which is of the
third and has where each process goes on and what is sent again. `recline check` judges both, in
turns, K times (5). The table has the least, the median and the greatest seconds of the processor
of each, and their sizes; below it stands how often the whole answer's least is that of the claim.
With --instructions the instructions of each are counted, once and whatever else the machine does,
and no time is taken. With --most the status is 1 where it is more. Without --instructions read the
table on a machine with nothing else to do.

The history has so many events (1,000,000), which are messages round a ring; of the last ones so
many (100,000) are in transit at the line: one of the eight processes receives those to it after its
check, and nobody the others.
"""

import argparse
import pathlib
import statistics
import subprocess
import tempfile
from collections.abc import Iterator
from typing import NamedTuple

import instructions

from .runs import add_program, head, memory, program_of, row
from .runs import timed as timed_run

PROCESSES, FAILED = 8, 3


class Text(NamedTuple):
    """A check text in a file, by its version."""

    version: int
    path: pathlib.Path


def steps(events: int, replays: int) -> Iterator[str]:
    """A history of so many events, of which so many messages are in transit at its line."""
    yield f"world,1,{PROCESSES},fifo"
    ring = [(p, (p + 1) % PROCESSES) for p in range(PROCESSES)]
    turns = max(events - replays - replays // PROCESSES, 0) // (2 * PROCESSES)
    for turn in range(turns):
        for p, q in ring:
            yield f"send,{p},{q},{turn:08x}"
        for p, q in ring:
            yield f"deliver,{p},{q},0,"
    for k in range(replays // PROCESSES):
        for p, q in ring:
            yield f"send,{p},{q},{k:08x}"
    for p in range(PROCESSES):
        yield f"check,{p},{p:064x}"
    for _ in range(replays // PROCESSES):
        yield f"deliver,{(FAILED - 1) % PROCESSES},{FAILED},0,"


def check_text(program: str, script: pathlib.Path, command: str) -> str:
    """The check text that a command writes at the end of a script."""
    text = script.read_bytes() + f"{command},{FAILED}\n".encode()
    ran = subprocess.run([program, "run"], input=text, stdout=subprocess.PIPE, check=True)
    replies = ran.stdout.decode()
    return replies[replies.index("history,"):]


def texts_in(folder: pathlib.Path, program: str, events: int, replays: int) -> list[Text]:
    """Both texts, in files."""
    script = folder / "script"
    script.write_text("".join(f"{it}\n" for it in steps(events, replays)), encoding="ascii")
    claim = check_text(program, script, "bundle").replace("history,1,", "history,2,", 1)
    answer = check_text(program, script, "answer")
    texts = []
    for version, text in ((2, claim), (3, answer)):
        if not text.startswith(f"history,{version},{PROCESSES}\n"):
            raise SystemExit(f"measure answers: the program wrote no text of version {version}")
        texts.append(Text(version, folder / f"version{version}"))
        texts[-1].path.write_text(text, encoding="ascii")
    found = answer.count("\nreplay,")
    if found != replays // PROCESSES * PROCESSES:
        raise SystemExit(f"measure answers: {found} messages are sent again, and not {replays}")
    return texts


def test(program: str, text: Text) -> None:
    """That the text is judged to be right."""
    with open(text.path, "rb") as source:
        ran = subprocess.run(
            [program, "check"], stdin=source, stdout=subprocess.PIPE, check=False
        )
    if ran.stdout != b"valid\n":
        raise SystemExit(f"measure answers: version {text.version} is judged {ran.stdout!r}")


def timed(program: str, texts: list[Text], runs: int) -> float:
    """Prints what each text takes, and answers the ratio."""
    took: dict[int, list[float]] = {text.version: [] for text in texts}
    for _ in range(runs):
        for text in texts:
            took[text.version].append(timed_run(program, "check", text.path).processor)
    head("Version", "Bytes", "Least, s", "Median, s", "Greatest, s", "MB")
    for text in texts:
        times = took[text.version]
        found = (min(times), statistics.median(times), max(times))
        held = memory(program, "check", text.path)
        row([str(text.version), f"{text.path.stat().st_size:,}",
                           *(f"{it:.3f}" for it in found), f"{held:,.0f}"])
    return min(took[3]) / min(took[2])


def counted(program: str, texts: list[Text]) -> float:
    """Prints how many instructions each text takes, and answers the ratio."""
    tool = instructions.tool_at_hand()
    if tool is None:
        raise SystemExit("measure answers: neither valgrind nor perf counts here")
    counts = []
    head("Version", "Bytes", f"Instructions, by {tool.name}")
    for text in texts:
        count = instructions.counted(tool, [program, "check"], text.path)
        if count is None:
            raise SystemExit(f"measure answers: {tool.name} counts nothing")
        counts.append(count)
        size = text.path.stat().st_size
        row([str(text.version), f"{size:,}", f"{count:,}"])
    return counts[1] / counts[0]


def add_words(words: argparse.ArgumentParser) -> None:
    """Adds the words of this job to those that are read."""
    add_program(words)
    words.add_argument("--events", type=int, default=1_000_000, help="of the history (1,000,000)")
    words.add_argument("--replays", type=int, default=100_000, help="in transit (100,000)")
    words.add_argument("--runs", type=int, default=5, metavar="K", help="how often each is run (5)")
    words.add_argument("--instructions", action="store_true", help="count instead of timing")
    words.add_argument("--most", type=float, metavar="RATIO", help="more is a failure")


def run(asked: argparse.Namespace) -> int:
    """Measures, and answers the status."""
    program = program_of(asked)
    with tempfile.TemporaryDirectory(prefix="recline-answers-") as folder:
        texts = texts_in(pathlib.Path(folder), program, asked.events, asked.replays)
        for text in texts:
            test(program, text)
        if asked.instructions:
            ratio = counted(program, texts)
        else:
            ratio = timed(program, texts, asked.runs)
    print(f"the whole answer takes {ratio:.2f} times what its claim does")
    return int(asked.most is not None and ratio > asked.most)
