"""Runs the program over devices that fail, are interrupted, give little, or are not there.

    scripts/trial devices [PROGRAM] [--collect WORDS] [--collect-alone]

PROGRAM is the built program of this repository where none is given; --collect is another command
that collects, in words of a shell, and with --collect-alone nothing else is tried. Each read of
standard input and each write of standard output in turn fails, is interrupted by a signal, once or
a hundred times, or is not ready; and all of them move one byte or seven at a time. A run whose
input fails must write nothing and say ReadFault; one whose output fails must have written a prefix
of the right text and say WriteFault; the status is 3. What is interrupted, or comes in small
pieces, must be answered as ever. A service, `serve` or `collect`, whose input fails has answered
what it read before, and one whose output fails has written a prefix of its answers.

Then standard input, output and error are closed, full, a directory, a pipe without a reader, or a
file that may not grow; and words are none, or no text. And each prefix of a check text is judged:
it must have a fault, and only the whole one, with or without its last line feed, a verdict. The
last line says how many runs were as they must be; the status is 0 where all were.
"""

import argparse
import errno
import functools
import os
import resource
import shlex
import signal
import subprocess
import tempfile
from collections.abc import Callable, Iterator
from concurrent.futures import ThreadPoolExecutor
from typing import NamedTuple

import preloaded
import refused_service
from conversations import Difference
from preloaded import Answer, Counts, Text
from service_jobs import JOBS, Job

READ_FAULT = b"recline: record 0: 36 ReadFault\n"
WRITE_FAULT = b"recline: record 0: 37 WriteFault\n"
BAD_WORDS = b"recline: bad command line\n"
# What a run reads and writes at a time, so that there are some reads and writes to fail.
PIECE = 40
# The faults of a claim that was cut off: a record that is missing, no number, or no first record.
CUT_OFF = (b": 32 BadRecord\n", b": 33 BadNumber\n", b": 34 NoWorld\n")


class Case(NamedTuple):
    """A run, with what to ask of its answer."""

    name: str
    run: Callable[[], Answer]
    is_right: Callable[[Answer], bool]


def is_read_fault(answer: Answer) -> bool:
    """Whether the run says that its source failed, and nothing else."""
    return answer == Answer(b"", READ_FAULT, 3)


def is_write_fault(answer: Answer, right: bytes, said: bytes = WRITE_FAULT) -> bool:
    """Whether the run says that its sink failed, after a prefix of the right output."""
    return (answer.said, answer.status) == (said, 3) and right.startswith(answer.output)


def long_script() -> Text:
    """A script whose replies are put in several pieces."""
    return Text("a long script", ["run"], b"world,1,2,fifo\n" + b"send,0,1,61\n" * 20_000)


class Counted:
    """The program under the library, and what it does with a text in pieces of so many bytes."""

    def __init__(self, program: str, library: str, it: Text, piece: int):
        self.program, self.library, self.text, self.piece = program, library, it, piece

    def answered(self, **settings: int) -> tuple[Answer, Counts]:
        """A run with these settings."""
        settings["MOST_BYTES"] = self.piece
        return preloaded.answered(self.program, self.library, self.text, settings)

    @functools.cached_property
    def counts(self) -> Counts:
        """How often it reads and writes where nothing fails."""
        return self.answered()[1]

    @functools.cached_property
    def right(self) -> Answer:
        """What it answers where nothing fails, and all bytes are moved that are asked for."""
        return preloaded.answered(self.program, self.library, self.text, {})[0]

    def case(self, name: str, is_right: Callable[[Answer], bool], **settings: int) -> Case:
        """A run with these settings, and what to ask of it."""
        return Case(f"{self.text.name}: {name}", lambda: self.answered(**settings)[0], is_right)

    def same(self, answer: Answer) -> bool:
        """Whether the answer is the right one."""
        return answer == self.right

    def cut(self, answer: Answer) -> bool:
        """Whether the answer is that of a sink that failed."""
        return is_write_fault(answer, self.right.output)

    def cases(self) -> Iterator[Case]:
        """Each read and each write of the run, failing or interrupted."""
        reads = ("READ", self.counts.reads, is_read_fault)
        writes = ("WRITE", self.counts.writes, self.cut)
        for kind, calls, is_failed in (reads, writes):
            for call in range(1, calls + 1):
                at = {f"FAILING_{kind}": call}
                for code in (errno.EIO, errno.EAGAIN):
                    name = f"{kind.lower()} {call} has error {code}"
                    how = {"FAILING_ERRNO": code, "FAILING_TIMES": 1000}
                    yield self.case(name, is_failed, **at, **how)
                for often in (1, 100):
                    name = f"{kind.lower()} {call} interrupted {often} times"
                    how = {"FAILING_ERRNO": errno.EINTR, "FAILING_TIMES": often}
                    yield self.case(name, self.same, **at, **how)


def texts() -> list[Text]:
    """A run of each kind of job."""
    named = ("round_is_not_passed", "domino_bundle", "claim_valid", "claim_not_orphan")
    return [it for it in preloaded.examples() if it.name.removeprefix("example ") in named]


def piece_cases(program: str, library: str) -> Iterator[Case]:
    """Devices that move one byte, or seven, in a call."""
    for it in preloaded.examples():
        for piece in (1, 7):
            counted = Counted(program, library, it, piece)
            yield counted.case(f"{piece} at a time", counted.same)
    counted = Counted(program, library, long_script(), 7)
    yield counted.case("7 at a time", counted.same)


def call_cases(program: str, library: str) -> Iterator[Case]:
    """Each call in turn, of short texts in pieces and of a long one in whole."""
    for it in texts():
        yield from Counted(program, library, it, PIECE).cases()
    yield from Counted(program, library, long_script(), 1 << 20).cases()


# How a service is made to fail: the command, the library, the text, which call, and its bytes.
Failing = Callable[..., None]


def as_told(fails: Failing, *values: object) -> Answer:
    """An answer that says in what a service is not as it must be."""
    try:
        fails(*values)
    except Difference as it:
        return Answer(b"", str(it).encode(), None)
    return Answer(b"", b"", 0)


def service_text(job: Job) -> bytes:
    """An input of a service, with a refusal, a fault and a recovery."""
    records = [job.first, job.send % b"61", job.check % b"a1", job.receipt, job.refused, b"sned",
               job.send % b"62", b"plan,0", b"recover,0", b"history"]
    return b"\n".join(records) + b"\n"


def service_cases(command: list[str], library: str, job: Job) -> Iterator[Case]:
    """Each read and each write of a service in turn, failing or interrupted; and standard files."""
    text, right = service_text(job), Answer(b"", b"", 0).__eq__
    for piece in (PIECE, 1 << 20):
        words = (command, library, text)
        counts = refused_service.run(*words, MOST_BYTES=piece).counts
        for kind, calls, fails in (
            ("read fails", counts.reads, refused_service.fail_read),
            ("write fails", counts.writes, refused_service.fail_write),
            ("read and write are interrupted", counts.reads, refused_service.interrupt),
        ):
            for call in range(1, calls + 1):
                run = functools.partial(as_told, fails, *words, call, piece, job.model)
                yield Case(f"{job.word}: {kind}, {call} in pieces of {piece}", run, right)
    for how in ("<&-", "</", "0>/dev/null", "<&- 2>&-", "</ 2>/dev/full"):
        said = b"" if "2>" in how else READ_FAULT
        words_of_it = f'"$0" {shlex.join(command[1:])} {how}'
        run = functools.partial(shell, command[0], words_of_it, text)
        yield Case(f"{job.word} {how}", run, Answer(b"", said, 3).__eq__)


def shell(
    program: str, command: str, text: bytes = b"", first: Callable[[], None] | None = None
) -> Answer:
    """What a command of the shell gives, in which $0 is the program; `first` is done before it."""
    ran = subprocess.run(
        ["sh", "-c", command, program],
        input=text,
        capture_output=True,
        check=False,
        timeout=60,
        restore_signals=first is None,
        preexec_fn=first,
    )
    return Answer(ran.stdout, ran.stderr, ran.returncode)


def no_large_files() -> None:
    """The files that this process writes stay below 1 KiB, and the signal for that is ignored."""
    signal.signal(signal.SIGXFSZ, signal.SIG_IGN)
    resource.setrlimit(resource.RLIMIT_FSIZE, (1024, 1024))


def pipe_without_reader(program: str, text: bytes, kept: signal.Handlers) -> Answer:
    """A run whose output is a pipe that nobody reads any more, under this rule for its signal."""
    read_end, write_end = os.pipe()
    os.close(read_end)
    ran = subprocess.run(
        [program, "run"],
        input=text,
        stdout=write_end,
        stderr=subprocess.PIPE,
        check=False,
        timeout=60,
        restore_signals=False,
        preexec_fn=lambda: signal.signal(signal.SIGPIPE, kept) and None,
    )
    os.close(write_end)
    return Answer(b"", ran.stderr, ran.returncode)


def pipe_not_ready(program: str) -> Answer:
    """A run whose input is a pipe without bytes that does not wait for any."""
    read_end, write_end = os.pipe()
    os.set_blocking(read_end, False)
    words = [program, "run"]
    ran = subprocess.run(words, stdin=read_end, capture_output=True, check=False, timeout=60)
    os.close(read_end)
    os.close(write_end)
    return Answer(ran.stdout, ran.stderr, ran.returncode)


def shell_rows() -> list[tuple[str, Answer]]:
    """What the shell makes of the three standard files and of the words, and the answer."""
    unread, unwritten = Answer(b"", READ_FAULT, 3), Answer(b"", WRITE_FAULT, 3)
    # What has no records is told without one.
    untold = Answer(b"", b"recline: 37 WriteFault\n", 3)
    jobs, full = ("run", "check"), ("&-", "/dev/full")
    rows = [(f'"$0" {job} {how}', unread) for job in jobs for how in ("<&-", "</", "0>/dev/null")]
    for how in full:
        rows += [(f'"$0" {job} >{how}', unwritten) for job in jobs]
        rows += [(f'"$0" {job} >{how}', untold) for job in ("--help", "--version", "drill")]
        # Where standard error fails, the status stays what it is.
        rows += [(f'"$0" {words} 2>{how}', Answer(b"", b"", 2)) for words in ("", "go")]
        rows += [(f'echo crash | "$0" {job} 2>{how}', Answer(b"", b"", 2)) for job in jobs]
        rows += [(f'"$0" run </ 2>{how}', Answer(b"", b"", 3))]
        rows += [(f'"$0" --help >/dev/full 2>{how}', Answer(b"", b"", 3))]
    no_text = '"$(printf "\\377")"'
    bad = ["", no_text, f"run {no_text}", '""', 'run ""']
    bad += ['"$(printf %100000s)"', "run $(seq 20000)"]
    return rows + [(f'"$0" {words}', Answer(b"", BAD_WORDS, 2)) for words in bad]


def given_text(command: str) -> bytes:
    """A text for the job that a command of the shell asks for."""
    name = "check/claim_valid.in" if " check" in command else "run/domino.in"
    return (preloaded.TOP / "examples" / name).read_bytes()


def shell_cases(program: str) -> Iterator[Case]:
    """Standard files that are closed, full or a directory, and words that are none."""
    for command, wanted in shell_rows():
        run = functools.partial(shell, program, command, given_text(command))
        yield Case(command, run, wanted.__eq__)


def system_cases(program: str, folder: str) -> Iterator[Case]:
    """What only the system does: signals of pipes and of files, and inputs that are not ready."""
    text = long_script().text
    yield Case("input not ready", lambda: pipe_not_ready(program), is_read_fault)
    broken = Answer(b"", WRITE_FAULT, 3)
    for kept in (signal.SIG_DFL, signal.SIG_IGN):
        run = functools.partial(pipe_without_reader, program, text, kept)
        yield Case(f"pipe without a reader, {kept.name}", run, broken.__eq__)
    command = f'"$0" run >{folder}/limited'
    run = functools.partial(shell, program, command, text, no_large_files)
    yield Case("file that may not grow", run, broken.__eq__)


def is_judged_cut(answer: Answer) -> bool:
    """Whether a claim that was cut off has its fault, and no verdict."""
    return answer.status == 2 and not answer.output and answer.said.endswith(CUT_OFF)


def prefix_cases(program: str) -> Iterator[Case]:
    """Each prefix of the check text of `claim_valid`."""
    whole = (preloaded.TOP / "examples" / "check" / "claim_valid.in").read_bytes()
    valid = Answer(b"valid\n", b"", 0)
    for count in range(len(whole) + 1):
        asked = valid.__eq__ if count >= len(whole) - 1 else is_judged_cut
        run = functools.partial(shell, program, '"$0" check', whole[:count])
        yield Case(f"the first {count} bytes", run, asked)


def is_as_asked(case: Case) -> bool:
    """Whether a run is as it must be; else it is told."""
    answer = case.run()
    if not case.is_right(answer):
        print(f"{case.name}: {answer._replace(output=answer.output[:300])}", flush=True)
    return case.is_right(answer)


def add_words(line: argparse.ArgumentParser) -> None:
    """Adds the words of this job to those that are read."""
    line.add_argument("program", nargs="?", metavar="PROGRAM", help="the program that is run")
    line.add_argument("--collect", metavar="WORDS", help="what collects (PROGRAM collect)")
    line.add_argument("--collect-alone", action="store_true", help="try nothing else")


def run(asked: argparse.Namespace) -> int:
    """Runs all cases, and answers the status."""
    program = asked.program or ("" if asked.collect_alone else preloaded.built_program())
    collect = shlex.split(asked.collect) if asked.collect else [program, "collect"]
    with (
        tempfile.TemporaryDirectory(prefix="recline-devices-") as folder,
        ThreadPoolExecutor(os.cpu_count()) as pool,
    ):
        library = preloaded.compiled(folder)
        cases = [*service_cases(collect, library, JOBS["collect"])]
        if not asked.collect_alone:
            cases += [*piece_cases(program, library), *call_cases(program, library)]
            cases += [*prefix_cases(program), *shell_cases(program)]
            cases += [*system_cases(program, folder)]
            cases += [*service_cases([program, "serve"], library, JOBS["serve"])]
        wrong = list(pool.map(is_as_asked, cases)).count(False)
    print(f"hostile devices: {len(cases) - wrong} of {len(cases)} runs as they must be")
    return 1 if wrong else 0
