"""Compares a service with the slow model of it where its input is bad, and its devices are.

    scripts/trial service [--job serve|collect] [--seconds N] [--seed S] [--case K]
                          [--size BYTES] [--growths M] [--program WORDS] [--run WORDS]
                          [--only NAME]

The service is `recline serve`, or with --job collect `recline collect`. First the trials whose
inputs are long: lines and whole inputs of 100 MB (--size), readers that stop, memory that runs out
and comes back, devices that fail; memory has to stay what the machine takes. Then, until N seconds
are over (8), inputs from a seeded generator: made scripts or reports among random and changed
lines, bytes that are not allowed, lines that are too long, and second worlds, cut anywhere at the
end. One is given in pieces of random sizes, down to a byte, each of which must be answered before
the next is given; or all at once, from a file, while nobody reads, or to a reader that goes away.
Or the service is refused memory, for one request or from one on, or its reads and writes fail. No
answer may be missing, doubled, out of order or cut short, statuses have to be right, and the
program must end as it should and at no other time. What `recline run` (--run) makes of the good
records of a script alone has to be the same, their history among it. In further inputs of `recline
serve` requests for memory are refused that are made to let something go: then nothing is let go,
and all later answers are as if that had not been asked for.

With --growths M each request for memory of M inputs is refused, one in a run, and of M further ones
each that is made to let something go; nothing else is done. --program is another command than that
of this repository, in words of a shell; where it is a script, or a program with its own allocator
such as ./try compiles, it is not refused memory. --case runs one case of the generator again,
--only the long trials with a name. An input that differs is kept in a file whose name is told; the
status is then 1.
"""

import argparse
import collections
import itertools
import os
import random
import re
import shlex
import shutil
import subprocess
import tempfile
import time
from collections.abc import Callable, Iterator
from concurrent.futures import ProcessPoolExecutor
from typing import Any, NamedTuple

import conversations
import forget_trials
import preloaded
import refused_service
import service_trials
from conversations import WRITE_FAULT, Conversation, Difference, same
from service_jobs import JOBS, Job
from slow_model.made_conversations import answers_to, good_records, some_pieces

# So many requests of one input are refused, and so many calls of it fail.
SOME = 6
EVERY = 1_000_000
# So many inputs in which what lets go is refused memory.
FORGETS = 8
# So many cases a processor tries at least.
FEWEST = 10
SILENCE = re.compile(b"")
FAILURES = (Difference, OSError, subprocess.SubprocessError)


class Tried(NamedTuple):
    """What is tried: the job, its command, `recline run`, the library of refusals, and the seed."""

    job: Job
    command: list[str]
    run: list[str]
    library: str
    seed: int


class Case:
    """An input of the generator, and how it is given."""

    def __init__(self, tried: Tried, case: int) -> None:
        self.tried, self.command = tried, tried.command
        self.chance = random.Random(f"service {tried.seed} {case}")
        ways = WAYS + NATIVE_WAYS if tried.library else WAYS
        self.way = self.chance.choice(ways)
        self.text = tried.job.some_input(self.chance)

    def answers_to(self, pieces: list[bytes]) -> tuple[list[bytes], int]:
        """What the model answers to each piece and to the end of the input, and its status."""
        return answers_to(pieces, self.tried.job.model)

    def work(self) -> list[str]:
        """Tries it, and answers what to count."""
        counted = self.way(self)
        if self.tried.run:
            self.compare_run()
        return [self.way.__name__, *counted]

    def compare_run(self) -> None:
        """Asks that the good records alone are answered alike by `recline run`."""
        good, replies = good_records(self.text, self.tried.job.model)
        if good:
            ran = subprocess.run(self.tried.run, input=good, capture_output=True, check=False)
            same(ran.stdout, replies)

    def step(self) -> list[str]:
        """Each piece is answered before the next one is given."""
        pieces = some_pieces(self.chance, self.text)
        answers, status = self.answers_to(pieces)
        with Conversation(self.command) as talk:
            for piece, answer in zip(pieces, answers):
                talk.silent()
                talk.exchange(piece, answer)
            talk.end(answers[-1], status)
        return []

    def once(self) -> list[str]:
        """All is given at once."""
        (answer, last), status = self.answers_to([self.text])
        with Conversation(self.command) as talk:
            talk.exchange(self.text, answer)
            talk.end(last, status)
        return []

    def file(self) -> list[str]:
        """The input is a file."""
        answers, status = self.answers_to([self.text])
        given = os.memfd_create("text")
        os.pwrite(given, self.text, 0)
        with Conversation(self.command, given) as talk:
            os.close(given)
            talk.end(b"".join(answers), status)
        return []

    def unread(self) -> list[str]:
        """Nobody reads while it takes anything, and then all is read; some times over."""
        pieces = some_pieces(self.chance, self.text)[:5]
        pieces.append(self.text[sum(map(len, pieces)):])
        answers, status = self.answers_to(pieces)
        with Conversation(self.command) as talk:
            for piece, answer in zip(pieces, answers):
                taken = talk.push(piece, 0.01)
                talk.exchange(piece[taken:], answer)
            talk.end(answers[-1], status)
        return []

    def gone(self) -> list[str]:
        """The reader goes away: at the next answer the program says so, and ends."""
        pieces = some_pieces(self.chance, self.text)
        answers, status = self.answers_to(pieces)
        stop = self.chance.randint(0, len(pieces))
        with Conversation(self.command) as talk:
            for piece, answer in zip(pieces[:stop], answers):
                talk.exchange(piece, answer)
            talk.stop_reading()
            try:
                talk.exchange(b"".join(pieces[stop:]), b"")
            except Difference:
                pass
            talk.hang_up()
            if any(answers[stop:]):
                talk.end_as(WRITE_FAULT, 3)
            else:
                talk.end_as(SILENCE, status)
        return []

    def growths(self) -> list[str]:
        """Some requests for memory are refused, alone or with all after them."""
        library, chance = self.tried.library, self.chance
        growths = refused_service.run(self.command, library, self.text).counts.growths
        found = []
        for _ in range(SOME):
            growth = chance.randint(1, growths)
            refuse = chance.choice([refused_service.refuse_growth, refused_service.refuse_all])
            words = (self.command, library, self.text, growth, self.tried.job.model)
            found.append(f"memory: {refuse(*words)}")
        return found

    def calls(self) -> list[str]:
        """Some reads and writes of a few bytes fail, or are interrupted."""
        library, chance = self.tried.library, self.chance
        piece = max(chance.choice([1, 7, 40, 500, 5_000]), len(self.text) // 1_000)
        words = (self.command, library, self.text)
        counts = refused_service.run(*words, MOST_BYTES=piece).counts
        how = (piece, self.tried.job.model)
        for _ in range(SOME // 3):
            refused_service.fail_read(*words, chance.randint(1, counts.reads), *how)
            refused_service.fail_write(*words, chance.randint(1, counts.writes or 1), *how)
            refused_service.interrupt(*words, chance.randint(1, counts.reads), *how)
        return []


# Each as often as it is tried; the last ones want a program that is not run by another one.
Way = Callable[[Case], list[str]]
WAYS: list[Way] = [*[Case.step] * 8, Case.once, Case.file, Case.unread, *[Case.gone] * 2]
NATIVE_WAYS: list[Way] = [*[Case.growths] * 4, Case.calls, Case.calls]


class Result(NamedTuple):
    """What was counted, and what was different, in words."""

    counted: list[str]
    different: list[str]


def kept_input(text: bytes) -> str:
    """The name of a file that keeps an input."""
    with tempfile.NamedTemporaryFile(prefix="recline-service-", suffix=".in", delete=False) as kept:
        kept.write(text)
    return kept.name


def try_case(tried: Tried, number: int) -> Result:
    """Tries a case."""
    case = Case(tried, number)
    try:
        return Result(case.work(), [])
    except FAILURES as it:
        told = f"case {number} of seed {tried.seed}, {case.way.__name__}: {it}"
        return Result([], [f"{told}; its input is in {kept_input(case.text)}"])


def try_cases(tried: Tried, numbers: range, until: float) -> Result:
    """Tries cases until a time, some in any case, and to the first that is different."""
    result = Result([], [])
    for count, number in enumerate(numbers):
        if count >= FEWEST and time.monotonic() > until or result.different:
            break
        counted, different = try_case(tried, number)
        result.counted.extend(counted)
        result.different.extend(different)
    return result


def try_long(tried: Tried, size: int, name: str) -> Result:
    """Tries one of the trials with long inputs."""
    trial = dict(service_trials.all_trials(size, tried.job, not tried.library))[name]
    try:
        trial(tried.command, tried.job)
        return Result(["long"], [])
    except FAILURES as it:
        return Result([], [f"{name}: {it}"])


def try_growths(tried: Tried, number: int) -> Result:
    """Refuses each request for memory of an input, one in a run."""
    text = tried.job.some_input(random.Random(f"growths {tried.seed} {number}"))
    words = (tried.command, tried.library, text)
    counted = []
    growth = 0
    try:
        for growth in range(1, refused_service.run(*words).counts.growths + 1):
            refused = refused_service.refuse_growth(*words, growth, tried.job.model)
            counted.append(f"memory: {refused}")
    except FAILURES as it:
        told = f"input {number} of seed {tried.seed}, request {growth}: {it}"
        return Result(counted, [f"{told}; it is in {kept_input(text)}"])
    return Result(counted, [])


def try_forgets(tried: Tried, number: int, most: int) -> Result:
    """Refuses so many requests for memory of what lets go, one in a run or all from it on."""
    records = forget_trials.lines(random.Random(f"forgets {tried.seed} {number}"))
    words = (tried.command, tried.library, records, tried.job.model, most)
    try:
        return Result(forget_trials.refuse(*words), [])
    except FAILURES as it:
        kept = kept_input(b"".join(records))
        return Result([], [f"forgets {number} of seed {tried.seed}, {it}; it is in {kept}"])


# What is called, and with what.
Call = tuple[Callable[..., Result], tuple[Any, ...]]


def add_words(line: argparse.ArgumentParser) -> None:
    """Adds the words of this job to those that are read."""
    line.add_argument("--job", choices=JOBS, default="serve", help="what the service does (serve)")
    line.add_argument("--seconds", type=float, default=8, metavar="N", help="how long (8)")
    line.add_argument("--seed", type=int, default=1, metavar="S", help="where inputs start (1)")
    line.add_argument("--case", type=int, metavar="K", help="this case of the generator alone")
    line.add_argument("--only", metavar="NAME", help="the long trials whose names have this, alone")
    line.add_argument(
        "--size", type=int, default=100_000_000, metavar="BYTES", help="of long inputs (100000000)"
    )
    line.add_argument(
        "--growths", type=int, metavar="M", help="refuse each request of M inputs, and no more"
    )
    line.add_argument(
        "--patience", type=float, default=30, metavar="N", help="seconds to wait for an answer (30)"
    )
    line.add_argument("--program", help="the service's command (recline and the job)")
    line.add_argument("--is-script", action="store_true", help="the program is run by another one")
    line.add_argument("--run", help="the command that runs a script (recline run)")


def tried_of(asked: argparse.Namespace, folder: str) -> Tried:
    """What is tried; a script gets no library."""
    own = [] if asked.program else [preloaded.built_program()]
    command = shlex.split(asked.program) if asked.program else [*own, asked.job]
    run = shlex.split(asked.run) if asked.run else [*own, "run"] if own else []
    if asked.job == "collect":
        run = []  # its records are none of a script
    path = shutil.which(command[0])
    if not path:
        raise SystemExit(f"{command[0]} is no program")
    with open(path, "rb") as program:
        is_script = asked.is_script or program.read(2) == b"#!"
    library = "" if is_script else preloaded.compiled(folder)
    if library and not refused_service.run([path, *command[1:]], library, b"").counts.growths:
        library = ""
    return Tried(JOBS[asked.job], [path, *command[1:]], run, library, asked.seed)


def jobs(tried: Tried, asked: argparse.Namespace) -> Iterator[Call]:
    """What is done, each job apart."""
    if asked.case is not None:
        yield try_case, (tried, asked.case)
    elif asked.growths is not None:
        yield from ((try_growths, (tried, number)) for number in range(asked.growths))
        if tried.job.word == "serve":
            yield from ((try_forgets, (tried, it, EVERY)) for it in range(asked.growths))
    else:
        trials = service_trials.all_trials(asked.size, tried.job, not tried.library)
        names = [name for name, _ in trials]
        some = [name for name in names if (asked.only or "") in name]
        yield from ((try_long, (tried, asked.size, name)) for name in some)
        if asked.only is None:
            if tried.library and tried.job.word == "serve":
                yield from ((try_forgets, (tried, it, SOME)) for it in range(FORGETS))
            until, each = time.monotonic() + asked.seconds, os.cpu_count() or 1
            for first in range(each):
                yield try_cases, (tried, range(first, 10**9, each), until)


def run(asked: argparse.Namespace) -> int:
    """Does what is asked for, and answers the status."""
    conversations.patience = asked.patience
    with (
        tempfile.TemporaryDirectory(prefix="recline-service-") as folder,
        ProcessPoolExecutor(os.cpu_count()) as pool,
    ):
        tried = tried_of(asked, folder)
        found = [pool.submit(job, *values) for job, values in jobs(tried, asked)]
        results = [it.result() for it in found]
    counts = collections.Counter(itertools.chain.from_iterable(it.counted for it in results))
    different = [it for result in results for it in result.different]
    print("\n".join(different), end="\n" * bool(different))
    told = ", ".join(f"{many} {name}" for name, many in sorted(counts.items()))
    print(f"hostile service, {asked.job}: {told}; {len(different)} not as they must be")
    return 1 if different or not counts else 0
