"""Refuses the program each of its requests for memory, one in a run.

    scripts/trial memory [PROGRAM] [--every K] [--cases M] [--seed S] [--collect WORDS]

PROGRAM is the built program of this repository where none is given. A text is run once to count
its requests for memory (malloc, calloc, realloc, aligned_alloc, posix_memalign), and then once
for each of them, the first, the second and so on, which alone is refused; with K one of K of
them. The texts are all examples, and M made scripts in either mode, made claims (40), and half as
many made reports. With K drills are left out: their workers wait long for one that has no memory.

A run that is refused memory must end with status 3 and one line on standard error that says so,
and its standard output must be a prefix of the right one; where that line names a command, the
replies to all commands before it must be there. Or it is answered as if nothing were refused. Of
a drill's workers the lowest is told, which may be one that waited in vain for the one without
memory.

A service (`serve`, and `collect`, which is another command with --collect, in words of a shell)
answers `fault,0,OutOfMemory` to the record that is refused memory, which then has changed nothing:
each other record has the answer of the slow model, to which that record was not told. But a record
of a saved machine drops what was read of that. Status 3 comes only before anything was read. The
last line says how many runs were as they must be; the status is 0 where all were.
"""

import argparse
import collections
import functools
import os
import random
import re
import shlex
import tempfile
from collections.abc import Callable
from concurrent.futures import ThreadPoolExecutor

import preloaded
import refused_service
from conversations import Difference
from preloaded import Answer, Counts, Text
from service_jobs import JOBS
from slow_model.made_claims import some_check_text
from slow_model.made_reports import some_reports
from slow_model.made_scripts import some_script
from slow_model.scripts import read_saved_text
from slow_model.service import Service

# A thread that cannot be started may have wanted memory.
WANTED = re.compile(
    rb"recline: (record (\d+): |worker \d+ order \d+: )?(0 OutOfMemory|39 NoThread)\n"
)
WAITED = re.compile(rb"recline: worker \d+ order \d+: 30 WaitedOut\n")


def made_texts(cases: int, seed: int) -> list[Text]:
    """Made scripts and claims, the same for the same seed."""
    found = []
    for case in range(cases):
        chance = random.Random(f"growths {seed} {case}")
        if case % 3 == 2:
            found.append(Text(f"claim {case}", ["check"], some_check_text(chance)))
        else:
            found.append(Text(f"script {case}", ["run"], some_script(chance)))
    for case in range(cases // 2):
        chance = random.Random(f"growths of reports {seed} {case}")
        found.append(Text(f"reports {case}", ["collect"], some_reports(chance)))
    return found


def tried_examples(every: int) -> list[Text]:
    """The examples that are tried where one request of so many is refused."""
    return [it for it in preloaded.examples() if every == 1 or "drill" not in it.words]


class Trial:
    """A text, what it is answered, and what the runs with a refusal come to."""

    def __init__(self, program: str, library: str, it: Text):
        self.program, self.library, self.text = program, library, it
        self.prefixes: dict[int, bytes] = {}
        self.right, counts = self.run(0)
        self.growths = counts.growths

    def run(self, growth: int) -> tuple[Answer, Counts]:
        """A run in which this request is refused, none where it is 0."""
        settings = {"REFUSED_GROWTH": growth}
        return preloaded.answered(self.program, self.library, self.text, settings)

    def prefix(self, record: int) -> bytes:
        """The replies to the commands before this record."""
        if record not in self.prefixes:
            lines = self.text.text.splitlines(keepends=True)
            records = [it for it in lines if it.strip(b"\r\n")]
            before = self.text._replace(text=b"".join(records[: max(record - 1, 1)]))
            answer, _ = preloaded.answered(self.program, self.library, before, {})
            self.prefixes[record] = answer.output
        return self.prefixes[record]

    def is_refused(self, answer: Answer) -> bool:
        """Whether the answer is that of a run that wanted memory."""
        if "drill" in self.text.words and answer.status == 1 and not answer.output:
            return WAITED.fullmatch(answer.said) is not None
        line = WANTED.fullmatch(answer.said)
        if answer.status != 3 or not line or not self.right.output.startswith(answer.output):
            return False
        record = int(line[2] or 0)
        return record == 0 or answer.output.startswith(self.prefix(record))

    def kind(self, growth: int) -> str:
        """What a run with this request refused comes to."""
        answer, _ = self.run(growth)
        if answer == self.right:
            return "answered"
        if self.is_refused(answer):
            return "refused"
        print(f"{self.text.name}, request {growth} of {self.growths}: {answer}", flush=True)
        return "wrong"


class ServiceTrial(Trial):
    """A text that a service answers, and what the runs with a refusal come to."""

    def __init__(self, command: list[str], library: str, it: Text, model: Callable[[], Service]):
        self.command, self.model = command, model
        super().__init__(command[0], library, it._replace(words=command[1:]))

    def kind(self, growth: int) -> str:
        """What a run with this request refused comes to."""
        words = (self.command, self.library, self.text.text, growth, self.model)
        try:
            told = refused_service.refuse_growth(*words)
        except Difference as it:
            print(f"{self.text.name}, request {growth} of {self.growths}: {it}", flush=True)
            return "wrong"
        return "answered" if told == "answered" else "refused"


def opened(path: str) -> Service:
    """The model of a service that has opened the saved machine of a file."""
    service = Service()
    service.world = read_saved_text((preloaded.TOP / path).read_bytes())
    return service


def trial_of(program: str, collect: list[str], library: str, it: Text) -> Trial:
    """The trial of a text, by the program or by another command that collects."""
    if it.words == ["collect"]:
        return ServiceTrial(collect, library, it, JOBS["collect"].model)
    if it.words == ["serve"]:
        return ServiceTrial([program, "serve"], library, it, Service)
    # Where the file has no saved machine, the program ends as it does for a bad text.
    if it.words[:2] == ["serve", "--from"] and it.words[2].endswith(".txt"):
        model = functools.partial(opened, it.words[2])
        return ServiceTrial([program, *it.words], library, it, model)
    return Trial(program, library, it)


def kind_of(run: tuple[Trial, int]) -> str:
    """What a run comes to: a text, and which of its requests is refused."""
    trial, growth = run
    return trial.kind(growth)


def add_words(line: argparse.ArgumentParser) -> None:
    """Adds the words of this job to those that are read."""
    line.add_argument("program", nargs="?", help="the program")
    line.add_argument("--every", type=int, default=1, metavar="K", help="one request of K (1)")
    line.add_argument("--cases", type=int, default=40, metavar="M", help="how many made texts (40)")
    line.add_argument("--seed", type=int, default=1, metavar="S", help="where made texts start (1)")
    line.add_argument("--collect", metavar="WORDS", help="what collects (PROGRAM collect)")


def run(asked: argparse.Namespace) -> int:
    """Runs all texts, and answers the status."""
    program = asked.program or preloaded.built_program()
    collect = shlex.split(asked.collect) if asked.collect else [program, "collect"]
    texts = tried_examples(asked.every) + made_texts(asked.cases, asked.seed)
    counts: collections.Counter[str] = collections.Counter()
    with (
        tempfile.TemporaryDirectory(prefix="recline-growths-") as folder,
        ThreadPoolExecutor(os.cpu_count()) as pool,
    ):
        library = preloaded.compiled(folder)
        trials = list(pool.map(lambda it: trial_of(program, collect, library, it), texts))
        every = [(it, growth) for it in trials for growth in range(1, it.growths + 1)]
        runs = every[:: asked.every]
        counts.update(pool.map(kind_of, runs))
    wrong = counts["wrong"] + sum(it.growths == 0 or it.right.status is None for it in trials)
    print(
        f"refused growths: {len(runs)} runs over {len(texts)} texts: {counts['refused']} said that"
        f" memory was out, {counts['answered']} were answered all the same,"
        f" {wrong} not as they must be"
    )
    return 1 if wrong else 0
