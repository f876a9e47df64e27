"""Compares `recline collect` with a slow model of it, and with scripts of the same events.

Usage: scripts/trial reports [--cases N] [--prefixes M] [--seed S]
                             [--program PATH | --collect COMMAND] [--keep-going] [--counts]

Each case is a random computation of 1 to 256 processes over links of either kind, with recoveries,
from the generator of scripts/trial scripts. What each process did becomes its reports, and those
of all processes are interleaved at random, twice. The answers of the program must be those of the
slow model (scripts/slow_model/collecting.py), to the byte, and the plans, histories and bundles
among them those that the machine of `recline run` gives for the script of the same events; the
program runs that script too. Some inputs have reports that are late by an incarnation, receipts of
messages that were cut, and lines with faults; some are cut off at a random byte; some come in
pieces, of which each must be answered before the next one comes. The line of each `live` must be
consistent in what is reported later. One input of each case comes once more with `forget` at random
places: each answer must be the same as without, to the byte, but for the texts of what is kept, and
each claim in these must be valid; what is refused for what was let go is left out without. Of M
short inputs (1) every prefix is tried: each of its
records has its answer, and what is left of the last one has a fault. With `--collect` only that
command is tried, such as scripts/slow_collect. A case that differs is told, and its input kept in a
file; the status is then 1.
"""

import argparse
import collections
import os
import random
import select
import shlex
import subprocess
import tempfile
import time
from collections.abc import Sequence

import command_lines
import workspace
from slow_model import claims
from slow_model.collecting import Collecting
from slow_model.histories import Floor
from slow_model.made_conversations import some_pieces
from slow_model.made_reports import Input, Reporting, with_forgets
from slow_model.made_texts import one_in
from slow_model.texts import NOW, Record, choice, earliest_version, written

TOP = workspace.ROOT
MOST_SECONDS = 60
# Bytes of an input whose every prefix is tried, at least and at most.
SHORT = range(150, 500)


def answers_of(lines: Sequence[bytes]) -> tuple[list[bytes], int]:
    """What the slow model answers to each line, and its status; the lines of `live` are tried."""
    service = Collecting()
    answers = []
    lives: list[list[int]] = []
    for line in lines:
        answers.append(service.take(line + b"\n"))
        text = answers[-1]
        if line == b"live" and text.startswith(b"planned"):
            lives.append([choice(it.split(",")[2]) for it in text.decode().split("\n")
                          if it.startswith("line,")])
        if line.startswith(b"recover") and text.startswith(b"recovered"):
            lives = []
        if line.startswith((b"plan", b"recover")) and service.collection:
            for live in lives:
                if not service.collection.history.is_consistent(live) or NOW in live:
                    raise AssertionError(f"the line of live does not stay consistent: {live}")
    return answers, service.status


def is_of_gone(line: bytes, floors: Sequence[Floor]) -> bool:
    """Whether a report is of what was let go, and so refused."""
    kind, *rest = line.split(b",")
    values = [int(it) for it in rest if it.isdigit()]
    if kind == b"damage":
        return values[1] <= floors[values[0]].check
    if kind == b"bar":
        return values[1] < floors[values[0]].check
    return kind == b"recv" and values[4] < floors[values[2]].sends


def first_other(lines: Sequence[bytes]) -> int | None:
    """The place of the first line whose answer is another one where nothing is let go, or none.

    There the slow model is not told what was refused for what was let go.
    """
    letting, keeping = Collecting(), Collecting()
    for place, line in enumerate(lines):
        answer = letting.take(line + b"\n")
        collection = letting.collection
        if line == b"forget":
            continue
        if collection and answer.startswith(b"refused") and is_of_gone(line, collection.floors):
            continue
        wanted = keeping.take(line + b"\n")
        kind, _, _ = line.partition(b",")
        if kind == b"bundle" and answer.startswith(b"history"):
            wanted, answer = b"valid\n", claims.check(answer.removesuffix(b"\n"))[0]
        if kind != b"history" and answer != wanted:
            return place
    return None


def told_at_once(command: list[str], pieces: Sequence[bytes]) -> tuple[bytes, int]:
    """What the program answers to an input, and its status."""
    text = b"".join(pieces)
    ran = subprocess.run(command, input=text, capture_output=True, timeout=MOST_SECONDS,
                         check=False)
    return ran.stdout + ran.stderr, ran.returncode


def told_in_pieces(
    command: list[str], pieces: Sequence[bytes], answers: Sequence[bytes]
) -> tuple[bytes, int]:
    """The same for pieces, each of which goes out once those before it are answered."""
    pipe = subprocess.PIPE
    with subprocess.Popen(command, stdin=pipe, stdout=pipe, bufsize=0) as program:
        assert program.stdin and program.stdout
        output = b""
        for piece, wanted in zip(pieces, answers):
            program.stdin.write(piece)
            end = time.monotonic() + MOST_SECONDS
            while len(wanted) > 0:
                left = max(end - time.monotonic(), 0)
                if not select.select([program.stdout], [], [], left)[0]:
                    program.kill()
                    return output + b"(no answer to a piece)", -1
                got = os.read(program.stdout.fileno(), len(wanted))
                output, wanted = output + got, wanted[len(got):]
                if not got:
                    break
        program.stdin.close()
        output += program.stdout.read()
        return output, program.wait(MOST_SECONDS)


def kept(text: bytes) -> str:
    """A file that has the input of a case."""
    with tempfile.NamedTemporaryFile(prefix="recline-case-", suffix=".in", delete=False) as file:
        file.write(text)
    return file.name


class Trial:
    """The programs that are tried, and what was counted."""

    def __init__(self, collect: list[str], run: list[str] | None, prefixes: int) -> None:
        self.collect, self.run, self.prefixes = collect, run, prefixes
        self.counts: collections.Counter[str] = collections.Counter()

    def try_case(self, chance: random.Random) -> str | None:
        """Tries a case, and tells what differs, or none."""
        player = Reporting(chance).play()
        if self.run:
            world: Record = ("world", earliest_version(player.n), player.n, player.mode)
            script = written([world, *player.commands])
            output, _ = told_at_once(self.run, [script])
            if output != b"".join(player.output):
                return f"`run` differs: its script is in {kept(script)}"
        late = Input(chance, player, False)
        return (
            self.try_input(Input(chance, player, True)) or self.try_input(late)
            or self.try_forgets(late)
        )

    def try_forgets(self, made: Input) -> str | None:
        """Tries an input with `forget` at random places, and compares it with the same without."""
        lines = with_forgets(made.chance, made.lines)
        place = first_other(lines)
        if place is not None:
            text = b"\n".join(lines[:place + 1]) + b"\n"
            return f"line {place + 1} differs without `forget`: the input is in {kept(text)}"
        return self.compare([b"".join(line + b"\n" for line in lines)])

    def try_input(self, made: Input) -> str | None:
        """Tries an interleaving, plain, or cut off, in pieces or with faults."""
        answers, _ = answers_of(made.lines)
        for place, wanted in made.wanted.items():
            if answers[place] != wanted:
                text = b"\n".join(made.lines[:place + 1]) + b"\n"
                return f"line {place + 1} differs from the script: the input is in {kept(text)}"
        if made.is_plain:
            pieces = [line + b"\n" for line in made.lines]
            return self.compare(pieces) or self.try_prefixes(b"".join(pieces))
        lines = made.with_faults() if one_in(made.chance, 3) else made.lines
        text = b"\n".join(lines) + b"\n"
        if one_in(made.chance, 3):
            text = text[:made.chance.randint(0, len(text))]
        return self.compare(some_pieces(made.chance, text) or [b""], one_in(made.chance, 6))

    def try_prefixes(self, text: bytes) -> str | None:
        """Tries every prefix of a short input, as long as there is to try one."""
        if self.prefixes == 0 or len(text) not in SHORT:
            return None
        self.prefixes -= 1
        found = (self.compare([text[:count]]) for count in range(len(text)))
        return next(filter(None, found), None)

    def compare(self, pieces: Sequence[bytes], is_slow: bool = False) -> str | None:
        """Compares the program's answers to an input with those of the model."""
        service = Collecting()
        answers = [service.take(piece) for piece in pieces]
        wanted = b"".join(answers) + service.end(), service.status
        for record in wanted[0].split(b"\n"):
            first, *rest = record.decode().split(",")
            is_no = first in ("refused", "fault")
            self.counts[f"{first} {','.join(rest)}" if is_no else first] += 1
        if is_slow:
            got = told_in_pieces(self.collect, pieces, answers)
        else:
            got = told_at_once(self.collect, pieces)
        if got == wanted:
            return None
        place = next((i for i, (a, b) in enumerate(zip(got[0], wanted[0])) if a != b),
                     min(len(got[0]), len(wanted[0])))
        return (f"`collect` differs: the input is in {kept(b''.join(pieces))}\n"
                f"status {got[1]}, wanted {wanted[1]}; from byte {place} of the output on\n"
                f"{got[0][place:place + 200]!r}\nwanted\n{wanted[0][place:place + 200]!r}")


def add_words(line: argparse.ArgumentParser) -> None:
    """Adds the words of this job to those that are read."""
    line.add_argument("--cases", type=int, default=200, help="how many cases (200)")
    line.add_argument("--prefixes", type=int, default=1, metavar="M",
                      help="of how many short inputs every prefix is tried (1)")
    line.add_argument("--seed", type=int, default=1, help="where the generator starts (1)")
    line.add_argument(
        "--program", default=str(TOP / "recline"), help="the program (./recline, which also builds)"
    )
    line.add_argument("--collect", default="", help="this command alone, in place of the program")
    line.add_argument("--keep-going", action="store_true", help="go on after a case that differs")
    line.add_argument(
        "--counts", action="store_true", help="print how often each kind of answer came"
    )


def run(asked: argparse.Namespace) -> int:
    """Tries the cases, and answers the status."""
    trial = Trial([asked.program, "collect"], [asked.program, "run"], asked.prefixes)
    if asked.collect:
        trial = Trial(shlex.split(asked.collect), None, asked.prefixes)
    elif not command_lines.runs(asked.program):
        print(f"{asked.program} does not run")
        return 1
    different = 0
    for case in range(asked.cases):
        found = trial.try_case(random.Random(f"{asked.seed} {case}"))
        if found:
            different += 1
            print(f"case {case} of seed {asked.seed}: {found}", flush=True)
            if not asked.keep_going:
                return 1
    if asked.counts:
        for kind, times in sorted(trial.counts.items()):
            print(f"{times:8} {kind}")
    if different:
        print(f"{asked.cases} cases: {different} differ")
        return 1
    print(f"{asked.cases} cases: reports and scripts of the same events agree")
    return 0
