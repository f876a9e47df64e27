"""What an operator is told: who was killed, the line, what is done again, and the certificate."""

import pathlib
import re
import subprocess
import sys
import textwrap
import time
from collections.abc import Sequence

from watches import Message, Recovery

TOP = pathlib.Path(__file__).resolve().parent.parent.parent
SECONDS_OF_SILENCE = 2.0  # before it is told how far all is
SECONDS_BETWEEN = 1.0
MOST_REPLAYS = 6  # that are told one by one
MOST_ENTRIES = 8  # of a certificate
WIDTH = 92  # characters
# A process of the service is a worker here, where processes are those of the system.
WORDS = [
    ("Processes", "Workers"),
    ("processes", "workers"),
    ("Process", "Worker"),
    ("process", "worker"),
]
ENTRY = re.compile(r" *\d+\. ")


def counted(count: int, one: str, many: str = "") -> str:
    """A number of things; a word alone takes an s."""
    return f"{count:,} {one if count == 1 else many or one + 's'}"


def named(workers: Sequence[int]) -> str:
    """Some workers."""
    numbers = ", ".join(str(worker) for worker in workers)
    return f"worker {numbers}" if len(workers) == 1 else f"workers {numbers}"


def replayed(message: Message) -> str:
    """A message that is sent again."""
    name = message.name
    under = f" (incarnation {name.incarnation})" if name.incarnation else ""
    return f"message {name.number} of worker {name.sender}{under} to worker {message.to}"


class Progress:
    """How far all is, on a terminal alone: on the last line of standard error, which is wiped."""

    def __init__(self, turns: int, run: str) -> None:
        self.turns, self.run = turns, run
        self.is_terminal = sys.stderr is not None and sys.stderr.isatty()
        self.next = time.monotonic() + SECONDS_OF_SILENCE
        self.is_there = False

    def is_at(self, turn: int) -> None:
        """Says which turn it is, once a second."""
        if self.is_terminal and time.monotonic() >= self.next:
            self.next = time.monotonic() + SECONDS_BETWEEN
            self.is_there = True
            told = f"{self.run}turn {turn} of {self.turns}"
            print(f"\r\x1b[K{told}", end="", file=sys.stderr, flush=True)

    def wipe(self) -> None:
        """Takes the line away."""
        if self.is_there:
            self.is_there = False
            print("\r\x1b[K", end="", file=sys.stderr, flush=True)


class Teller:
    """Tells on standard output what happens, and on a terminal which turn of which run it is."""

    def __init__(
        self, journal: str, program: str, turns: int, is_quiet: bool, run: str = ""
    ) -> None:
        self.journal, self.program, self.is_quiet = journal, program, is_quiet
        self.progress = Progress(turns, run)
        self.furthest = 0
        self.killed = self.recoveries = self.rounds = self.turns_again = 0

    def tell(self, line: str) -> None:
        """Prints a line."""
        if not self.is_quiet:
            self.progress.wipe()
            print(line, flush=True)

    def is_at(self, turn: int) -> None:
        """All workers are in this turn or a later one."""
        self.furthest = max(turn, self.furthest)
        self.progress.is_at(turn)

    def started(self, worker: int, process: int, turn: int) -> None:
        """A process was started for a worker."""
        self.tell(f"worker {worker} has the process id {process} and begins in turn {turn}")

    def died(self, worker: int, turn: int, how: str) -> None:
        """A worker was killed."""
        self.killed += 1
        self.tell(f"worker {worker} is killed in turn {turn}, {how}")

    def missed(self, worker: int) -> None:
        """A worker could not be killed as planned: it had ended."""
        self.tell(f"worker {worker} had ended before it could be killed")

    def begins_world(self) -> None:
        """A new world is about to begin, since the tapes of this one are getting full."""
        self.tell("the tapes are getting full: a new world begins from the line of all workers")

    def completed(self, number: int) -> None:
        """A round was completed."""
        self.rounds += 1

    def recovered(self, recovery: Recovery) -> None:
        """Tells the line, what is done again and what is sent again, and why."""
        self.recoveries += 1
        self.turns_again += sum(max(was - now, 0) for was, now in zip(recovery.was, recovery.now))
        self.tell(f"recovery {self.recoveries}: {named(recovery.failed)} failed")
        for worker, check in enumerate(recovery.plan.line):
            self.tell(f"  {self.place(recovery, worker, check)}")
        if recovery.last_round:
            checks = ", ".join(str(check) for check in recovery.last_round.checks)
            number = recovery.last_round.number
            told = f"nobody went back to before round {number}, the last completed: checks {checks}"
            self.tell(f"  {told}")
        self.tell_replays(recovery.replays)
        if not self.is_quiet and not recovery.is_next:
            self.explain()

    def place(self, recovery: Recovery, worker: int, check: int | None) -> str:
        """Where a worker goes on."""
        was, now = recovery.was[worker], recovery.now[worker]
        if check is None and worker in recovery.begin:
            return f"worker {worker} still has to begin in turn {now}"
        if check is None:
            return f"worker {worker} stays where it is, in turn {now}"
        place = f"its checkpoint {check}" if check else "its beginning"
        told = f"worker {worker} goes back to {place}, in turn {now}"
        return told + (f": it does {counted(was - now, 'turn')} again" if was > now else "")

    def tell_replays(self, messages: Sequence[Message]) -> None:
        """Tells which messages are sent again."""
        for message in messages[:MOST_REPLAYS]:
            self.tell(f"  replayed: {replayed(message)}")
        if len(messages) > MOST_REPLAYS:
            self.tell(f"  and {len(messages) - MOST_REPLAYS} more are replayed")

    # The journal is a script: so it can be explained and drawn.

    def shown_by(self, tool: str) -> bytes:
        """What ./explain or ./draw makes of the journal; where it cannot, why."""
        words = [str(TOP / tool), "--program", self.program]
        with open(self.journal, "rb") as script:
            ran = subprocess.run(words, stdin=script, capture_output=True, check=False)
        if ran.returncode:
            self.tell(f"  ./{tool} ended with status {ran.returncode}: {ran.stderr.decode()}")
        return ran.stdout

    def explain(self) -> None:
        """Tells why, in the words of ./explain: the certificate of the last recovery."""
        told = self.shown_by("explain").decode("ascii", "replace")
        for one, other in WORDS:
            told = told.replace(one, other)
        reasons = told.partition("\nThe recovery line:")[0].splitlines()[1:]
        entries = [line for line in reasons if ENTRY.match(line)]
        hidden = entries[MOST_ENTRIES // 2 : len(entries) - MOST_ENTRIES // 2]
        for line in reasons:
            if line not in hidden:
                self.tell_long(line)
            elif line == hidden[0]:
                self.tell_long(f"  .. and {len(hidden)} more")

    def tell_long(self, line: str) -> None:
        """Prints a long line, an entry of a list or a sentence, in lines of some width."""
        numbered = ENTRY.match(line)
        indent = " " * (numbered.end() if numbered else 0)
        for part in textwrap.wrap(line, WIDTH, subsequent_indent=indent):
            self.tell(f"  | {part}")

    def draw(self, path: str) -> None:
        """Writes the picture of the last recovery, or where there is none of the last records."""
        picture = self.shown_by("draw")
        if not picture:
            return
        pathlib.Path(path).write_bytes(picture)
        with open(self.journal, "rb") as journal:
            has_one = any(record.startswith(b"recover") for record in journal)
        if has_one:
            self.tell(f"the picture of the last recovery is {path}")
        else:
            self.tell(f"the journal has no recovery: the picture of its last records is {path}")
