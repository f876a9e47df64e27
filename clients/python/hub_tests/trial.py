"""A trial: ranks, the hub, the service and connections are killed at random, and nothing is lost.

    trial.py [--runs N] [--seed S] [--ranks N] [--turns N] [--kills N] [--collect COMMAND]

Ranks compute and report to the hub, by a program that cuts connections. At the end the value of
each rank must be the one without failures, and the history of the journal must have each message,
each receipt and no other, each once.
"""

from __future__ import annotations

import argparse
import contextlib
import json
import os
import pathlib
import random
import shlex
import shutil
import subprocess
import sys
import tempfile
import time
from collections.abc import Callable
from typing import Any

sys.dont_write_bytecode = True  # leaves nothing beside the tests
HERE = pathlib.Path(__file__).resolve().parent
sys.path[:0] = [str(HERE), str(HERE.parent)]

import ring
from cutting import Cutter
from hubs import COMMAND
from recline_report import Hub, HubError
from recline_report.wire import first_line

MOST_SECONDS = 300


class Failure(Exception):
    """What is not as it must be."""


class Trial:
    """A hub, ranks that report to it, and what is done to them."""

    token: str | None = None  # the file with what both ends have to have

    def __init__(self, asked: argparse.Namespace, seed: str, folder: str) -> None:
        self.chance = random.Random(seed)
        self.ranks, self.turns, self.kills = asked.ranks, asked.turns, asked.kills
        self.command = shlex.split(asked.collect)
        self.folder, self.journal = folder, f"{folder}/journal"
        self.options = [it for it in ("--auto", "--durable") if self.chance.random() < 0.4]
        self.options += ["--forget-every", "25"] if self.chance.random() < 0.5 else []
        self.is_automatic = "--auto" in self.options
        self.address = self.listens_at()
        self.environment = {**os.environ, "PYTHONPATH": str(HERE.parent),
                            "PYTHONDONTWRITEBYTECODE": "1"}
        self.log = open(f"{folder}/log", "wb")
        self.hub_process = self.start_hub()
        self.cutter = Cutter(f"{folder}/cut", f"{folder}/hub")
        self.hub = Hub(self.address, self.token)
        self.lives = [self.start_rank(rank) for rank in range(self.ranks)]
        self.done: list[str] = []

    def listens_at(self) -> str:
        """Where the hub listens."""
        return f"unix:{self.folder}/hub"

    def start_hub(self) -> subprocess.Popen[bytes]:
        """Starts the hub."""
        words = ["--listen", self.address, "--processes", str(self.ranks), "--journal",
                 self.journal, "--collect", shlex.join(self.command), "--within", "20"]
        return subprocess.Popen(
            [sys.executable, "-m", "recline_hub", *words, *self.options],
            env=self.environment, stderr=self.log,
        )

    def start_rank(self, rank: int) -> subprocess.Popen[bytes]:
        """Starts a life of a rank."""
        cut = f"unix:{self.folder}/cut"
        words = [str(rank), str(self.ranks), str(self.turns), self.folder, cut]
        return subprocess.Popen(
            [sys.executable, str(HERE / "rank.py"), *words], env=self.environment,
            stdin=subprocess.PIPE, stderr=self.log,
        )

    # What is done to them.

    def kill_ranks(self) -> None:
        """Kills one rank or two, and starts them again."""
        failed = self.chance.sample(range(self.ranks), self.chance.choice([1, 1, 2]))
        for rank in failed:
            self.lives[rank].kill()
        for rank in failed:
            self.end(self.lives[rank])
            with contextlib.suppress(FileNotFoundError):
                os.unlink(f"{self.folder}/done{rank}")
            self.lives[rank] = self.start_rank(rank)
        if not self.is_automatic and self.chance.random() < 0.5:
            with contextlib.suppress(HubError, OSError):
                self.hub.recover(failed, 20)

    def kill_hub(self) -> None:
        """Kills the hub, and starts it again."""
        self.hub_process.kill()
        self.hub_process.wait()
        time.sleep(self.chance.choice([0, 0.1]))
        self.hub_process = self.start_hub()

    def kill_service(self) -> None:
        """Kills the service, which is a child of the hub that runs."""
        pid = self.status().get("service", {}).get("pid")
        if pid:
            with contextlib.suppress(ProcessLookupError):
                os.kill(pid, 9)

    def forget(self) -> None:
        """Has the hub let go what no recovery needs."""
        with contextlib.suppress(HubError, OSError):
            self.hub.forget()

    def do_something(self) -> str:
        """Does one of these."""
        kinds = self.kinds()
        kind = self.chance.choice(["rank", "rank", *kinds])
        kinds[kind]()
        return kind

    def kinds(self) -> dict[str, Callable[[], None]]:
        """What can be done, by its name."""
        return {"rank": self.kill_ranks, "hub": self.kill_hub, "service": self.kill_service,
                "connections": self.cutter.cut, "forget": self.forget}

    def status(self) -> dict[str, Any]:
        """What the hub says of itself, where there is one."""
        with contextlib.suppress(HubError, OSError):
            return self.hub.status()
        return {}

    # What must come of it.

    def run(self) -> None:
        """Kills at random, and waits for the results."""
        self.wait_for_begin()
        for _ in range(self.kills):
            time.sleep(self.chance.uniform(0.02, 0.4))
            self.done.append(self.do_something())
        values = self.wait_for_results()
        for life in self.lives:
            assert life.stdin
            life.stdin.close()
        for rank, life in enumerate(self.lives):
            if life.wait(MOST_SECONDS):
                raise Failure(f"rank {rank} ended with status {life.returncode}")
        wanted, bodies = ring.results(self.ranks, self.turns)
        if values != [value.hex() for value in wanted]:
            raise Failure(f"the values are {values}")
        self.hub_process.terminate()
        self.hub_process.wait()
        self.test_journal(bodies)

    def wait_for_begin(self) -> None:
        """Waits until all report: what is sent to a rank before may be lost with nobody failing."""
        end = time.monotonic() + MOST_SECONDS
        while time.monotonic() < end:
            if {it["state"] for it in self.status().get("processes", [])} == {"reports"}:
                return
            time.sleep(0.02)
        raise Failure(f"the ranks do not report: {self.status()}")

    def wait_for_results(self) -> list[str]:
        """The values of all ranks, once all are done after the last recovery."""
        end = time.monotonic() + MOST_SECONDS
        while time.monotonic() < end:
            self.restart_the_failed()
            status = self.status()
            with contextlib.suppress(FileNotFoundError):
                files = [pathlib.Path(f"{self.folder}/done{rank}") for rank in range(self.ranks)]
                found = [json.loads(file.read_text()) for file in files]
                is_last = all(number == status.get("recoveries") for _, number in found)
                if is_last and not status.get("recovering") and self.status() == status:
                    return [value for value, _ in found]
            time.sleep(0.1)
        raise Failure(f"no results within {MOST_SECONDS} seconds: {self.status()}")

    def restart_the_failed(self) -> None:
        """Starts ranks again that count as failed, and recovers where nobody else does."""
        for rank, life in enumerate(self.lives):
            if life.poll() is not None:
                if life.returncode not in (3, -9):
                    raise Failure(f"rank {rank} ended with status {life.returncode}")
                self.lives[rank] = self.start_rank(rank)
        processes = self.status().get("processes", [])
        lost = [it["process"] for it in processes if it["state"] == "lost"]
        if lost and not self.is_automatic:
            with contextlib.suppress(HubError, OSError):
                self.hub.recover(lost, 20)

    def test_journal(self, bodies: list[list[bytes]]) -> None:
        """The journal has each note once, and nothing in it is refused.

        The plans are those of a journal in which nothing is let go.
        """
        text = pathlib.Path(self.journal).read_bytes()
        if not text.startswith(first_line(self.ranks).encode() + b"\n"):
            raise Failure("the journal does not begin as it must")
        notes = [line for line in text.splitlines(True) if line != b"forget\n"]
        *_, plan, _ = self.answers(text)
        *_, plan_of_all, history = self.answers(b"".join(notes))
        if plan != plan_of_all:
            raise Failure(f"the plan is {plan}, and {plan_of_all} where nothing is let go")
        tapes = [tape.split("\n") for tape in history.split("\ntape,")[1:]]
        sends = [[it.split(",")[1:] for it in tape if it.startswith("send,")] for tape in tapes]
        for rank, tape in enumerate(tapes):
            wanted = [[str(ring.receiver(rank, self.ranks, turn)), body.hex()]
                      for turn, body in enumerate(bodies[rank])]
            if [[to, body] for to, _, body in sends[rank]] != wanted:
                raise Failure(f"rank {rank} has other messages")
            received = [it.split(",")[1:] for it in tape if it.startswith("recv,")]
            senders = [ring.sender(rank, self.ranks, turn) for turn in range(self.turns)]
            names = [[str(it), sends[it][turn][1], str(turn)] for turn, it in enumerate(senders)]
            if received != names:
                raise Failure(f"rank {rank} has other receipts")

    def answers(self, text: bytes) -> list[str]:
        """The answers to a journal, a plan and the history among them, none of which refuses."""
        text += b"plan,0\nhistory\n"
        ran = subprocess.run(self.command, input=text, stdout=subprocess.PIPE, check=False)
        *answers, _ = ran.stdout.decode().split("\n\n")
        bad = [answer for answer in answers if answer.startswith(("refused", "fault"))]
        if bad or ran.returncode:
            raise Failure(f"the journal's answers have {bad[:3]}, status {ran.returncode}")
        return answers

    def end(self, life: subprocess.Popen[bytes]) -> None:
        """Waits for a process that was killed."""
        if life.stdin:
            life.stdin.close()
        life.wait()

    def close(self) -> None:
        """Ends all that still runs."""
        for process in [*self.lives, self.hub_process]:
            process.kill()
            self.end(process)
        self.cutter.close()
        self.log.close()


def words() -> argparse.Namespace:
    """The words of the command line."""
    form = argparse.RawDescriptionHelpFormatter
    line = argparse.ArgumentParser(description=__doc__, formatter_class=form)
    line.add_argument("--runs", type=int, default=3)
    line.add_argument("--seed", default="1")
    line.add_argument("--ranks", type=int, default=3)
    line.add_argument("--turns", type=int, default=60)
    line.add_argument("--kills", type=int, default=5)
    line.add_argument("--collect", default=COMMAND)
    return line.parse_args()


def run_all(asked: argparse.Namespace, kind: type[Trial]) -> int:
    """Runs the trials, and answers the status."""
    for run in range(asked.runs):
        folder = tempfile.mkdtemp(prefix="recline-hub-")
        start = time.monotonic()
        trial = kind(asked, f"{asked.seed} {run}", folder)
        try:
            trial.run()
        except (Failure, subprocess.TimeoutExpired) as failure:
            print(f"run {run} of seed {asked.seed}, after {trial.done}: {failure}")
            print(f"what it left is in {folder}")
            return 1
        finally:
            trial.close()
        text = pathlib.Path(trial.journal).read_text()
        recoveries, forgets = text.count("\nrecover"), text.count("\nforget")
        print(f"run {run}: the same bits after {', '.join(trial.done)}; {recoveries} recoveries, "
              f"{forgets} times let go, {time.monotonic() - start:.1f} s", flush=True)
        shutil.rmtree(folder)
    return 0


if __name__ == "__main__":
    sys.exit(run_all(words(), Trial))
