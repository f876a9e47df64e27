"""Clients and services that are killed at random: nothing that was answered is lost.

RECLINE_KILLS says how many are killed, 10 where it is not set, and RECLINE_SEED where the random
numbers begin.
"""

import hashlib
import os
import pathlib
import random
import subprocess
import sys
import tempfile
import threading
import time
import unittest
from collections.abc import Sequence
from typing import Any

from serving import HERE, SERVICE, history_of

import killed_client
import recline
from killed_client import done_before, is_question, shown
from slow_model.made_scripts import DOMINOES, ROUNDS, TALK, Player
from slow_model.texts import shown as field_of

KILLS = int(os.environ.get("RECLINE_KILLS", "10"))
SEED = os.environ.get("RECLINE_SEED", "1")
STEPS = 200


def record_of(command: Sequence[Any]) -> str:
    """A command as the client writes it: processes that failed once each and in order."""
    kind, *fields = command
    if kind in ("recover", "bundle"):
        fields = sorted(set(fields))
    return ",".join(map(field_of, [kind, *fields]))


# What is answered alike, whenever something was let go.
ALIKE = ("send", "deliver", "check", "begin", "recover", "plan", "live")


def some_steps(chance: random.Random, may_renew: bool) -> tuple[str, list[str]]:
    """A world and steps that are most of them sensible."""
    while True:
        player = Player(chance, [TALK, ROUNDS, DOMINOES])
        if player.n > 1 and (not may_renew or player.mode == "fifo"):
            break
    while len(player.commands) < STEPS:
        command = player.command()
        if not may_renew or command[0] in ALIKE:
            player.add(*command)
    if may_renew:
        player.add("recover", *range(player.n))
        player.add("forget")
    version = 1 if player.n <= 64 else 2
    return f"world,{version},{player.n},{player.mode}", list(map(record_of, player.commands))


class Run:
    """Some steps, done by clients that are killed, and what is told of them."""

    def __init__(self, folder: str, chance: random.Random) -> None:
        self.chance = chance
        self.script, self.journal = f"{folder}/script", f"{folder}/journal"
        self.every = chance.choice([0, 0, 1, 7, 30])  # records after which its journal begins anew
        self.world, self.steps = some_steps(chance, bool(self.every))
        pathlib.Path(self.script).write_text("\n".join([self.world, *self.steps]))
        self.opening = self.working = 0.0  # seconds
        self.wanted, self.history = self.without_kills()
        self.killed, self.services_killed = 0, 0
        self.told: list[str] = []
        self.answered = -1  # the last step that is no question and was answered

    def without_kills(self) -> tuple[list[str], str]:
        """What each step is answered, and the history."""
        _, _, processes, links = self.world.split(",")
        started = time.monotonic()
        with recline.Service(SERVICE, processes=int(processes), links=links) as service:
            opened = time.monotonic()
            answers = [
                shown(lambda: killed_client.called(service, step)) for step in self.steps
            ]
            self.opening, self.working = opened - started, time.monotonic() - opened
            return answers, service.history()

    def client(self, seconds: float) -> "subprocess.Popen[str]":
        """A client whose services are killed within so many seconds."""
        numbers = [self.chance.random(), seconds, self.every]
        words = [self.script, self.journal, *map(str, numbers)]
        return subprocess.Popen(
            [sys.executable, "-B", str(HERE / "killed_client.py"), *words, *SERVICE],
            stdout=subprocess.PIPE, text=True,
        )

    def life(self) -> bool:
        """A client from its start to its end, and whether it came to the end of the steps."""
        victims = self.chance.choice(["client", "services", "both"])
        client = self.client(0 if victims == "client" else self.opening + self.working)
        assert client.stdout
        begins, seconds = self.chance.choice(
            [("opening", self.opening), *[("open", self.working)] * 3]
        )
        if victims == "services":
            begins = ""  # nothing that is told
        killing = threading.Timer(self.chance.uniform(0, seconds), client.kill)
        is_at_end = False
        with client:
            for line in client.stdout:
                self.told.append(line)
                self.judge(*line.split(None, 2))
                is_at_end = line.startswith("history")
                if is_at_end:
                    killing.cancel()
                elif line.split()[0] == begins and not killing.ident:
                    killing.start()
            status = client.wait()
            killing.cancel()
        if status not in (0, -9):
            raise AssertionError(f"a client ended with status {status}")
        self.killed += status != 0
        return is_at_end

    def judge(self, kind: str, *words: str) -> None:
        """What a client tells, by what is told without kills."""
        if kind == "ended":
            self.services_killed += 1
        elif kind == "open":
            if int(words[0]) <= self.answered:
                raise AssertionError(f"step {self.answered} was answered, and is lost")
        elif kind in ("answer", "again"):
            step, value = int(words[0]), words[1].rstrip("\n")
            if value != self.wanted[step]:
                raise AssertionError(f"step {step}: {value}, and not {self.wanted[step]}")
            if kind == "answer" and not is_question(self.steps[step]):
                self.answered = max(self.answered, step)
        elif kind == "history" and words[0].rstrip("\n") != shown(lambda: self.history):
            raise AssertionError("the history is another one")

    def judge_journal(self) -> None:
        """That the journal has each step once, and that it is a script of the same machine.

        One that has begun anew has the last steps after the saved text.
        """
        text = pathlib.Path(self.journal).read_text()
        world, *records = text.splitlines()
        steps = [it for it in self.steps if not is_question(it)]
        if world != self.world:
            saved = next(at for at, record in enumerate(records) if record.startswith("saved,"))
            records = records[saved + 2:]
        records = [it for it in records if not is_question(it)]
        if world != self.world:
            steps = steps[len(steps) - len(records):]
        if records != steps:
            raise AssertionError("the journal has other steps")
        if history_of(text.encode()) != self.history:
            raise AssertionError("the journal gives another history")

    def kept(self) -> str:
        """The name of a file with the steps, what was told, and the journal."""
        with tempfile.NamedTemporaryFile("w", prefix="recline-client-", delete=False) as file:
            file.write("\n".join([self.world, *self.steps, "", *self.told, ""]))
            file.write(pathlib.Path(self.journal).read_text())
            return file.name

    def play(self) -> None:
        """To the end, and judges what is there then."""
        while not self.life():
            pass
        self.judge_journal()


class TestKills(unittest.TestCase):
    """Random steps and random kills."""

    def test_kills(self) -> None:
        killed = services_killed = runs = renewed = 0
        while killed + services_killed < KILLS:
            chance = random.Random(f"{SEED} {runs}")
            with tempfile.TemporaryDirectory() as folder:
                run = Run(folder, chance)
                try:
                    run.play()
                except AssertionError:
                    print(f"run {runs} of seed {SEED} is kept in {run.kept()}")
                    raise
            runs, renewed = runs + 1, renewed + (run.every > 0)
            killed, services_killed = killed + run.killed, services_killed + run.services_killed
        told = f"{runs} runs, {renewed} of them with journals that begin anew"
        print(f"{told}, {killed} clients killed and {services_killed} services")

    def test_places(self) -> None:
        steps = ["check,0,", "rounds", "send,0,1,", "history", "bundle,1"]
        self.assertEqual([done_before(steps, count) for count in (0, 1, 2)], [0, 1, 3])
        text = "a" * 200
        self.assertEqual(shown(lambda: text), hashlib.sha256(repr(text).encode()).hexdigest())


if __name__ == "__main__":
    unittest.main()
