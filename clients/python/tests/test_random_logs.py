"""Scripts of random computations make the tapes that these have."""

import io
import pathlib
import random
import tempfile
import unittest
from typing import Any

from serving import IS_LONG, answered

import from_logs
import log_scripts
from log_lines import Log
from test_from_logs import line


class Computation:
    """A computation of random steps, with the logs and the tapes of its processes."""

    def __init__(self, chance: random.Random, links: str, steps: int) -> None:
        self.chance, self.links, self.n = chance, links, chance.choice([2, 3, 5])
        self.logs: list[list[str]] = [[] for _ in range(self.n)]
        self.tapes: list[list[str]] = [[] for _ in range(self.n)]
        self.ways: dict[tuple[int, int], list[Any]] = {}
        self.rounds, self.sends = [0] * self.n, [0] * self.n
        for step in range(steps):
            self.step(step)

    def step(self, step: int) -> None:
        """Something that a process likes to do, if it can."""
        p = self.chance.randrange(self.n)
        kind = self.chance.choice(["send", "receive", "receive", "checkpoint", "marker"])
        if kind == "send":
            q = self.chance.choice([q for q in range(self.n) if q != p])
            self.logs[p].append(line(p, "send", message=f"m{step}", to=q, body=str(step)))
            self.tapes[p].append(f"send,{q},0,{str(step).encode().hex()}")
            name = f"m{step}", f"recv,{p},0,{self.sends[p]}", self.rounds[p]
            self.sends[p] += 1
            self.ways.setdefault((p, q), []).append(name)
        elif kind == "checkpoint":
            self.logs[p].append(line(p, "checkpoint", state=str(step)))
            self.tapes[p].append(f"check,{str(step).encode().hex()},-")
        elif kind == "receive":
            self.receive(p)
        elif self.may_begin(p):
            self.enter(p, self.rounds[p] + 1, {})

    def may_begin(self, p: int) -> bool:
        """Whether each process has ended the last round, and no marker is under way."""
        is_even = len(set(self.rounds)) == 1
        if self.links == "unordered":
            return is_even or self.rounds[p] < max(self.rounds)
        return is_even and not any(type(it) is int for way in self.ways.values() for it in way)

    def enter(self, p: int, number: int, others: dict[str, int]) -> None:
        """A process takes its check of a round."""
        self.rounds[p] = number
        self.logs[p].append(line(p, "marker", round=number, state="r", **others))
        self.tapes[p].append(f"check,72,{number}")
        if self.links == "fifo":
            for q in range(self.n):
                if q != p:
                    self.ways.setdefault((p, q), []).append(number)

    def receive(self, p: int) -> None:
        """A process takes the next item of a link, or any where links keep no order."""
        sender = self.chance.choice([q for q in range(self.n) if q != p])
        way = self.ways.get((sender, p))
        if not way:
            return
        item = way.pop(0 if self.links == "fifo" else self.chance.randrange(len(way)))
        if type(item) is int:
            if self.rounds[p] < item:
                self.enter(p, item, {"from": sender})
            else:
                self.logs[p].append(line(p, "marker", round=item, **{"from": sender}))
            self.tapes[p].append(f"mark,{sender},{item}")
            return
        name, event, number = item
        if self.links == "unordered" and self.rounds[p] < number:
            self.enter(p, number, {})
        self.logs[p].append(line(p, "receive", message=name))
        self.tapes[p].append(event)

    def history(self) -> str:
        """Its history text."""
        records = [f"history,1,{self.n}"]
        for p, tape in enumerate(self.tapes):
            records += [f"tape,{p},0", *tape]
        return "".join(f"{record}\n" for record in records)


class TestRandom(unittest.TestCase):
    """Random computations: the script makes the tapes that they have."""

    def test_each(self) -> None:
        for case in range(300 if IS_LONG else 30):
            chance = random.Random(case)
            links = chance.choice(["fifo", "unordered"])
            it = Computation(chance, links, chance.choice([10, 60, 200]))
            with self.subTest(case=case), tempfile.TemporaryDirectory() as folder:
                logs = self.written(chance, folder, it.logs)
                making, script = log_scripts.Making(links, it.n, False), io.BytesIO()
                with making.script:
                    from_logs.read(logs, making, from_logs.Progress())
                    making.write(script, [])
                answers = answered(script.getvalue() + b"history\n")
                self.assertNotIn("refused", answers)
                self.assertEqual(answers.split("\n\n")[-2].lstrip("\n") + "\n", it.history())

    def written(self, chance: random.Random, folder: str, logs: list[list[str]]) -> list[Log]:
        """The logs as files of a process each, or as one, mixed or one after the other."""
        kind = chance.choice(["each", "mixed", "after"])
        chance.shuffle(logs)
        texts = ["".join(lines) for lines in logs]
        if kind == "after":
            texts = ["".join(texts)]
        elif kind == "mixed":
            rest = [lines[:] for lines in logs if lines]
            mixed = []
            while rest:
                lines = chance.choice(rest)
                mixed.append(lines.pop(0))
                rest = [it for it in rest if it]
            texts = ["".join(mixed)]
        files = []
        for place, text in enumerate(texts):
            path = pathlib.Path(folder, str(place))
            path.write_text(text)
            file = open(path, "rb")
            self.addCleanup(file.close)
            files.append(Log(str(path), file))
        return files


if __name__ == "__main__":
    unittest.main()
