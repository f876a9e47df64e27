"""How much work a failure costs, by when checkpoints are taken.

    scripts/measure lost_work            prints the figures
    scripts/measure lost_work --write    writes them into docs/ROUNDS.md, and the picture
    scripts/measure lost_work --check    compares both with what is stored

Four processes talk at random: in so many of a hundred turns a process sends a message to another
one, and in each it takes what has come by chance. After each tenth turn the service is asked where
all would go back to if one of them failed, for each one (--service COMMAND, ./recline serve). What
is lost are the turns of all four that would be done again. Each figure is of several computations,
whose random numbers begin with seeds of their own, so that all is the same each time.
"""

import argparse
import random
import shlex
import statistics
import sys
from collections.abc import Iterator
from typing import NamedTuple

import command_lines
import workspace

TOP = workspace.ROOT
sys.path.insert(0, str(TOP / "clients" / "python"))

from recline import Marked, Service

PAGE, PICTURE = TOP / "docs" / "ROUNDS.md", TOP / "docs" / "figures" / "lost_work.svg"
BEGIN, END = "<!-- scripts/measure lost_work: from here -->\n", "<!-- to here -->\n"
PROCESSES, TURNS, EVERY, SEEDS = 4, 200, 10, 5
OFTEN = 10  # turns from one checkpoint to the next
TALK = {5: "a message in 20 turns", 30: "three in 10 turns", 100: "one each turn"}
COLOURS = ["#b3261e", "#1f6f3f", "#2b4c9b"]


class Policy(NamedTuple):
    """When checkpoints are taken: by each alone, in a round, or both; each so many turns, or 0."""

    name: str
    alone: int
    rounds: int


POLICIES = [
    Policy("each takes one when it likes, about each 10 turns", OFTEN, 0),
    Policy("rounds, each 10 turns", 0, OFTEN),
    Policy("both: rounds each 10 turns, and when it likes", OFTEN, OFTEN),
    Policy("rounds, each 50 turns", 0, 50),
    Policy("both: rounds each 50 turns, and each 10 when it likes", OFTEN, 50),
]
SHOWN = POLICIES[:3]  # in the picture


class Loss(NamedTuple):
    """What a failure takes back: after which turn, and how many turns of all processes."""

    turn: int
    lost: int
    is_all: bool  # whether every process goes back to its initial state


class Talk:
    """Processes that talk, and what the service is told of it."""

    def __init__(self, service: Service, policy: Policy, percent: int, seed: int) -> None:
        self.service, self.policy, self.percent = service, policy, percent
        self.chance = random.Random(f"{policy.alone} {policy.rounds} {percent} {seed}")
        self.links: dict[tuple[int, int], int] = {
            (p, q): 0 for p in range(PROCESSES) for q in range(PROCESSES) if p != q
        }
        self.turn = 0
        self.checks: list[list[int]] = [[0] for _ in range(PROCESSES)]  # the turn of each
        self.taken = 0
        self.markers_left = 0

    def note_check(self, process: int) -> None:
        """A check was taken, in this turn."""
        self.checks[process].append(self.turn)
        self.taken += 1

    def send_markers(self, process: int) -> None:
        """The markers of a round are on the links from a process."""
        for (source, to) in self.links:
            if source == process:
                self.links[source, to] += 1

    def take_items(self, process: int) -> None:
        """A process takes each item that has come, by chance."""
        for (source, to), items in list(self.links.items()):
            for _ in range(items if to == process else 0):
                if self.chance.random() < 0.5:
                    break
                taken = self.service.deliver(source, to)
                self.links[source, to] -= 1
                if isinstance(taken, Marked):
                    self.markers_left -= 1
                    if taken.forced:
                        self.note_check(process)
                        self.send_markers(process)

    def do_turn(self) -> None:
        """A turn of each process."""
        self.turn += 1
        for process in self.chance.sample(range(PROCESSES), PROCESSES):
            if self.chance.randrange(100) < self.percent:
                to = self.chance.choice([it for it in range(PROCESSES) if it != process])
                self.service.send(process, to)
                self.links[process, to] += 1
            self.take_items(process)
            if self.policy.alone and self.chance.randrange(self.policy.alone) == 0:
                self.service.check(process)
                self.note_check(process)
        if self.policy.rounds and self.turn % self.policy.rounds == 0 and not self.markers_left:
            self.service.begin(0)
            self.note_check(0)
            self.send_markers(0)
            self.markers_left = len(self.links)

    def losses(self) -> Iterator[Loss]:
        """What each failure would take back now."""
        for failed in range(PROCESSES):
            line = self.service.bundle(failed).line
            lost = [
                0 if check is None else self.turn - turns[check]
                for check, turns in zip(line, self.checks)
            ]
            yield Loss(self.turn, sum(lost), all(check == 0 for check in line))


class Found(NamedTuple):
    """What came of a policy: its losses, and how many checkpoints a process takes in 100 turns."""

    losses: list[Loss]
    checks: float


def measured(service: list[str], policy: Policy, percent: int) -> Found:
    """The losses of several computations."""
    losses: list[Loss] = []
    taken = 0
    for seed in range(SEEDS):
        with Service(service, processes=PROCESSES) as machine:
            talk = Talk(machine, policy, percent, seed)
            while talk.turn < TURNS:
                talk.do_turn()
                if talk.turn % EVERY == 0:
                    losses += talk.losses()
            taken += talk.taken
    return Found(losses, taken * 100 / (SEEDS * PROCESSES * TURNS))


def table(found: dict[tuple[int, Policy], Found]) -> str:
    """The figures, for the page."""
    rows = ["| Talk | Checkpoints | Checkpoints of a process in 100 turns | Turns lost, mean "
            "| nine of ten lose at most | the worst | Back to the very beginning |",
            "|---|---|--:|--:|--:|--:|--:|"]
    for percent, talk in TALK.items():
        for policy in POLICIES:
            of_it = found[percent, policy]
            lost = sorted(it.lost for it in of_it.losses)
            late = [it for it in of_it.losses if it.turn > TURNS // 2]
            back = 100 * sum(it.is_all for it in late) / len(late)
            rows.append(
                f"| {talk} | {policy.name} | {of_it.checks:.1f} | {statistics.mean(lost):.0f} "
                f"| {lost[len(lost) * 9 // 10]} | {lost[-1]} | {back:.0f} % |"
            )
    return "\n".join(rows) + "\n"


def curve(losses: list[Loss]) -> list[tuple[int, float]]:
    """The mean loss by the turn of the failure."""
    turns = sorted({it.turn for it in losses})
    return [(0, 0.0)] + [
        (turn, statistics.mean(it.lost for it in losses if it.turn == turn)) for turn in turns
    ]


def picture(found: dict[tuple[int, Policy], Found]) -> str:
    """The mean losses as lines, of those who talk more."""
    width, height, left, top, most = 640, 300, 60, 20, PROCESSES * TURNS
    parts = [
        f'<svg xmlns="http://www.w3.org/2000/svg" viewBox="0 0 {width + 80} {height + 120}" '
        "font-family=\"'DejaVu Sans', Verdana, sans-serif\" font-size=\"13\" role=\"img\">",
        "<title>Turns that a failure takes back, by the turn in which it happens</title>",
        f'<rect width="{width + 80}" height="{height + 120}" fill="#ffffff"/>',
    ]
    for turns in range(0, most + 1, 200):
        y = top + height - height * turns / most
        parts.append(f'<line x1="{left}" y1="{y:.1f}" x2="{left + width}" y2="{y:.1f}" '
                     'stroke="#dddddd"/>')
        parts.append(f'<text x="{left - 8}" y="{y + 4:.1f}" text-anchor="end">{turns}</text>')
    for turn in range(0, TURNS + 1, 50):
        x = left + width * turn / TURNS
        parts.append(f'<text x="{x:.1f}" y="{top + height + 20}" text-anchor="middle">{turn}'
                     "</text>")
    parts.append(f'<text x="{left}" y="{top + height + 40}">turn of the failure; upwards: turns '
                 "of all four processes that are done again, the mean</text>")
    for number, (policy, colour) in enumerate(zip(SHOWN, COLOURS)):
        points = " ".join(
            f"{left + width * turn / TURNS:.1f},{top + height - height * lost / most:.1f}"
            for turn, lost in curve(found[max(TALK), policy].losses)
        )
        parts.append(f'<polyline points="{points}" fill="none" stroke="{colour}" '
                     'stroke-width="2"/>')
        y = top + height + 60 + 18 * number
        parts.append(f'<line x1="{left}" y1="{y - 4}" x2="{left + 24}" y2="{y - 4}" '
                     f'stroke="{colour}" stroke-width="3"/>')
        parts.append(f'<text x="{left + 32}" y="{y}">{policy.name}</text>')
    return "\n".join([*parts, "</svg>"]) + "\n"


def add_words(words: argparse.ArgumentParser) -> None:
    """Adds the words of this job to those that are read."""
    words.add_argument("--service", type=shlex.split, default=[str(TOP / "recline"), "serve"])
    what = words.add_mutually_exclusive_group()
    what.add_argument("--write", action="store_true")
    what.add_argument("--check", action="store_true")


def run(asked: argparse.Namespace) -> int:
    """Measures, and answers the status."""
    if asked.service[0] == str(TOP / "recline"):
        command_lines.runs(asked.service[0])
    found = {
        (percent, policy): measured(asked.service, policy, percent)
        for percent in TALK for policy in POLICIES
    }
    rows, drawn = table(found), picture(found)
    if not asked.write and not asked.check:
        print(rows, end="")
        return 0
    page = PAGE.read_text(encoding="utf-8")
    before, _, rest = page.partition(BEGIN)
    after = rest.partition(END)[2]
    wanted = f"{before}{BEGIN}\n{rows}\n{END}{after}"
    if asked.write:
        PAGE.write_text(wanted, encoding="utf-8")
        PICTURE.parent.mkdir(exist_ok=True)
        PICTURE.write_text(drawn, encoding="utf-8")
        return 0
    is_same = page == wanted and PICTURE.read_text(encoding="utf-8") == drawn
    print("lost work: as it is stored" if is_same else "lost work: docs/ROUNDS.md is out of date")
    return 0 if is_same else 1
