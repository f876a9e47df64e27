"""Messages a second between workers in threads, of two and of eight.

Usage: scripts/measure posts [--beside PROGRAM] [--rounds K]

Workers send messages of 40 bytes, each message a Send on one tape and a Recv on another, at
capacity 1 and 1,024; nothing is reported. One way: worker 0 sends, worker 1 receives. Exchange: in
each turn each of eight workers sends one message to each other one and then receives one of each.
Where a ring has no slot, or nothing, a worker yields and tries again. Each is timed nine times,
from the start of the threads to the end of the last; the table has the median and the best, in
million messages a second. The timing program is bench/post_speed/main.rattle; it is proved like all
others, but is no crate of the repository, since it prints times.

The same is timed over `std::sync::mpsc::sync_channel` by a program in plain Rust,
scripts/sync_channels.rs, where rustc is at hand: bare, and with the two logs that a program which
wants to recover would write by hand, the sender's of what it sent and the receiver's of what it
received. Both programs run in turn, K times, so that both meet the same other work; the first line
printed tells the load of the machine.

PROGRAM is run after them and prints a table of its own, as a bench of other channels does. Read the
tables only from one run on a machine with nothing else to do.
"""

import argparse
import collections
import os
import pathlib
import statistics
import subprocess

import building
import workspace

# What bench/post_speed stands on.
STANDS_ON = ["line_posts", "line_workers"]
PLAIN = workspace.ROOT / "scripts" / "sync_channels.rs"
# How the rows of the two programs are told, in their order.
CHANNELS = {"": "posts", "bare": "`sync_channel`", "logged": "`sync_channel`, with two logs"}
# By the kind of a row and its capacity, million messages a second of each run.
Rates = dict[tuple[str, int], list[float]]


def time(program: pathlib.Path, rates: Rates) -> None:
    """Runs a timing program; adds the rates of each row, in million messages a second."""
    out = subprocess.run([program], check=True, stdout=subprocess.PIPE, text=True).stdout
    for line in out.splitlines():
        kind, capacity, messages, microseconds = line.split(",")
        rates[kind, int(capacity)].append(int(messages) / int(microseconds))


def print_table(rates: Rates) -> None:
    """The median and the best of each row, by capacity, kind of work and channel."""
    print("| workers | over | capacity | median M/s | best M/s |")
    print("|---|---|--:|--:|--:|")
    for capacity in sorted({it[1] for it in rates}):
        for work in ("one way", "exchange"):
            for name, told in CHANNELS.items():
                row = rates.get((f"{work} {name}".rstrip(), capacity))
                if row:
                    print(f"| {work} | {told} | {capacity:,} | {statistics.median(row):.2f} "
                          f"| {max(row):.2f} |")


def add_words(words: argparse.ArgumentParser) -> None:
    """Adds the words of this job to those that are read."""
    words.add_argument("--beside", type=pathlib.Path, metavar="PROGRAM")
    words.add_argument("--rounds", type=int, default=1, metavar="K")


def run(asked: argparse.Namespace) -> int:
    """Times both programs in turn, and prints the tables."""
    rates: Rates = collections.defaultdict(list)
    with workspace.new_folder("recline-posts-") as room:
        folder = pathlib.Path(room)
        programs = [building.build_bench(folder, "post_speed", STANDS_ON, [])]
        if plain := building.build_plain(folder, PLAIN, "-C", "opt-level=3"):
            programs.append(plain)
        print("load of the machine before: " + ", ".join(f"{it:.2f}" for it in os.getloadavg()))
        for _ in range(asked.rounds):
            for program in programs:
                time(program, rates)
    print_table(rates)
    if asked.beside:
        print(flush=True)
        subprocess.run([asked.beside], check=True)
    return 0
