"""What a recovery of nobody costs among 64 processes, in calls of the library.

Usage: scripts/measure recoveries

A world takes 65,535 recoveries, with links of either mode, in a history without events and in one
of a million, which are checks. No text is read or written. Each is timed five times, from before
the first recovery to after the last; the table has the least, the median and the greatest, in
microseconds for a recovery. The timing program is bench/recovery_speed/main.rattle; it is proved
like all others, but is no crate of the repository, since it prints times. Read the table on a
machine with nothing else to do.
"""

import argparse
import collections
import pathlib
import statistics
import subprocess

import building
import workspace

STANDS_ON = "line_names line_tape line_world".split()
# By the mode of the links and the events before, microseconds for a recovery of each run.
Times = dict[tuple[str, int], list[float]]


def timed(program: pathlib.Path) -> Times:
    """Runs the timing program; answers the times of each row."""
    out = subprocess.run([program], check=True, stdout=subprocess.PIPE, text=True).stdout
    times: Times = collections.defaultdict(list)
    for line in out.splitlines():
        mode, events, recoveries, microseconds = line.split(",")
        times[mode, int(events)].append(int(microseconds) / int(recoveries))
    return times


def add_words(_words: argparse.ArgumentParser) -> None:
    """Adds nothing: this job has no words of its own."""


def run(_asked: argparse.Namespace) -> int:
    """Builds the timing program, runs it, and prints the table."""
    with workspace.new_folder("recline-recoveries-") as folder:
        program = building.build_bench(pathlib.Path(folder), "recovery_speed", STANDS_ON, [])
        times = timed(program)
    print("| links | events before | least | median | greatest |")
    print("|---|--:|--:|--:|--:|")
    for (mode, events), row in sorted(times.items()):
        print(
            f"| {mode} | {events:,} | {min(row):.1f} µs | {statistics.median(row):.1f} µs"
            f" | {max(row):.1f} µs |"
        )
    return 0
