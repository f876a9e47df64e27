"""Breaks the slow service in one way after the other, and asks that `trial service` finds each.

    scripts/trial broken_services [--job serve|collect] [--only NAME,..] [--seconds N] [--list]
    scripts/trial broken_services [--job serve|collect] --serve NAME < RECORDS

Each broken service (scripts/slow_model/broken_services.py, and LOOPS below) is tried with long
inputs of 2 MB, and with cases for N seconds (10); with --job collect it is one that collects. Those
that are refused memory count requests of their own, two for each record, as scripts/preloaded.c
counts those of a program. The services `slow` and `Starved` are not broken, and nothing may be
found of them. The last line says how many were judged rightly; the status is 0 where all were.
"""

import argparse
import contextlib
import inspect
import os
import queue
import random
import signal
import subprocess
import sys
import threading
import time
from collections.abc import Iterator

import refused_service
import workspace
from conversations import Difference
from service_jobs import JOBS, Job
from slow_model import broken_services
from slow_model.broken_services import Starved
from slow_model.service import Service

TRIAL = str(workspace.ROOT / "scripts" / "trial")
PIECE = 65_536
# Services whose loop is broken.
LOOPS = ["reads_ahead", "is_silent_on_read_faults", "is_silent_on_write_faults"]
SERVICES = dict(inspect.getmembers(broken_services, inspect.isclass))
NAMES = [name for name, it in SERVICES.items() if issubclass(it, Service) and it is not Service]
FINE = ["slow", "Starved"]
SIZE = 2_000_000
# So many inputs are tried with each request for memory refused, at most.
MOST_INPUTS = 40


def pieces() -> Iterator[bytes]:
    """The input as it comes, and an empty piece at its end."""
    while piece := os.read(0, PIECE):
        yield piece
    yield b""


def pieces_ahead() -> Iterator[bytes]:
    """The same, read while the answers are written, however many pieces that are."""
    read: queue.Queue[bytes | OSError] = queue.Queue()
    threading.Thread(target=read_into, args=(read,), daemon=True).start()
    while piece := read.get():
        if isinstance(piece, OSError):
            raise piece
        yield piece
    yield b""


def read_into(read: "queue.Queue[bytes | OSError]") -> None:
    """Reads all pieces, or what went wrong."""
    try:
        for piece in pieces():
            read.put(piece)
    except OSError as error:
        read.put(error)


def service_of(name: str, job: Job) -> Service:
    """The named service, which does this job."""
    if name not in NAMES:
        return job.model()
    made: type[Service] = type(name, (SERVICES[name], job.model), {})
    return made()


def serve(name: str, job: Job) -> int:
    """Serves as the named service does, and answers the status."""
    signal.signal(signal.SIGINT, signal.SIG_DFL)
    service = service_of(name, job)
    try:
        for piece in pieces_ahead() if name == "reads_ahead" else pieces():
            for answer in service.answers(piece) if piece else [service.end()]:
                try:
                    write(answer)
                except OSError:
                    return failed(b"37 WriteFault", name == "is_silent_on_write_faults")
        return int(service.status)
    except OSError:
        return failed(b"36 ReadFault", name == "is_silent_on_read_faults")


def write(output: bytes) -> None:
    """Writes all of it."""
    while output:
        output = output[os.write(1, output):]


def failed(told: bytes, is_silent: bool) -> int:
    """Says what failed, and answers the status."""
    if is_silent:
        return 0
    with contextlib.suppress(OSError):
        os.write(2, b"recline: record 0: " + told + b"\n")
    return 3


def is_starved_badly(command: list[str], seconds: float, job: Job) -> str:
    """What is found where memory is refused; nothing where all is as it must be."""
    until = time.monotonic() + seconds
    for number in range(MOST_INPUTS):
        text = job.some_input(random.Random(f"starved {number}"))
        try:
            growths = refused_service.run(command, "", text).counts.growths
            for growth in range(1, growths + 1, 1 + growths // 13 // 2 * 2):
                refused_service.refuse_growth(command, "", text, growth, job.model)
                refused_service.refuse_all(command, "", text, growth, job.model)
        except Difference as it:
            return f"input {number}: {it}"
        if time.monotonic() > until:
            break
    return ""


def found_out(name: str, seconds: float, job: Job) -> str:
    """What is found of a service; nothing where nothing is."""
    command = [sys.executable, TRIAL, "broken_services", "--job", job.word, "--serve", name]
    if name in NAMES and issubclass(SERVICES[name], Starved):
        return is_starved_badly(command, seconds, job)
    words = ["--seconds", f"{seconds}", "--size", f"{SIZE}", "--patience", "15", "--is-script"]
    tried = [TRIAL, "service", "--job", job.word]
    tried += ["--program", " ".join(command), *words]
    ran = subprocess.run(tried, capture_output=True, text=True, check=False)
    told = ran.stdout.splitlines() or ["nothing is told"]
    return told[0] if ran.returncode else ""


def add_words(line: argparse.ArgumentParser) -> None:
    """Adds the words of this job to those that are read."""
    line.add_argument("--job", choices=JOBS, default="serve", help="what services do (serve)")
    line.add_argument("--only", metavar="NAME,..", help="these services alone")
    line.add_argument("--seconds", type=float, default=10, metavar="N", help="for each (10)")
    line.add_argument("--list", action="store_true", help="print the names, and try nothing")
    line.add_argument("--serve", metavar="NAME", help="serve as this service does")


def run(asked: argparse.Namespace) -> int:
    """Tries the services, and answers the status."""
    if asked.serve:
        return serve(asked.serve, JOBS[asked.job])
    names = asked.only.split(",") if asked.only else ["slow", *NAMES, *LOOPS]
    if asked.list:
        print("\n".join(names))
        return 0
    wrong = 0
    for name in names:
        found = found_out(name, asked.seconds, JOBS[asked.job])
        is_right = bool(found) != (name in FINE)
        wrong += not is_right
        told = found[:150] or "nothing found"
        print(f"{name}: {told}{'' if is_right else ' - NOT AS IT MUST BE'}", flush=True)
    print(f"broken services: {len(names) - wrong} of {len(names)} were judged rightly")
    return 1 if wrong else 0
