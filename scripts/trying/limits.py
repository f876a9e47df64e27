"""Runs the program up to its limits, and with devices that fail.

    scripts/trial limits [PROGRAM]    PROGRAM is ./recline of this repository where none is given

How often a lone process may begin a round, recover and take a check: each of these rows is a script
of one process that asks once more than the limit allows, every command but the last is done, and
the last one is refused by its number. How many processes there may be, and how long lines, states,
tapes and inputs: each of these rows is a text with what comes of it. And an input that cannot be
read and an output that cannot be written, a directory and a full device. The last line says how
many rows are as they must be; the status is 0 where all are.
"""

import argparse
import subprocess
from collections.abc import Callable
from typing import Any

import command_lines
import workspace

TOP = workspace.ROOT
ROWS = [
    # command, how often it is done, the reply to the last one, and the refusal after it
    ("begin,0,", 65535, "begun,0,65535,65535", "refused,23,NoMoreRounds"),
    ("recover,0", 65535, "line,0,0,65535,", "refused,24,NoMoreIncarnations"),
    ("check,0,", 1000000, "checked,0,1000000", "refused,3,TapeFull"),
]
LONGEST = "61" * 4096
LONGER = "61" * 4097
BODY = "61" * 64
MOST_INPUT = 67108864
# states that are too long, and what is asked before and after that
STATES = f"""world,1,2,fifo
check,2,{LONGER}
check,1,{LONGER}
check,1,{LONGEST}
deliver,0,0,0,{LONGER}
deliver,0,1,1,{LONGER}
turn,0,{LONGER}
begin,0,{LONGEST}
begin,0,{LONGER}
"""
STATES_TOLD = """refused,1,NoSuchProcess
refused,5,StateTooLong
checked,1,1
refused,17,ToSelf
refused,5,StateTooLong
refused,22,WrongMode
begun,0,1,1
refused,5,StateTooLong
"""
# plans where the last incarnation is reached, which is refused to who would go back
RECOVERIES = 65535
PLANS = "world,1,1,fifo\n" + "recover,0\n" * RECOVERIES + "plan,0\nlive\nplan\n"
PLANS_TOLD = (
    "".join(f"recovered,1,0,0\nline,0,0,{inc},\n" for inc in range(1, RECOVERIES + 1))
    + "refused,24,NoMoreIncarnations\n" * 2
    + f"planned,1,0,0\nline,0,now,{RECOVERIES},-\n"
)
LONE = "history,1,1\ntape,0,0\n"
CLAIM = "failed\nline,now\nend\n"
# as many processes as there may be, of which the last one fails, and a round of all of them
MOST = 256
FAILURE = f"world,2,{MOST},fifo\ncheck,255,\nrecover,255\n"
FAILURE_TOLD = (
    "checked,255,1\nrecovered,1,0,0\n"
    + "".join(f"line,{p},now,0,-\n" for p in range(MOST - 1))
    + "line,255,1,1,\n"
)
ROUND = (
    f"world,2,{MOST},fifo\nbegin,0,\n"
    + "".join(f"deliver,0,{p},0,\n" for p in range(1, MOST))
    + "".join(f"deliver,{p},{q},0,\n" for p in range(1, MOST) for q in range(MOST) if p != q)
    + "rounds\n"
)
ROUND_TOLD = (
    "begun,0,1,1\n"
    + "marked,1,forced\n" * (MOST - 1)
    + "marked,1,closed\n" * (MOST - 1) ** 2
    + "rounds,1\nround,1"
    + ",1" * MOST
    + "\n"
)
ALL = f"history,2,{MOST}\n" + "".join(f"tape,{p},0\n" for p in range(MOST)) + "failed\n"
TEXTS = [
    # what is asked about, command, text, standard output, standard error, status
    ("most processes", "run", FAILURE, FAILURE_TOLD, "", 0),
    ("a process more", "run", f"world,2,{MOST + 1},fifo\n", "", "record 1: 6 BadCount", 2),
    ("a round of most processes", "run", ROUND, ROUND_TOLD, "", 0),
    ("a longest line", "check", ALL + "line" + ",now" * MOST + "\nend\n", "valid\n", "", 0),
    (
        "a longer line",
        "check",
        ALL + "line" + ",now" * (MOST + 1) + "\nend\n",
        "",
        "record 259: 32 BadRecord",
        2,
    ),
    ("states of a script", "run", STATES, STATES_TOLD, "", 1),
    ("plans of the last incarnation", "run", PLANS, PLANS_TOLD, "", 1),
    ("a longest state", "check", f"{LONE}check,{LONGEST},-\n{CLAIM}", "valid\n", "", 0),
    (
        "a longer state",
        "check",
        f"{LONE}check,{LONGER},-\n{CLAIM}",
        "",
        "record 3: 5 StateTooLong",
        2,
    ),
    ("a longest body", "check", f"{LONE}send,0,0,{BODY}\n{CLAIM}", "valid\n", "", 0),
    (
        "a longer body",
        "check",
        f"{LONE}send,0,0,{BODY}61\n{CLAIM}",
        "",
        "record 3: 2 BodyTooLong",
        2,
    ),
    ("a full tape", "check", LONE + "mark,0,1\n" * 1000000 + CLAIM, "valid\n", "", 0),
    (
        "an event more",
        "check",
        LONE + "mark,0,1\n" * 1000001 + CLAIM,
        "",
        "record 1000003: 3 TapeFull",
        2,
    ),
    ("a longest input", "run", "\n" * MOST_INPUT, "", "record 1: 34 NoWorld", 2),
    ("a byte more", "run", "\n" * (MOST_INPUT + 1), "", "record 0: 36 ReadFault", 3),
]
DEVICES = [
    # what is asked about, standard input, standard output, standard error
    ("an input that cannot be read", "/", "/dev/null", "record 0: 36 ReadFault"),
    (
        "an output that cannot be written",
        str(TOP / "examples" / "run" / "domino.in"),
        "/dev/full",
        "record 0: 37 WriteFault",
    ),
]


def is_refused(program: str, command: str, most: int, last: str, refusal: str) -> bool:
    """Whether the command is done so often and then refused."""
    text = "world,1,1,fifo\n" + f"{command}\n" * (most + 1)
    ran = subprocess.run([program, "run"], input=text.encode(), capture_output=True, check=False)
    lines = ran.stdout.decode().splitlines()
    return (
        ran.returncode == 1
        and lines[-2:] == [last, refusal]
        and sum(line.startswith("refused") for line in lines) == 1
    )


def is_told(program: str, command: str, text: str, output: str, said: str, status: int) -> bool:
    """Whether this comes of the text."""
    ran = subprocess.run([program, command], input=text.encode(), capture_output=True, check=False)
    wanted = f"recline: {said}\n" if said else ""
    return (ran.stdout.decode(), ran.stderr.decode(), ran.returncode) == (output, wanted, status)


def is_blamed(program: str, source: str, sink: str, said: str) -> bool:
    """Whether a run from this input to this output says so, with the status of a failed device."""
    line = ["sh", "-c", 'exec "$0" run <"$1" >"$2"', program, source, sink]
    ran = subprocess.run(line, stderr=subprocess.PIPE, check=False)
    return (ran.stderr.decode(), ran.returncode) == (f"recline: {said}\n", 3)


def add_words(words: argparse.ArgumentParser) -> None:
    """Adds the words of this job to those that are read."""
    command_lines.add_program(words)


def run(asked: argparse.Namespace) -> int:
    """Runs each row, and answers the status."""
    program = asked.program or str(TOP / "recline")
    rows: list[tuple[str, Callable[..., bool], tuple[Any, ...]]] = []
    rows += [(f"limit of {row[0]}", is_refused, row) for row in ROWS]
    rows += [(row[0], is_told, row[1:]) for row in TEXTS]
    rows += [(row[0], is_blamed, row[1:]) for row in DEVICES]
    failed = 0
    for name, is_right, row in rows:
        if not is_right(program, *row):
            print(f"{name}: not as it must be")
            failed += 1
    print(f"{len(rows) - failed} limits as they must be, {failed} not")
    return 1 if failed else 0
