"""The options of both tools."""

import argparse
import json
from collections.abc import Callable

from slow_model.histories import Name

from . import words
from .program import DEVICE_FAULT, FAULT, PROGRAM, Fault


def number(least: int) -> Callable[[str], int]:
    """A reader of numbers from `least` on."""

    def read(field: str) -> int:
        if not (field.isascii() and field.isdigit()) or len(field) > 9 or int(field) < least:
            raise argparse.ArgumentTypeError(f"'{field}' is no number from {least} on")
        return int(field)

    return read


def numbers(field: str) -> tuple[int, ...]:
    """A reader of numbers with commas between them."""
    return tuple(number(0)(part) for part in field.split(","))


def parser(tool: str, about: str) -> argparse.ArgumentParser:
    """A parser with what both tools take."""
    found = argparse.ArgumentParser(
        prog=tool,
        description=about,
        formatter_class=argparse.RawDescriptionHelpFormatter,
        allow_abbrev=False,
        usage=f"./{tool} [OPTIONS] < INPUT",
    )
    found.add_argument(
        "--recovery", type=number(1), metavar="I", help="the I-th recovery (the last)"
    )
    found.add_argument(
        "--names",
        metavar="FILE",
        help="call processes and messages as FILE does, which from_logs.py --names has written",
    )
    found.add_argument(
        "--program",
        default=str(PROGRAM),
        metavar="PATH",
        help="the program (./recline, which is built if need be)",
    )
    return found


def use_names(path: str | None) -> None:
    """Has all words be said by the names of a file, where one is given: JSON Lines."""
    if path is None:
        return
    try:
        number = 0
        with open(path, encoding="utf-8") as file:
            for number, line in enumerate(file, 1):
                use_name(json.loads(line))
    except OSError as fault:
        raise Fault(DEVICE_FAULT, f"{path}: {fault.strerror}") from fault
    except (ValueError, KeyError, TypeError) as fault:
        told = f"{path}:{number}: this is no name that from_logs.py --names writes"
        raise Fault(FAULT, told) from fault


def use_name(line: dict[str, object]) -> None:
    """Takes one name: of a message, or of a process. A number is no name."""
    if "message" in line:
        sender, incarnation, number = (line[it] for it in ("sender", "incarnation", "number"))
        name = Name(int(str(sender)), int(str(incarnation)), int(str(number)))
        words.NAMES.messages[name] = str(line["message"])
    elif str(line["process"]) != str(line["number"]):
        words.NAMES.processes[int(str(line["number"]))] = str(line["process"])
