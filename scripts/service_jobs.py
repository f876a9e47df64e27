"""The jobs of the program that answer records as they come, and what trials say to each of them.

`recline serve` is told the steps of a machine, and `recline collect` what processes report.
"""

from collections.abc import Callable
from random import Random
from typing import NamedTuple

from slow_model.collecting import Collecting
from slow_model.made_conversations import some_input
from slow_model.made_reports import some_reports
from slow_model.service import Service


class Job(NamedTuple):
    """A job: its word, its slow model, how an input of it is made, and some of its records.

    Processes are two, and records end without a line feed; `%s` stands for a body or a state.
    """

    word: str
    model: type[Service]
    some_input: Callable[[Random], bytes]
    first: bytes
    send: bytes  # by process 0 to process 1
    check: bytes  # of process 0
    receipt: bytes  # of the first message of process 0, by process 1
    refused: bytes  # since there is no such process


JOBS = {
    "serve": Job(
        "serve", Service, some_input, b"world,1,2,fifo", b"send,0,1,%s", b"check,0,%s",
        b"deliver,0,1,0,", b"check,2,",
    ),
    "collect": Job(
        "collect", Collecting, some_reports, b"reports,1,2", b"send,0,0,1,%s", b"check,0,0,%s,-",
        b"recv,1,0,0,0,0", b"check,2,0,,-",
    ),
}  # fmt: skip
