"""Reports of what processes do, from anywhere, without a wait.

    with Reporter(process=0, processes=2, to="unix:/tmp/hub") as reporter:
        name = reporter.send(1, b"a")      # returns at once; the name goes along with the message
        if reporter.received(name_that_came):
            ...                            # before the process uses the message
        reporter.check(b"its state")       # a checkpoint

Each process notes by itself what it sent, received and stored. A thread sends the notes to a hub
(`python3 -m recline_hub`), or appends them to a file. `recline collect` plans from the notes
of all processes, in whatever order they come. Linux, Python 3.10, the standard library alone.
"""

from recline import Floor, MessageName

from .asking import Hub, HubPlan
from .desk import NoteRefused, Over, TakenAsFailed, WentBack
from .merging import merge, recoveries_from
from .reporter import Reporter
from .waiting import AsyncReporter
from .wire import HubError, Letter, Recovery, Run

__all__ = [
    "AsyncReporter", "Floor", "Hub", "HubError", "HubPlan", "Letter", "MessageName", "NoteRefused",
    "Over", "Recovery", "Reporter", "Run", "TakenAsFailed", "WentBack", "merge", "recoveries_from",
]
