"""A client of `recline serve`: a computation tells what its processes do, and asks for plans.

    with Service(["./recline", "serve"], processes=2, journal="run.recline") as service:
        service.send(0, 1, b"a")         # told before the message leaves process 0
        service.deliver(0, 1)            # told before process 1 is given the message
        service.check(1, b"its state")   # a checkpoint, which recline calls a check
        plan = service.recover([0])      # process 0 has failed: where does each one go on?

Processes are numbered from 0. A process's checks are numbered from 1, and 0 is its initial state.
Each call writes one record and waits for its answer; `Service.together` sends many ahead. The
service refuses what its machine cannot do (`Refused`), and then nothing has changed. Arguments that
no record can hold are a `ValueError`, one of another type a `TypeError`, before anything is sent.
`AsyncService` has the same calls for asyncio.

**The journal** is a script, which `recline run`, `recline serve`, ./draw and ./explain read as it
is. Each record stands in it before it is sent. A client that opens a journal which is there feeds
its steps to a new service, and goes on; so whether the client is killed or the service, no record
that was answered is lost. Linux, Python 3.10, the standard library alone. Any thread may call a
`Service`. A child that is forked cannot use it, and does not hold its pipes or its journal.
"""

from .async_services import AsyncService, AsyncTogether
from .errors import Fault, JournalError, NotDone, Refused, ReplaysMissing, ServiceEnded
from .histories import Checked, Claim, Event, History, MarkerCame, Received, Sent, Start, Tape
from .journals import Sync
from .records import Answer
from .services import Service, Together
from .values import (
    Begun, Channel, Delivered, Floor, Marked, MessageName, Passed, Plan, Repeated, Replay,
    RolledOver, Round, Stale, Took, Turned,
)
from .versions import __version__, program_version

__all__ = [
    "Answer", "AsyncService", "AsyncTogether", "Begun", "Channel", "Checked", "Claim", "Delivered",
    "Event", "Fault", "Floor", "History", "JournalError", "MarkerCame", "Marked", "MessageName",
    "NotDone", "Passed", "Plan", "Received", "Refused", "Repeated", "Replay", "ReplaysMissing",
    "RolledOver", "Round", "Sent", "Service", "ServiceEnded", "Stale", "Start", "Sync", "Tape",
    "Together", "Took", "Turned", "__version__", "program_version",
]
