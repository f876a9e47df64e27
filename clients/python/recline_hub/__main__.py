"""A hub that takes the reports of processes, and what is asked of one.

    python3 -m recline_hub --listen unix:PATH --processes N --journal FILE
    python3 -m recline_hub --listen tcp:HOST:PORT --token FILE --processes N --journal FILE
    python3 -m recline_hub recover --failed 2 --hub unix:PATH
    python3 -m recline_hub status --hub unix:PATH
    python3 -m recline_hub plan --failed 2 --hub unix:PATH
    python3 -m recline_hub live --hub unix:PATH
    python3 -m recline_hub forget --hub unix:PATH

`recover` holds all processes that have not failed, plans where each goes on, and tells them. `plan`
says where each would go on, and `live` before which checks nothing is needed any more; `forget` has
the hub itself let that go. With `--json` answers are objects of JSON. Statuses: 0; 1 where the hub
said no; 2 for a wrong command line; 3 where a file or a connection failed; 130 after an interrupt.
"""

import argparse
import asyncio
import json
import logging
import os
import shlex
import signal
import socket
import sys
from typing import Any

from recline_report import asking, wire
from recline_report.wire import SERVICE, HubError

from .hub import LIMIT, Hub
from .journals import JournalError
from .words import words_of

ASKED = ("recover", "status", "plan", "live", "forget")
LOOPBACK = ("127.0.0.1", "::1", "localhost")


def parser() -> argparse.ArgumentParser:
    """The words of the command line."""
    form = argparse.RawDescriptionHelpFormatter
    words = argparse.ArgumentParser("recline_hub", description=__doc__, formatter_class=form)
    words.add_argument("ask", nargs="?", choices=ASKED, help="what is asked of a hub that runs")
    words.add_argument("--listen", metavar="ADDRESS", help="run a hub: unix:PATH or tcp:HOST:PORT")
    words.add_argument("--hub", metavar="ADDRESS", help="the hub that is asked")
    words.add_argument("--processes", type=int, metavar="N", help="how many processes, 1 to 256")
    words.add_argument("--journal", metavar="FILE", help="where notes and recoveries are kept")
    words.add_argument("--token", metavar="FILE", help="what both ends have to have, for TCP")
    words.add_argument(
        "--collect", default=" ".join(SERVICE), metavar="COMMAND", help="the service (%(default)s)"
    )
    words.add_argument(
        "--failed", action="append", type=int, default=[], metavar="PROCESS",
        help="a process that has failed; may be repeated",
    )
    words.add_argument(
        "--within", type=float, default=10.0, metavar="SECONDS",
        help="in which a process holds, or counts as failed (10)",
    )
    words.add_argument(
        "--auto", action="store_true", help="recover whenever a process was started again"
    )
    words.add_argument("--durable", action="store_true", help="sync notes before they are kept")
    words.add_argument(
        "--forget-every", type=int, metavar="NOTES",
        help="after so many notes let go what no recovery needs",
    )
    words.add_argument(
        "--beyond-loopback", action="store_true", help="take connections of other hosts"
    )
    words.add_argument("--json", action="store_true", help="answer in JSON")
    return words


async def run(asked: argparse.Namespace, address: wire.Address, token: bytes | None) -> None:
    """Runs a hub until it is ended."""
    hub = Hub(
        asked.processes, asked.journal, shlex.split(asked.collect), token=token,
        within=asked.within, is_automatic=asked.auto, is_durable=asked.durable,
        forget_every=asked.forget_every,
    )
    if address.path:
        server = await asyncio.start_unix_server(
            hub.serve, sock=own_socket(address.path), limit=LIMIT
        )
    else:
        server = await asyncio.start_server(hub.serve, address.host, address.port, limit=LIMIT)
    loop = asyncio.get_running_loop()
    running = asyncio.ensure_future(hub.run())
    for number in (signal.SIGTERM, signal.SIGINT):
        loop.add_signal_handler(number, running.cancel)
    where = server.sockets[0].getsockname()
    logging.info("listening at %s", where if address.path else f"tcp:{where[0]}:{where[1]}")
    try:
        await running
    except asyncio.CancelledError:
        logging.info("ended")
    finally:
        server.close()
        if address.path:
            os.unlink(address.path)


def own_socket(path: str) -> socket.socket:
    """A socket at a path, of mode 600; one that nobody listens at is replaced."""
    made = socket.socket(socket.AF_UNIX, socket.SOCK_STREAM)
    with socket.socket(socket.AF_UNIX, socket.SOCK_STREAM) as tried:
        try:
            tried.connect(path)
            raise FileExistsError(f"{path}: another hub listens there")
        except ConnectionRefusedError:
            os.unlink(path)
        except FileNotFoundError:
            pass
    before = os.umask(0o177)
    try:
        made.bind(path)
    finally:
        os.umask(before)
    return made


def serve(asked: argparse.Namespace, words: argparse.ArgumentParser) -> int:
    """Runs a hub, and answers the status."""
    if not (asked.processes and asked.journal):
        words.error("a hub needs --processes and --journal")
    if not 1 <= asked.processes <= wire.MOST_PROCESSES:
        words.error("there may be 1 to 256 processes")
    if asked.forget_every is not None and asked.forget_every < 1:
        words.error("--forget-every is at least 1 note")
    try:
        address = wire.address_of(asked.listen)
    except ValueError as error:
        words.error(str(error))
    if not address.path and not asked.token:
        words.error("over TCP a hub needs --token")
    if not address.path and address.host not in LOOPBACK and not asked.beyond_loopback:
        words.error(f"{address.host} is beyond the loopback: say --beyond-loopback")
    logging.basicConfig(level=logging.INFO, format="recline_hub: %(message)s")
    try:
        asyncio.run(run(asked, address, wire.read_token(asked.token)))
    except (JournalError, ValueError) as error:
        print(f"recline_hub: {error}", file=sys.stderr)
        return 2
    return 0


def answer(asked: argparse.Namespace, words: argparse.ArgumentParser) -> int:
    """Asks a hub, and prints what it says."""
    if not asked.hub:
        words.error("which hub is asked? --hub ADDRESS")
    try:
        hub = asking.Hub(asked.hub, asked.token)
        said: dict[str, Any]
        if asked.ask == "status":
            said = hub.status()
        elif asked.ask == "recover":
            said = as_json(hub.recover(asked.failed, asked.within))
        elif asked.ask == "forget":
            said = {"floors": [floor._asdict() for floor in hub.forget()]}
        else:
            said = as_json(hub.live() if asked.ask == "live" else hub.plan(asked.failed))
    except (HubError, ValueError) as error:
        print(f"recline_hub: {error}", file=sys.stderr)
        return 1
    print(json.dumps(said) if asked.json else words_of(asked.ask, said))
    return 0


def as_json(plan: asking.HubPlan) -> dict[str, Any]:
    """A plan as an object of JSON: states in hexadecimal, and null where a process stays."""
    said: dict[str, Any] = plan._asdict()
    said["states"] = [None if state is None else state.hex() for state in plan.states]
    said["certificate"] = [entry._asdict() for entry in plan.certificate]
    return said


def main() -> int:
    """Does what the words ask for, and answers the status."""
    words = parser()
    asked = words.parse_args()
    if (asked.ask is None) == (asked.listen is None):
        words.error("either --listen, or one of " + ", ".join(ASKED))
    try:
        return serve(asked, words) if asked.listen else answer(asked, words)
    except OSError as error:
        print(f"recline_hub: {error}", file=sys.stderr)
        return 3
    except KeyboardInterrupt:
        return 130


if __name__ == "__main__":
    sys.exit(main())
