"""What reporters and a hub say to each other: addresses, proofs, notes and recoveries.

Lines end with a line feed. The hub greets with `recline_hub,VERSION,NONCE`. A reporter answers
`report,PROCESS,PROCESSES,LIFE,RECOVERIES,NONCE,PROOF`, somebody who asks `ask,NONCE,PROOF,WORDS..`.
Then a reporter says `notes,FIRST,BYTES` with so many bytes of notes after it, `held,RECOVERY,TOTAL`
and `bye`. The hub says `kept,N`, and all else as an object of JSON whose field `is` names it.
"""

from __future__ import annotations

import dataclasses
import hashlib
import hmac
import json
import os
import pathlib
import secrets
import socket
from collections.abc import Iterator, Sequence
from typing import Any, NamedTuple

from recline import MessageName

VERSION = 1
# The command that answers reports where no other is told: that of this repository.
SERVICE = (str(pathlib.Path(__file__).resolve().parents[3] / "recline"), "collect")
MOST_PROCESSES, MOST_IN_FIRST_VERSION = 256, 64
MOST_BODY, MOST_STATE = 64, 4_096
MOST_EVENTS, MOST_NUMBER, MOST_INCARNATION = 1_000_000, 2**32 - 1, 65_535
MOST_LINE = 65_536  # bytes of a line, but for one of JSON
MOST_BATCH = 1 << 20  # bytes of notes that go together
NONE = "-"
# Seconds after which a silent connection over TCP is tried, between tries, and how many are made.
TCP_IDLE, TCP_BETWEEN, TCP_TRIES = 10, 5, 3
TCP_USER_TIMEOUT = 18  # of Linux: milliseconds after which what is not acknowledged ends it


class HubError(Exception):
    """The hub says no, and why; or what came is nothing that a hub says."""


class Letter(NamedTuple):
    """A message, the process that it is for, and the bytes that were noted with it."""
    name: MessageName
    to: int
    body: bytes


class Run(NamedTuple):
    """From this number on a process's messages have this incarnation."""
    first: int
    incarnation: int


@dataclasses.dataclass(frozen=True)
class Recovery:
    """Where a process goes on: its record of a line, and what concerns it of the messages.

    `choice` is the check that it goes back to, 0 its initial state, or None where it stays as it
    is. `state` is what that check stored, b"" for the initial state, and None where it stays.
    `resend` are its own messages that were in transit: it sends them again, under their names.
    `awaited` are those that come to it so.
    """

    number: int  # the first recovery is 1; 0 is the start
    process: int
    choice: int | None
    incarnation: int  # under which it goes on
    state: bytes | None
    resend: tuple[Letter, ...]
    awaited: tuple[Letter, ...]
    sends: int  # on its tape
    checks: int
    # Of each process: the incarnations of its messages, but for those that were let go, and how
    # many it sent before the line.
    runs: tuple[tuple[Run, ...], ...]
    sent: tuple[int, ...]

    def as_json(self) -> dict[str, Any]:
        """The same as an object of JSON."""
        letters = [[*letter.name, letter.to, letter.body.hex()]
                   for letter in (*self.resend, *self.awaited)]
        return {
            "number": self.number, "process": self.process, "choice": self.choice,
            "incarnation": self.incarnation, "sends": self.sends, "checks": self.checks,
            "state": None if self.state is None else self.state.hex(),
            "resend": letters[:len(self.resend)], "awaited": letters[len(self.resend):],
            "runs": self.runs, "sent": self.sent,
        }

    @classmethod
    def of_json(cls, it: dict[str, Any]) -> Recovery:
        """What an object of JSON says."""
        state = it["state"]
        return cls(
            it["number"], it["process"], it["choice"], it["incarnation"],
            None if state is None else bytes.fromhex(state),
            tuple(_letters(it["resend"])), tuple(_letters(it["awaited"])),
            it["sends"], it["checks"],
            tuple(tuple(Run(*run) for run in runs) for runs in it["runs"]), tuple(it["sent"]),
        )


def _letters(fields: list[list[Any]]) -> Iterator[Letter]:
    """The letters that lists of JSON say."""
    for sender, incarnation, number, to, body in fields:
        yield Letter(MessageName(sender, incarnation, number), to, bytes.fromhex(body))


def first_line(processes: int) -> str:
    """The first record of an input of `recline collect`."""
    return f"reports,{1 if processes <= MOST_IN_FIRST_VERSION else 2},{processes}"


def start_of(process: int, processes: int) -> Recovery:
    """Where a process begins that nothing is noted of."""
    runs = ((Run(0, 0),),) * processes
    return Recovery(0, process, 0, 0, b"", (), (), 0, 0, runs, (0,) * processes)


# What `recline collect` answers.

class _Tape:
    """What a history text has of a process, and what was let go before it.

    Of its checks `check` was kept as the first one, or all where that is 0; of its messages the
    first `sent` are not kept.
    """

    def __init__(self, incarnation: int, check: int, sent: int) -> None:
        self.incarnation, self.checks = incarnation, max(check - 1, 0)
        self.sent = sent
        self.sends: list[bytes] = []  # TO, INC and HEX of each that is kept

    @property
    def next(self) -> int:
        """The number of its next message."""
        return self.sent + len(self.sends)


def _tapes(history: bytes) -> Iterator[_Tape]:
    """The tapes of a history text."""
    tape: _Tape | None = None
    floors: dict[bytes, tuple[int, int]] = {}
    for line in history.split(b"\n"):
        if line.startswith(b"floor,"):
            _, p, check, sent = line.split(b",")
            floors[p] = int(check), int(sent)
        elif line.startswith(b"tape,"):
            if tape:
                yield tape
            _, p, incarnation = line.split(b",")
            tape = _Tape(int(incarnation), *floors.get(p, (0, 0)))
        elif tape and line.startswith(b"send,"):
            tape.sends.append(line[5:])
        elif tape and line.startswith(b"check,"):
            tape.checks += 1
    if tape:
        yield tape


def _runs(process: _Tape) -> Iterator[Run]:
    """The incarnations of a process's messages that are kept or to come."""
    last = -1
    for number, send in enumerate(process.sends, process.sent):
        incarnation = int(send.split(b",")[1])
        if incarnation != last:
            yield Run(number, incarnation)
        last = incarnation
    if last != process.incarnation:
        yield Run(process.next, process.incarnation)


def recoveries_of(number: int, plan: bytes, history: bytes) -> list[Recovery]:
    """What a recovery is for each process: the answer to `recover`, and the history after it."""
    records = plan.decode("ascii").split("\n")
    kind, _, entries, replays = records[0].split(",")
    if kind != "recovered":
        raise ValueError(records[0])
    tapes = list(_tapes(history))
    lines = [record.split(",") for record in records[1:1 + len(tapes)]]
    names = records[1 + len(tapes) + int(entries):]
    letters = []
    for record in names[:int(replays)]:
        name = MessageName(*map(int, record.split(",")[1:]))
        tape = tapes[name.sender]
        to, _, body = tape.sends[name.number - tape.sent].split(b",")
        letters.append(Letter(name, int(to), bytes.fromhex(body.decode("ascii"))))
    runs = tuple(tuple(_runs(tape)) for tape in tapes)
    sent = tuple(tape.next for tape in tapes)
    stays = [line[2] == "now" for line in lines]
    return [
        Recovery(
            number, p, None if stays[p] else int(lines[p][2]), tape.incarnation,
            None if stays[p] else bytes.fromhex(lines[p][4]),
            tuple(letter for letter in letters if letter.name.sender == p),
            tuple(letter for letter in letters if letter.to == p),
            sent[p], tape.checks, runs, sent,
        )
        for p, tape in enumerate(tapes)
    ]


# Addresses and connections.

class Address(NamedTuple):
    """Where a hub listens: a path, or a host and a port."""
    path: str
    host: str
    port: int

    def __str__(self) -> str:
        host = f"[{self.host}]" if ":" in self.host else self.host
        return f"unix:{self.path}" if self.path else f"tcp:{host}:{self.port}"


def address_of(text: str) -> Address:
    """The address that is spelled `unix:PATH` or `tcp:HOST:PORT`."""
    kind, _, rest = text.partition(":")
    if kind == "unix" and rest:
        return Address(rest, "", 0)
    host, _, port = rest.rpartition(":")
    host = host.removeprefix("[").removesuffix("]")
    if kind == "tcp" and host and port.isdecimal() and int(port) < 65_536:
        return Address("", host, int(port))
    raise ValueError(f"{text!r} is neither unix:PATH nor tcp:HOST:PORT")


def connect(address: Address, seconds: float) -> socket.socket:
    """A connection to a hub."""
    if address.path:
        made = socket.socket(socket.AF_UNIX, socket.SOCK_STREAM)
        try:
            made.settimeout(seconds)
            made.connect(address.path)
        except BaseException:
            made.close()
            raise
        return made
    made = socket.create_connection((address.host, address.port), seconds)
    tune(made)
    return made


def tune(made: socket.socket) -> None:
    """Has a connection over TCP send at once, and end where its other end is silent for long."""
    if made.family != socket.AF_UNIX:
        made.setsockopt(socket.IPPROTO_TCP, socket.TCP_NODELAY, 1)
        made.setsockopt(socket.SOL_SOCKET, socket.SO_KEEPALIVE, 1)
        made.setsockopt(socket.IPPROTO_TCP, socket.TCP_KEEPIDLE, TCP_IDLE)
        made.setsockopt(socket.IPPROTO_TCP, socket.TCP_KEEPINTVL, TCP_BETWEEN)
        made.setsockopt(socket.IPPROTO_TCP, socket.TCP_KEEPCNT, TCP_TRIES)
        most = 1_000 * (TCP_IDLE + TCP_BETWEEN * TCP_TRIES)
        made.setsockopt(socket.IPPROTO_TCP, TCP_USER_TIMEOUT, most)


# Proofs that somebody has the token, which itself is never sent.

def new_nonce() -> str:
    """A number that was never told before."""
    return secrets.token_hex(16)


def read_token(path: str | os.PathLike[str] | None) -> bytes | None:
    """The token of a file that nobody but its owner can read."""
    if path is None:
        return None
    with open(path, "rb") as file:
        if os.fstat(file.fileno()).st_mode & 0o077:
            raise PermissionError(f"{os.fspath(path)}: others than its owner can read it")
        token = file.read(4_096).strip()
    if len(token) < 16:
        raise ValueError(f"{os.fspath(path)}: a token has at least 16 bytes")
    return token


def proof(token: bytes | None, who: str, *told: str) -> str:
    """What only somebody with the token can say of these words; `-` where there is no token."""
    if token is None:
        return NONE
    return hmac.new(token, ",".join([who, *told]).encode(), hashlib.sha256).hexdigest()


def is_proof(given: str, wanted: str) -> bool:
    """Whether a proof is right, compared in constant time."""
    return hmac.compare_digest(given.encode(), wanted.encode())


class Talk:
    """A connection's greeting: the hub's nonce, our own, and what each proves."""

    def __init__(self, token: bytes | None, theirs: str) -> None:
        self._token, self._theirs, self.own = token, theirs, new_nonce()

    @classmethod
    def of_greeting(cls, token: bytes | None, line: str) -> Talk:
        """What a hub's first line begins."""
        kind, *fields = line.split(",")
        if kind != "recline_hub" or len(fields) != 2:
            raise HubError(f"no hub says {line[:80]!r}")
        if fields[0] != str(VERSION):
            raise HubError(f"the hub speaks version {fields[0][:9]}, and this is {VERSION}")
        return cls(token, fields[1])

    def proof(self, *told: str) -> str:
        """Our proof, over what we ask for."""
        return proof(self._token, "asks", self._theirs, self.own, *told)

    def test(self, given: str) -> None:
        """Raises where the other end has not the token that we have."""
        if not is_proof(given, proof(self._token, "hub", self.own, self._theirs)):
            raise HubError("the hub does not have the token of this file")


def json_line(**fields: Any) -> bytes:
    """An object of JSON as a line."""
    return json.dumps(fields, separators=(",", ":")).encode() + b"\n"


def read_json(line: bytes) -> dict[str, Any]:
    """The object of JSON of a line, whose `is` names it."""
    try:
        it = json.loads(line)
        if isinstance(it, dict) and isinstance(it.get("is"), str):
            return it
    except ValueError:
        pass
    raise HubError(f"no hub says {line[:80]!r}")


def known_numbers(fields: Sequence[str], most: int = MOST_NUMBER) -> list[int]:
    """The numbers that fields spell."""
    if not all(field.isascii() and field.isdecimal() and len(field) < 11 for field in fields):
        raise ValueError(",".join(fields)[:80])
    numbers = [int(field) for field in fields]
    if any(number > most for number in numbers):
        raise ValueError(",".join(fields)[:80])
    return numbers
