"""Makes the script of a computation of its events, each receipt after its send.

A message is kept as one number, by its name, and an event that waits as the place of its line.
"""

from __future__ import annotations

import array
import collections
import hashlib
import json
import os
import shutil
import tempfile
from collections.abc import Iterator, Sequence
from typing import IO, Any

from log_lines import (
    MOST_LINE, Event, Log, Unsound, event_of, named, number_of, shown, text_of,
)

MOST_PROCESSES, MOST_IN_FIRST_VERSION = 256, 64
MOST_EVENTS, MOST_ROUND, MOST_BODY, MOST_STATE = 1_000_000, 65_535, 64, 4_096

RECEIVED = 1 << 52  # with a packed message, that it is received
# What an event waits for: the name of a message, the check of a process and round, or a round.
Awaited = bytes | tuple[int, int] | int


class Process:
    """A process: its number, how much it did, and those of its events that wait."""

    __slots__ = ("number", "log", "queue", "done", "awaits", "events", "round")

    def __init__(self, number: int) -> None:
        self.number = number
        self.log: Log | None = None
        self.awaits: Awaited | None = None
        self.queue, self.done = array.array("Q"), 0  # places of lines; how many of them are done
        self.events = self.round = 0  # events of its tape; the last round that it has its check of


class Link:
    """What one process put on the way to another, and what that has taken."""

    __slots__ = ("sent", "taken", "markers", "before")

    def __init__(self, rounds: int) -> None:
        self.sent = self.taken = 0  # messages
        self.markers = 0  # markers that are taken
        self.before = array.array("I", bytes(4 * rounds))  # messages sent before each marker


def packed(sender: int, to: int, place: int, rounds: int) -> int:
    """A message as a number: its place on its link, and how many rounds its sender was in."""
    return ((rounds << 20 | place) << 8 | to) << 8 | sender


def unpacked(message: int) -> tuple[int, int, int, int]:
    """Of a message its sender, its addressee, its place on its link, and its sender's rounds."""
    return message & 255, message >> 8 & 255, message >> 16 & 0xFFFFF, message >> 36 & 0xFFFF


class Making:
    """A script that is made of events, one by one."""

    def __init__(
        self, links: str, processes: int | None, is_shortened: bool, lost: Sequence[str] = ()
    ) -> None:
        self.links, self.asked, self.is_shortened = links, processes, is_shortened
        self.lost, self.kept = lost, 0  # whose last lines are lost, and the sends put in for them
        self.script: IO[bytes] = tempfile.TemporaryFile()  # all but its first and last record
        self.processes: dict[str, Process] = {}  # by name
        self.are_numbered: bool | None = None  # whether their names are their numbers
        self.messages: dict[bytes, int] = {}  # packed, in the order in which they are sent
        self.ways: dict[int, Link] = {}
        self.waiting: dict[Awaited, list[Process]] = {}
        self.ready: collections.deque[Process] = collections.deque()
        self.begun = self.ended = self.steps = 0  # rounds, and the steps of the one begun last

    # Names and numbers.

    def process(self, event: Event, field: str) -> Process:
        """The process that a field names. A new one gets a number."""
        name = text_of(event, field)
        known = self.processes.get(name)
        return known if known is not None else self.new_process(name)

    def new_process(self, name: str) -> Process:
        """A process that no line has named so far, with the next number or its own."""
        is_number = name.isascii() and name.isdigit()
        if name[:1] == "-" and name[1:].isdigit():
            raise Unsound(f"process {name}: processes are numbered from 0 on")
        if self.are_numbered not in (None, is_number):
            raise Unsound(f"process {shown(name)}: some are named by numbers and some are not")
        self.are_numbered = is_number
        number = number_of(name) if is_number else len(self.processes)
        most = self.asked or MOST_PROCESSES
        if number >= most:
            raise Unsound(f"process {shown(name)} is one too many: there are {most} at most")
        if is_number and name != str(number):
            return self.process({"process": number}, "process")
        self.processes[name] = Process(number)
        return self.processes[name]

    def count(self) -> int:
        """How many processes there are."""
        return self.asked or max((it.number for it in self.processes.values()), default=0) + 1

    def failed(self, name: str) -> int:
        """The number of a process that failed, which may have done nothing but that."""
        if name in self.processes:
            return self.processes[name].number
        is_number = self.are_numbered and name.isascii() and name.isdigit()
        if is_number and number_of(name) < self.count():
            return number_of(name)
        raise Unsound(f"the logs have no process {shown(name)}, which failed")

    def way(self, sender: Process, to: Process) -> Link:
        """The link between two processes."""
        key = sender.number << 8 | to.number
        link = self.ways.get(key)
        if link is None:
            link = self.ways[key] = Link(sender.round)
        return link

    def hex_of(self, value: Any, field: str, most: int) -> str:
        """The bytes of a text, as a script has them."""
        if value is None:
            return ""
        if type(value) is not str:
            raise Unsound(f"`{field}` is no text")
        content = value.encode("utf-8", "surrogatepass")
        if len(content) <= most:
            return content.hex()
        if self.is_shortened:
            return hashlib.sha256(content).hexdigest()
        raise Unsound(f"`{field}` has {len(content)} bytes, and {most} at most go (--shorten)")

    def state_of(self, event: Event) -> str:
        """What a checkpoint stores: the bytes of `state`, or those that `digest` spells."""
        digest = event.get("digest")
        if digest is None or "state" in event:
            return self.hex_of(event.get("state"), "state", MOST_STATE)
        try:
            content = bytes.fromhex(digest)
        except (ValueError, TypeError):
            raise Unsound("`digest` is no hexadecimal text") from None
        if len(content) > MOST_STATE:
            raise Unsound(f"`digest` has {len(content)} bytes, and {MOST_STATE} at most go")
        return content.hex()

    # Events. Each answers what it has to wait for, or does its step.

    def put(self, process: Process, events: int, record: str) -> None:
        """Writes a record, and counts events of the tape of its process."""
        process.events += events
        if process.events > MOST_EVENTS:
            raise Unsound(f"this is one event more than the {MOST_EVENTS} that a process may have")
        self.script.write(record.encode())

    def release(self, awaited: Awaited) -> None:
        """What has waited for this may go on."""
        if awaited in self.waiting:
            self.ready.extend(self.waiting.pop(awaited))

    def send(self, process: Process, event: Event) -> Awaited | None:
        """A message is sent, which its name must tell from all others."""
        name = text_of(event, "message").encode("utf-8", "surrogatepass")
        if name in self.messages:
            raise Unsound(f"message {named(name)} is sent a second time")
        to = self.process(event, "to")
        if to is process:
            raise Unsound(f"message {named(name)} is sent to its own sender")
        self.put_send(process, to, name, self.hex_of(event.get("body"), "body", MOST_BODY))
        return None

    def put_send(self, process: Process, to: Process, name: bytes, body: str) -> None:
        """Writes a send, whose receipt need wait no more."""
        self.put(process, 1, f"send,{process.number},{to.number},{body}\n")
        link = self.way(process, to)
        self.messages[name] = packed(process.number, to.number, link.sent, process.round)
        link.sent += 1
        self.release(name)

    def receive(self, process: Process, event: Event) -> Awaited | None:
        """A message is received, which waits until it is sent."""
        name = text_of(event, "message").encode("utf-8", "surrogatepass")
        message = self.messages.get(name)
        if message is None:
            return name
        sender, to, place, rounds = unpacked(message)
        if to != process.number:
            raise Unsound(f"message {named(name)} was sent to process {to}")
        if message & RECEIVED:
            raise Unsound(f"message {named(name)} is received a second time")
        pick = place
        if self.links == "fifo":
            self.take_first(self.ways[sender << 8 | to], name, message)
            pick = 0
        elif rounds > process.round:
            cause = f"is of round {rounds}, and no `marker` of it comes before"
            raise Unsound(f"message {named(name)} {cause}")
        self.put(process, 1, f"deliver,{sender},{to},{pick},\n")
        self.messages[name] = message | RECEIVED
        return None

    def take_first(self, link: Link, name: bytes, message: int) -> None:
        """Takes a message that has to be the next one of a link that keeps its order."""
        _, _, place, rounds = unpacked(message)
        if place > link.taken:
            first = self.next_of(message, link.taken)
            raise Unsound(f"message {named(name)} overtakes {first}")
        if rounds > link.markers:
            first = f"the marker of round {link.markers + 1}"
            raise Unsound(f"message {named(name)} overtakes {first}")
        link.taken += 1

    def next_of(self, message: int, place: int) -> str:
        """The message at a place of the same link as another one."""
        sender, to, _, _ = unpacked(message)
        wanted = sender, to, place
        names = (it for it, other in self.messages.items() if unpacked(other)[:3] == wanted)
        return f"message {named(next(names, b''))}, which process {sender} sent before"

    def checkpoint(self, process: Process, event: Event) -> Awaited | None:
        """A checkpoint outside of rounds."""
        self.put(process, 1, f"check,{process.number},{self.state_of(event)}\n")
        return None

    def marker(self, process: Process, event: Event) -> Awaited | None:
        """A round is begun or entered, or its marker comes on a link."""
        number = event.get("round")
        if type(number) is not int or not 1 <= number <= MOST_ROUND:
            raise Unsound(f"`round` is no whole number from 1 to {MOST_ROUND}")
        if self.asked is None:
            raise Unsound("where there are markers, --processes has to say how many processes")
        if "from" in event:
            return self.take_marker(process, self.process(event, "from"), number, event)
        if number <= process.round or self.links == "fifo" and number <= self.begun:
            raise Unsound(f"round {number} is begun already")
        if number > self.ended + 1:
            return number - 1
        kind = "begin" if number > self.begun else "turn"
        self.put(process, 1, f"{kind},{process.number},{self.state_of(event)}\n")
        self.begun = number
        self.enter(process, number)
        if self.links == "unordered" or self.asked == 1:
            self.step(self.asked)
        return None

    def take_marker(
        self, process: Process, sender: Process, number: int, event: Event
    ) -> Awaited | None:
        """A process takes the marker of a round from a link that keeps its order."""
        if self.links != "fifo" or sender is process:
            raise Unsound("no marker comes on this link: leave `from` out where a round is entered")
        if sender.round < number:
            return sender.number, number
        link = self.way(sender, process)
        if number != link.markers + 1:
            raise Unsound(f"the next marker on this link is that of round {link.markers + 1}")
        if link.taken < link.before[number - 1]:
            message = packed(sender.number, process.number, 0, 0)
            first = self.next_of(message, link.taken)
            raise Unsound(f"the marker of round {number} overtakes {first}")
        is_forced = process.round < number
        state = self.state_of(event)
        self.put(process, 1 + is_forced, f"deliver,{sender.number},{process.number},0,{state}\n")
        link.markers = number
        if is_forced:
            self.enter(process, number)
        self.step(self.count() * (self.count() - 1))
        return None

    def enter(self, process: Process, number: int) -> None:
        """A process has its check of a round, and its marker goes on each of its links."""
        process.round = number
        for to in range(self.count()):
            if link := self.ways.get(process.number << 8 | to):
                link.before.append(link.sent)
        self.release((process.number, number))

    def step(self, of: int) -> None:
        """Counts a step of a round, which ends with so many."""
        self.steps += 1
        if self.steps == of:
            self.ended, self.steps = self.begun, 0
            self.release(self.ended)

    # Logs.

    def do(self, process: Process, event: Event) -> bool:
        """Does an event, or has its process wait."""
        kind = event.get("event")
        if kind == "send":
            awaited = self.send(process, event)
        elif kind == "receive":
            awaited = self.receive(process, event)
        elif kind == "checkpoint":
            awaited = self.checkpoint(process, event)
        elif kind == "marker":
            awaited = self.marker(process, event)
        else:
            raise Unsound("`event` is none of send, receive, checkpoint and marker")
        if awaited is not None:
            process.awaits = awaited
            self.waiting.setdefault(awaited, []).append(process)
        return awaited is None

    def take(self, log: Log, place: int, line: bytes) -> None:
        """Takes a line, and does what that and the events that waited make possible."""
        try:
            event = event_of(line)
            if event is None:
                return
            process = self.process(event, "process")
            if process.log is not log:
                if process.log is not None:
                    raise Unsound(f"this process has lines in {process.log.name} too")
                process.log = log
            if process.awaits is not None or not self.do(process, event):
                process.queue.append(place)
        except Unsound as unsound:
            raise Unsound(unsound.cause, log, place) from None
        while self.ready:
            self.go_on(self.ready.popleft())

    def go_on(self, process: Process) -> None:
        """Does events that have waited."""
        process.awaits = None
        for place, event in self.waited(process):
            try:
                if not self.do(process, event):
                    return
            except Unsound as unsound:
                raise Unsound(unsound.cause, process.log, place) from None
            process.done += 1
        process.queue, process.done = array.array("Q"), 0

    def waited(self, process: Process) -> Iterator[tuple[int, Event]]:
        """The events of a process that wait, read again, with their places."""
        for at in range(process.done, len(process.queue)):
            assert process.log
            place = process.queue[at]
            try:
                event = event_of(process.log.line_at(place)) or {}
            except Unsound as unsound:  # the file is changed meanwhile
                raise Unsound(unsound.cause, process.log, place) from None
            yield place, event

    # Logs whose last lines are lost.

    def lost_sender(self, event: Event) -> Process | None:
        """Who has sent a message that no line sends: a process whose last lines are lost."""
        receiver = self.process(event, "process")
        found = [self.process({"process": name}, "process") for name in self.lost]
        lost = [it for it in found if it is not receiver]
        if "from" in event:
            sender = self.process(event, "from")
            return sender if sender in lost else None
        if len(lost) > 1:
            raise Unsound("the last lines of several processes are lost: say `from` whom it came")
        return lost[0] if lost else None

    def sends_in_queues(self) -> set[bytes]:
        """The messages that events which wait would send."""
        return {
            str(event.get("message")).encode("utf-8", "surrogatepass")
            for process in self.processes.values() if process.awaits is not None
            for _, event in self.waited(process) if event.get("event") == "send"
        }

    def put_lost_sends(self) -> None:
        """Has those whose last lines are lost send, after all that they did, what was received."""
        queued = self.sends_in_queues() if self.lost else set()
        is_done = not self.lost
        while not is_done:
            is_done = True
            for process in list(self.processes.values()):
                name = process.awaits
                if not isinstance(name, bytes) or name in queued:
                    continue
                place, event = next(self.waited(process))
                try:
                    sender = self.lost_sender(event)
                    if sender is None or sender.awaits is not None:
                        continue
                    self.put_send(sender, process, name, "")
                except Unsound as unsound:
                    raise Unsound(unsound.cause, process.log, place) from None
                self.kept, is_done = self.kept + 1, False
                while self.ready:
                    self.go_on(self.ready.popleft())

    def test_end(self) -> None:
        """Nothing may wait at the end of the logs, once what lost lines have sent is put in."""
        self.put_lost_sends()
        stuck = [it for it in self.processes.values() if it.awaits is not None]
        awaited, sends = {it.awaits for it in stuck}, dict[Awaited, str]()
        for process in stuck:
            for place, event in self.waited(process):
                name = str(event.get("message")).encode("utf-8", "surrogatepass")
                if process.log and event.get("event") == "send" and name in awaited:
                    sends[name] = f"{process.log.name}:{process.log.number_at(place)}"
        causes = [(self.cause_of(it.awaits, sends), it) for it in stuck if it.awaits is not None]
        if causes:
            (_, cause), process = min(causes, key=lambda it: it[0][0])
            raise Unsound(cause, process.log, process.queue[process.done])

    def cause_of(self, awaited: Awaited, sends: dict[Awaited, str]) -> tuple[int, str]:
        """Why an event waits for ever; the least number is that of the cause to be told."""
        if isinstance(awaited, bytes):
            if awaited not in sends:
                return 0, f"message {named(awaited)} is received, and no line sends it"
            where = f"its send, {sends[awaited]}, stands after an event that waits in turn"
            return 3, f"message {named(awaited)} is received before it can be sent: {where}"
        if isinstance(awaited, tuple):
            sender, number = awaited
            return 1, f"process {sender} does not come to its `marker` of round {number}"
        return 2, f"round {awaited} does not end before the next one begins"

    # What is written.

    def first_record(self, version: int, processes: int) -> str:
        """The first record."""
        return f"world,{version},{processes},{self.links}\n"

    def write(self, output: IO[bytes], failed: Sequence[int]) -> int:
        """Writes the script, and answers its length in bytes."""
        processes = self.count()
        version = 1 if processes <= MOST_IN_FIRST_VERSION else 2
        first = self.first_record(version, processes).encode()
        last = ",".join(["recover", *map(str, sorted(set(failed)))]) + "\n" if failed else ""
        output.write(first)
        length = len(first) + self.script.seek(0, os.SEEK_END) + len(last)
        self.script.seek(0)
        shutil.copyfileobj(self.script, output, MOST_LINE)
        output.write(last.encode())
        output.flush()
        return length

    def write_names(self, file: IO[str]) -> None:
        """Writes the names of the logs with those of recline, as JSON Lines."""
        for name, process in sorted(self.processes.items(), key=lambda it: it[1].number):
            file.write(json.dumps({"process": name, "number": process.number}) + "\n")
        sends = [0] * self.count()
        for text, message in self.messages.items():
            sender = unpacked(message)[0]
            name = text.decode("utf-8", "surrogatepass")
            told = {"message": name, "sender": sender, "incarnation": 0, "number": sends[sender]}
            file.write(json.dumps(told) + "\n")
            sends[sender] += 1
