"""Makes an input of `recline collect` of the events of logs, in no order between logs.

The logs are read twice: first for the names of messages, since a receipt tells the number of its
send, which may stand in a log that is read later.
"""

from __future__ import annotations

from log_lines import Event, Log, Unsound, event_of, named, text_of
from log_scripts import MOST_BODY, MOST_ROUND, RECEIVED, Making, Process, packed, unpacked


class Reporting(Making):
    """Reports that are made of events, each as its line stands in its log."""

    def first_record(self, version: int, processes: int) -> str:
        """The first record."""
        return f"reports,{version},{processes}\n"

    def note(self, log: Log, place: int, line: bytes) -> None:
        """The first look at a line: who does what, and which number a message gets."""
        try:
            event = event_of(line)
            if event is None:
                return
            process = self.process(event, "process")
            if process.log not in (None, log):
                raise Unsound(f"this process has lines in {process.log and process.log.name} too")
            process.log = log
            if event.get("event") == "send":
                name = text_of(event, "message").encode("utf-8", "surrogatepass")
                if name in self.messages:
                    raise Unsound(f"message {named(name)} is sent a second time")
                to = self.process(event, "to")
                if to is process:
                    raise Unsound(f"message {named(name)} is sent to its own sender")
                self.name(process, to, name)
        except Unsound as unsound:
            raise Unsound(unsound.cause, log, place) from None

    def name(self, process: Process, to: Process, name: bytes) -> int:
        """Gives a message the next number of its sender."""
        message = packed(process.number, to.number, process.done, 0)
        process.done += 1
        self.messages[name] = message
        return message

    def do(self, process: Process, event: Event) -> bool:
        """Writes the report of an event. None waits."""
        number, kind = process.number, event.get("event")
        if kind == "send":
            to = self.process(event, "to").number
            body = self.hex_of(event.get("body"), "body", MOST_BODY)
            self.put(process, 1, f"send,{number},0,{to},{body}\n")
        elif kind == "receive":
            self.put_receipt(process, event)
        elif kind == "checkpoint":
            self.put(process, 1, f"check,{number},0,{self.state_of(event)},-\n")
        elif kind == "marker":
            self.put_marker(process, event)
        else:
            raise Unsound("`event` is none of send, receive, checkpoint and marker")
        return True

    def put_receipt(self, process: Process, event: Event) -> None:
        """Writes a receipt; its send may be among lines that are lost."""
        name = text_of(event, "message").encode("utf-8", "surrogatepass")
        message = self.messages.get(name)
        if message is None:
            sender = self.lost_sender(event)
            if sender is None:
                raise Unsound(f"message {named(name)} is received, and no line sends it")
            message = self.name(sender, process, name)
            self.kept += 1
        by, to, place, _ = unpacked(message)
        if to != process.number:
            raise Unsound(f"message {named(name)} was sent to process {to}")
        if message & RECEIVED:
            raise Unsound(f"message {named(name)} is received a second time")
        self.messages[name] = message | RECEIVED
        self.put(process, 1, f"recv,{process.number},0,{by},0,{place}\n")

    def put_marker(self, process: Process, event: Event) -> None:
        """Writes that a round is entered, or that its marker came, and then first the check."""
        number = event.get("round")
        if type(number) is not int or not 1 <= number <= MOST_ROUND:
            raise Unsound(f"`round` is no whole number from 1 to {MOST_ROUND}")
        if number > process.round:
            process.round = number
            state = self.state_of(event)
            self.put(process, 1, f"check,{process.number},0,{state},{number}\n")
        elif "from" not in event:
            raise Unsound(f"round {number} is begun already")
        if "from" in event:
            sender = self.process(event, "from").number
            self.put(process, 1, f"mark,{process.number},0,{sender},{number}\n")

    def test_end(self) -> None:
        """Nothing waits."""
