"""Trials of a service: long inputs, readers that stop, little memory, and devices that fail."""

import contextlib
import os
import resource
import socket
import subprocess
from collections.abc import Callable, Iterator, Sequence
from functools import partial

import conversations
from conversations import READ_FAULT, WRITE_FAULT, Conversation, Difference, same, shown
from preloaded import TOP
from service_jobs import Job
from slow_model.made_conversations import answers_to, good_records, padded
from slow_model.texts import MOST_LINE

MIB = 1 << 20
# What a service may take above what it had when it answered its first record.
MOST_MORE = 8 * MIB
# Bytes of a long line at least, so that one sees whether they are kept.
LEAST_LINE = 20_000_000
# How much a pipe and a service's own room take while nobody reads the answers.
MOST_TAKEN = 4 * MIB
REFUSED = b"refused,1,NoSuchProcess\n\n"
BAD = b"fault,32,BadRecord\n\n"
STATE = b"61" * 4096
BODY = b"62" * 64
Command = Sequence[str]


@contextlib.contextmanager
def begun(command: Command, job: Job) -> Iterator[Conversation]:
    """A conversation whose machine is there."""
    with Conversation(command) as talk:
        talk.exchange(job.first + b"\n", b"\n")
        yield talk


def long_line(
    command: Command, job: Job, begin: bytes, filler: bytes, end: bytes, size: int
) -> None:
    """A line of so many bytes is a fault, and its rest is not kept, and is no record."""
    with begun(command, job) as talk:
        base = talk.memory()
        some = filler * (MIB // len(filler))
        talk.exchange(begin, b"")
        for _ in range(max(1, size // MIB)):
            talk.exchange(some, b"")
        talk.grown(base, MOST_MORE)
        talk.exchange(end + b"\n" + job.check % b"" + b"\n", BAD + b"checked,0,1\n\n")
        # The next one ends with the input.
        talk.exchange(begin + some + end, b"")
        talk.grown(base, MOST_MORE)
        talk.end(BAD, 2)


def border(command: Command, job: Job) -> None:
    """Lines of the most bytes that one may have, and of a few more or less."""
    with begun(command, job) as talk:
        check = 0
        for end in (b"\n", b"\r\n"):
            for width in range(MOST_LINE - 3, MOST_LINE + 4):
                is_good = width + len(end) - 1 <= MOST_LINE
                check += is_good
                line = padded(job.check % b"", width)
                talk.exchange(line + end, b"checked,0,%d\n\n" % check if is_good else BAD)
        talk.end(b"", 2)


def border_at_the_end(command: Command, job: Job) -> None:
    """The same of a line at the end of the input."""
    for width in range(MOST_LINE - 1, MOST_LINE + 3):
        is_good = width <= MOST_LINE
        with begun(command, job) as talk:
            talk.exchange(padded(job.check % b"", width), b"")
            talk.end(b"checked,0,1\n\n" if is_good else BAD, 0 if is_good else 2)


def long_input(
    command: Command, job: Job, line: bytes, answer: bytes, size: int, status: int
) -> None:
    """An input of more bytes than a text may have is answered, and takes no memory."""
    with begun(command, job) as talk:
        base = talk.memory()
        times = max(1, MIB // len(line))
        for _ in range(max(1, size // MIB)):
            talk.exchange(line * times, answer * times)
        talk.grown(base, MOST_MORE)
        talk.end(b"", status)


def unread(
    command: Command, job: Job, line: bytes, answer: bytes, size: int, status: int
) -> None:
    """Nobody reads: then the service takes no more, and nothing is lost when all is read."""
    times = size // len(line)
    with begun(command, job) as talk:
        base = talk.memory()
        taken = talk.push(line * times, 0.3)
        if taken > MOST_TAKEN:
            raise Difference(f"it took {taken:,} bytes while nobody read its answers")
        talk.grown(base, MOST_MORE)
        talk.exchange((line * times)[taken:], answer * times)
        talk.grown(base, MOST_MORE)
        talk.end(b"", status)


def many_histories(command: Command, job: Job, checks: int, times: int) -> None:
    """Long answers to records that come together are not kept till all are there."""
    with begun(command, job) as talk:
        for check in range(1, checks + 1):
            talk.exchange(job.check % STATE + b"\n", b"checked,0,%d\n\n" % check)
        event = b"check,%s,-\n" % STATE
        history = b"history,1,2\ntape,0,0\n%stape,1,0\n\n" % (event * checks)
        talk.exchange(b"history\n" * 3, history * 3)
        base = talk.memory()
        talk.exchange(b"history\n" * times, history * times)
        talk.grown(base, MOST_MORE)
        talk.end(b"", 0)


class Little:
    """A machine whose service gets little memory: what it has done, and what it answers."""

    def __init__(self, talk: Conversation, job: Job) -> None:
        self.talk, self.job = talk, job
        self.events = bytearray()
        self.checks = self.sends = self.refused = 0
        self.begun = b""

    def answer(self) -> bytes:
        """The next answer, whatever it is."""
        while (end := self.begun.find(b"\n\n")) < 0:
            if not self.talk.ready(True, False, conversations.patience)[0]:
                raise Difference(f"no answer within {conversations.patience:g} seconds")
            some = os.read(self.talk.output, MIB)
            if not some:
                raise Difference(f"it ends; {self.talk.ending()}")
            self.begun += some
        answer, self.begun = self.begun[:end + 2], self.begun[end + 2:]
        return answer

    def step(self, record: bytes, event: bytes, reply: bytes) -> bool:
        """Whether a step is done; else there was no memory for it."""
        self.talk.exchange(record + b"\n", b"")
        answer = self.answer()
        if answer == b"fault,0,OutOfMemory\n\n":
            self.refused += 1
            return False
        same(answer, reply)
        self.events += event
        return True

    def check(self) -> bool:
        """Whether a check is taken."""
        reply = b"checked,0,%d\n\n" % (self.checks + 1)
        is_done = self.step(self.job.check % STATE, b"check,%s,-\n" % STATE, reply)
        self.checks += is_done
        return is_done

    def send(self) -> bool:
        """Whether a message is sent."""
        reply = b"sent,0,0,%d\n\n" % self.sends
        is_done = self.step(self.job.send % BODY, b"send,1,0,%s\n" % BODY, reply)
        self.sends += is_done
        return is_done

    def fill(self, steps: int) -> None:
        """Does steps until memory has been refused for some, or all are done."""
        for step in range(steps):
            _ = self.send() if step % 4 else self.check()
            if self.refused > 40:
                return
        raise Difference(f"{steps} steps were done, and memory was never out")


def little_memory(command: Command, job: Job, more: int) -> None:
    """Memory runs out: steps are refused it and change nothing, and go on when there is some."""
    with begun(command, job) as talk:
        talk.exchange(job.send % b"" + b"\n", b"sent,0,0,0\n\n")
        little = Little(talk, job)
        little.events, little.sends = bytearray(b"send,1,0,\n"), 1
        limit_memory(talk, more)
        little.fill(200_000)
        unlimit_memory(talk)
        if not little.check() or not little.send():
            raise Difference("there is memory again, and a step is refused it")
        history = b"history,1,2\ntape,0,0\n%stape,1,0\n\n" % little.events
        talk.exchange(b"history\n", history)
        talk.exchange(job.receipt + b"\n", b"took,0,0,0,-\n\n")
        talk.end(b"", 2)


def limit_memory(talk: Conversation, more: int) -> None:
    """The program gets so many bytes more than it has."""
    with open(f"/proc/{talk.child.pid}/statm", "rb") as counts:
        size = int(counts.read().split()[0]) * resource.getpagesize()
    resource.prlimit(talk.child.pid, resource.RLIMIT_AS, (size + more, resource.RLIM_INFINITY))


def unlimit_memory(talk: Conversation) -> None:
    """The program gets what it wants."""
    unlimited = (resource.RLIM_INFINITY, resource.RLIM_INFINITY)
    resource.prlimit(talk.child.pid, resource.RLIMIT_AS, unlimited)


def examples(command: Command, job: Job) -> None:
    """The examples of runs are answered; without empty lines that is what is stored for them.

    Those of collections have empty lines.
    """
    folder = "run" if job.word == "serve" else job.word
    for path in sorted((TOP / "examples" / folder).glob("*.in")):
        text = path.read_bytes()
        (answer, last), status = answers_to([text], job.model)
        with Conversation(command) as talk:
            talk.exchange(text, answer)
            talk.end(last, status)
        stored = path.with_suffix(".out").read_bytes()
        if folder == job.word:
            same(answer + last, stored)
        elif status != 2:
            same(good_records(text, job.model)[1], stored)


def over_socket(command: Command, job: Job) -> None:
    """Input and output are one socket, as a network server of the system hands them out."""
    exchanges = [(job.first, b"\n"), (job.send % b"61", b"sent,0,0,0\n\n"), (job.refused, REFUSED)]
    ours, its = socket.socketpair()
    end = its.fileno()
    with subprocess.Popen(command, stdin=end, stdout=end, stderr=subprocess.PIPE) as child:
        its.close()
        try:
            for record, answer in exchanges:
                ours.sendall(record + b"\n")
                same(received(ours, len(answer)), answer)
            ours.shutdown(socket.SHUT_WR)
            same(received(ours, 1), b"")
            said = child.stderr.read() if child.stderr else b""
            if (said, child.wait(conversations.patience)) != (b"", 1):
                raise Difference(f"it says {shown(said)}, and its status is {child.returncode}")
        finally:
            child.kill()
            ours.close()


def received(source: socket.socket, count: int) -> bytes:
    """The next bytes of a socket, so many or all up to its end."""
    source.settimeout(conversations.patience)
    got = b""
    while len(got) < count and (some := source.recv(MIB)):
        got += some
    return got


def device(command: Command, job: Job, how: str, is_read: bool) -> None:
    """A standard file that fails from the start."""
    words = ["sh", "-c", f'"$0" "$@" {how}', *command]
    text = job.first + b"\n" + job.check % b"" + b"\n"
    ran = subprocess.run(
        words, input=text, capture_output=True, check=False, timeout=conversations.patience
    )
    said = READ_FAULT if is_read else WRITE_FAULT
    if ran.returncode != 3 or ran.stdout or ("2>" not in how and not said.fullmatch(ran.stderr)):
        raise Difference(f"its status is {ran.returncode}, and it says {shown(ran.stderr)}")


def not_ready(command: Command, _job: Job) -> None:
    """An input that is opened not to wait, and has nothing, has failed."""
    read_end, write_end = os.pipe()
    os.set_blocking(read_end, False)
    ran = subprocess.run(
        command, stdin=read_end, capture_output=True, check=False, timeout=conversations.patience
    )
    os.close(read_end)
    os.close(write_end)
    if ran.returncode != 3 or ran.stdout or not READ_FAULT.fullmatch(ran.stderr):
        raise Difference(f"its status is {ran.returncode}, and it says {shown(ran.stderr)}")


Trial = tuple[str, Callable[[Command, Job], None]]


def lines_of(size: int, job: Job) -> Iterator[Trial]:
    """Long lines, and long inputs."""
    check, send = job.check % b"", job.send % b""
    lines = [
        ("x", b"", b"x", b""),
        ("zeros", b"check,", b"0", b"0,"),
        ("failed processes", b"recover", b",0", b""),
        ("a body", send, b"61", b""),
        ("NUL bytes", b"", b"\x00", b""),
        ("returns", b"", b"\r", b"\r"),
        ("records without an end", check + b"\r", check + b"\r", check),
        ("a record after the most bytes", b"x" * MOST_LINE, check, check),
    ]
    length = max(size, LEAST_LINE)
    for name, begin, filler, end in lines:
        yield f"a line of {name}", partial(
            long_line, begin=begin, filler=filler, end=end, size=length
        )
    yield "lines of the most bytes", border
    yield "lines of the most bytes at the end", border_at_the_end
    longest = padded(job.refused, MOST_LINE) + b"\n"
    inputs = [
        ("empty lines", b"\n", b"", size, 0),
        ("empty lines of a return", b"\r\n", b"", size, 0),
        ("refused records", job.refused + b"\n", REFUSED, size // 8, 1),
        ("longest records", longest, REFUSED, size, 1),
        ("faults", b"\x00\n", BAD, size // 40, 2),
    ]
    for name, line, answer, many, status in inputs:
        yield f"an input of {name}", partial(
            long_input, line=line, answer=answer, size=many, status=status
        )


def readers(size: int, job: Job) -> Iterator[Trial]:
    """Readers that stop, and long answers."""
    refused = padded(job.refused, 308) + b"\n"
    most, times = max(size // 4, 3 * MOST_TAKEN), max(120, size // 200_000)
    yield "a reader that stops", partial(
        unread, line=refused, answer=REFUSED, size=most, status=1
    )
    yield "a reader of faults stops", partial(
        unread, line=b"x" * 300 + b"\n", answer=BAD, size=most, status=2
    )
    yield "many histories at once", partial(many_histories, checks=20, times=times)


def devices(is_script: bool) -> Iterator[Trial]:
    """Standard files that fail; those at which an interpreter fails are left out for a script."""
    inputs = ["<&-", "0>/dev/null", *([] if is_script else ["</"])]
    outputs = [">&-", ">/dev/full"]
    for how in (*inputs, *outputs, "<&- 2>&-", ">/dev/full 2>/dev/full"):
        yield how, partial(device, how=how, is_read=how.startswith(("<", "0")))
    yield "an input that is not ready", not_ready
    yield "a socket", over_socket


def all_trials(size: int, job: Job, is_script: bool) -> list[Trial]:
    """All trials with inputs of about so many bytes."""
    found: list[Trial] = [("examples", examples), *lines_of(size, job), *readers(size, job)]
    found += devices(is_script)
    if not is_script:
        for more in (2, 16):
            found.append((f"memory for {more} MiB more", partial(little_memory, more=more * MIB)))
    return found
