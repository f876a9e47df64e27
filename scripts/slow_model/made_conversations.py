"""Random inputs of a service: made records among lines that nobody should send, cut into pieces."""

from collections.abc import Sequence
from random import Random

from .made_saves import some_saved_script
from .made_scripts import some_script
from .made_texts import one_in, with_other_bytes
from .service import Service
from .texts import MOST_LINE

# Bytes that no text has, and some of which look as if they ended a line.
BAD_BYTES = [b"\x00", b'"', b"\r", b"\t", b"\x0b", b"\x0c", b"\x1a", b"\x7f", b"\x80", b"\xff"]
ODD_LINES = [
    b"", b"\r", b"\r\r", b" ", b",", b"-", b"world", b"world,1,2", b"world,1,0,fifo",
    b"world,3,2,fifo", b"world,1,65,fifo", b"world,1,2,lifo", b"world,x,2,lifo", b"world,1,2,fifo",
    b"world,2,2,unordered", b"sned,0,1,61", b"history,1,1", b"fault,0,OutOfMemory", b"recover,",
    b"recover,x", b"bundle,4294967296", b"plan,x", b"answer,x", b"live,0", b"planned,1,0,0",
    b"forget,", b"forget,0", b"forget,65536", b"forget,1,", b"forgot,-", b"floor,0,0,0",
    b"live,", b"save,", b"save,0", b"saved,0", b"history,4,2", b"history,4,2,0", b"history,4,257",
    b"check,0", b"check,0,6", b"check,0,,", b"rounds,0",
    b"deliver,0,1,-1,", b"Check,0,", b"\xef\xbb\xbfcheck,0,", b"%n%s", b"history" * 9,
]  # fmt: skip
# Records that show the machine.
SHOWING = [b"rounds", b"bundle", b"plan,0", b"live", b"answer", b"save", b"history"]
MOST_PIECES = [1, 2, 5, 30, 200, 3_000, 70_000]


def padded(record: bytes, width: int) -> bytes:
    """A record whose second field has zeros before it, until the line has so many bytes."""
    name, comma, rest = record.partition(b",")
    return name + comma + b"0" * (width - len(record)) + rest


def long_line(chance: Random, record: bytes) -> bytes:
    """A line of about as many bytes as one may have, or of some more."""
    width = MOST_LINE + chance.choice([-1, 0, 0, 1, 1, 2, 3, 4_096, MOST_LINE])
    filler = chance.choice([b"x", b",", b"0", b" ", b"\x00", b"\r"])
    how = chance.choice(["padded", "padded", "filled", "filled", "behind", "behind"])
    if how == "padded":
        return padded(record, width) + b"\r" * one_in(chance, 3)
    if how == "filled":
        return filler * width
    # What stands after the most bytes that a line may have looks like a record by itself.
    return filler * (MOST_LINE + chance.choice([0, 0, 1])) + record


def odd_line(
    chance: Random, records: Sequence[bytes], odd: Sequence[bytes] = ODD_LINES
) -> bytes:
    """A line that most often has a fault, or is empty."""
    record = chance.choice(records)
    how = chance.choice(["odd", "odd", "bytes", "bad", "bad", "changed", "changed", "end", "cut"])
    if how == "odd":
        return chance.choice(odd)
    if how == "bytes":
        return chance.randbytes(chance.randrange(40)).replace(b"\n", b"\x00")
    if how == "bad":
        at = chance.randint(0, len(record))
        return record[:at] + chance.choice(BAD_BYTES) + record[at:]
    if how == "changed":
        return with_other_bytes(chance, record)
    if how == "end":
        return record + b"\r" * chance.choice([1, 1, 2, 3])
    return record[:chance.randint(0, len(record))]


def some_input(chance: Random) -> bytes:
    """An input: a made script, with other lines at random places, and the history at its end."""
    made = some_saved_script if one_in(chance, 4) else some_script
    return mixed(chance, made(chance).split(b"\n"), ODD_LINES, SHOWING)


def mixed(
    chance: Random, made: Sequence[bytes], odd: Sequence[bytes], last: Sequence[bytes]
) -> bytes:
    """An input: made lines, with others at random places, and records that show all at its end."""
    records = [it for it in made if it.strip(b"\r")] or [b"rounds"]
    often = chance.choice([0, 0.02, 0.1, 0.5])
    lines = []
    for line in made:
        while chance.random() < often:
            lines.append(odd_line(chance, records, odd))
        lines.append(line)
    if one_in(chance, 6):
        lines.insert(0, chance.choice(odd))
    if one_in(chance, 6):
        at = chance.randint(0, len(lines))
        many = range(chance.randint(1, 3))
        lines[at:at] = [long_line(chance, chance.choice(records)) for _ in many]
    text = b"\n".join([*lines, *last])
    if one_in(chance, 6):
        return text[:chance.randint(0, len(text))]
    return text + chance.choice([b"", b"\n", b"\n", b"\r\n", b"\n\n", b"\r"])


def some_pieces(chance: Random, text: bytes) -> list[bytes]:
    """A text in pieces of random sizes; where they are small there are some hundreds at most."""
    most = chance.choice([it for it in MOST_PIECES if len(text) <= 1_000 * it])
    pieces = []
    at = 0
    while at < len(text):
        size = chance.randint(1, most)
        pieces.append(text[at:at + size])
        at += size
    return pieces


def answers_to(pieces: list[bytes], model: type[Service]) -> tuple[list[bytes], int]:
    """What a service answers to each piece and to the end of the input, and its status."""
    service = model()
    answers = [service.take(piece) for piece in pieces]
    return [*answers, service.end()], service.status


def good_records(text: bytes, model: type[Service]) -> tuple[bytes, bytes]:
    """The lines of an input that have no fault, and all answers to them without empty lines."""
    service = model()
    good: list[tuple[bytes, bytes]] = []
    *ended, rest = text.split(b"\n")

    def answered(line: bytes, answer: bytes) -> None:
        """Before there is a machine, a fault drops what was read of one that was saved."""
        if answer and not answer.startswith(b"fault,"):
            good.append((line + b"\n", answer[:-1]))
        elif answer and service.begins():
            good.clear()

    for line in ended:
        answered(line, service.take(line + b"\n"))
    service.take(rest)
    answered(rest, service.end())
    return b"".join(line for line, _ in good), b"".join(reply for _, reply in good)
