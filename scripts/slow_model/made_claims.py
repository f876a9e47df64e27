"""Random check texts: right claims, claims by chains in other orders, and wrong ones.

A claim is what a plan makes after a random script, or what a chain in another order makes, perhaps
on a history that tells what could not happen. Every other one has the whole answer. Then perhaps
something in it is changed.
"""

from collections.abc import Iterator
from random import Random

from .claims import Claim, Replay, Start
from .histories import Check, Entry, Event, History, Mark, Marks, Name, Recv, Send
from .made_scripts import DOMINOES, ROUNDS, TALK, Player
from .made_texts import ODD_NUMBERS, odd_first, one_in, text_of
from .texts import NOW, OF_FORGET, Record


SOME_LOST = ["0", "1", "1", "2", "3", "10", "4294967295"]


def some_check_text(chance: Random) -> bytes:
    """A check text of a claim after a script."""
    claim = some_claim(chance)
    if one_in(chance, 2):
        add_answer(chance, claim)
    for _ in range(chance.choice([0, 0, 1, 1, 2])):
        chance.choice(CHANGES)(chance, claim)
    if one_in(chance, 8):
        past_limits(chance, claim)
    records, n = list(claim.records()), len(claim.history.tapes)
    if one_in(chance, 5):
        records[0] = ("history", chance.choice([1, 2, 2, 3]), n)
    if one_in(chance, 3):
        records = with_floors(chance, records, n)
    if one_in(chance, 80):
        records[0] = odd_first(chance, "history", n)
    return text_of(chance, records, one_in(chance, 3))


def some_answer_texts(chance: Random, many: int) -> Iterator[bytes]:
    """Check texts of whole answers after one script: right ones, and some with something changed.

    A few cannot be read.
    """
    made = some_claim(chance)
    for _ in range(many):
        claim = copy_of(made)
        add_answer(chance, claim)
        if one_in(chance, 4):
            chance.choice(CHANGES)(chance, claim)
        records = list(claim.records())
        if one_in(chance, 3):
            records = with_floors(chance, records, len(claim.history.tapes))
        yield text_of(chance, records, False)


def with_floors(chance: Random, records: list[Record], n: int) -> list[Record]:
    """The records of a claim as of a history of which the beginning was let go: any floors do."""
    first: Record = ("history", 3 if one_in(chance, 40) else OF_FORGET, n)
    floors: list[Record] = []
    for p in range(n):
        some = ODD_NUMBERS[:13] if one_in(chance, 200) else SOME_LOST
        floors.append(("floor", p, chance.choice(some), chance.choice(some)))
    return [first, *floors, *records[1:]]


def copy_of(claim: Claim) -> Claim:
    """A claim of its own, of the same line, for the same history."""
    history = History(0)
    history.tapes = [list(tape) for tape in claim.history.tapes]
    history.incarnations = list(claim.history.incarnations)
    marks = Marks(set(claim.marks.damaged), dict(claim.marks.bars))
    return Claim(history, marks, set(claim.failed), list(claim.line), list(claim.entries))


def some_claim(chance: Random) -> Claim:
    """A claim after a script."""
    player = Player(chance, [TALK, ROUNDS, DOMINOES, DOMINOES, DOMINOES]).play()
    failed = {p for p in player.processes(0, 1, 1, 2, 3) if p < player.n}
    claim = Claim(player.world.history, player.world.marks, failed)
    if one_in(chance, 2):
        checks = claim.history.checks
        claim.marks.damaged |= {(p, checks(p)) for p in failed if checks(p)}
    if one_in(chance, 4):
        other_bar(chance, claim)
    if one_in(chance, 4):
        for _ in range(chance.choice([1, 2, 3])):
            other_event(chance, claim)
    if one_in(chance, 2):
        claim.line, claim.entries, _ = claim.history.plan(claim.marks, failed)
    else:
        some_chain(chance, claim)
    return claim


def add_answer(chance: Random, claim: Claim) -> None:
    """Adds where processes go on and what is sent again, as it has to be or with a change."""
    claim.starts, claim.replays = claim.right_starts(), claim.right_replays()
    for _ in range(chance.choice([0, 0, 1, 1, 1, 2])):
        chance.choice(ANSWER_CHANGES)(chance, claim)


def some_chain(chance: Random, claim: Claim) -> None:
    """A chain whose entries come in any order and name any orphan; one in four stops early."""
    history = claim.history
    claim.line = history.latest_choices(claim.marks, claim.failed)
    most = chance.randrange(6) if one_in(chance, 4) else NOW
    while len(claim.entries) < most:
        orphans = [
            (p, name) for p in history.processes() for name in history.orphans(claim.line, p)
        ]
        if not orphans:
            break
        p, name = chance.choice(orphans)
        claim.entries.append(Entry(p, claim.line[p], name))
        claim.line[p] = history.next_lower(claim.marks, p, claim.line[p])


def some_process(chance: Random, claim: Claim) -> int:
    """Any process; of many most often one that did something."""
    busy = [p for p, tape in enumerate(claim.history.tapes) if tape]
    if len(claim.history.tapes) > 8 and busy and not one_in(chance, 4):
        return chance.choice(busy)
    return chance.randrange(len(claim.history.tapes))


def some_name(chance: Random, claim: Claim) -> Name:
    """A name, most often one that somebody has sent or received."""
    history = claim.history
    p, q = some_process(chance, claim), some_process(chance, claim)
    names = [name for name, _ in history.sent(p)] + history.received(q)
    if names and not one_in(chance, 4):
        return chance.choice(names)
    return Name(p, chance.choice([0, 0, 1, 65_535]), chance.choice([0, 1, 2, 3, 2**32 - 1]))


def near_name(chance: Random, claim: Claim, name: Name) -> Name:
    """A name that differs in one thing."""
    return chance.choice([
        name._replace(sender=some_process(chance, claim)),
        name._replace(incarnation=max(name.incarnation + chance.choice([-1, 1]), 0)),
        name._replace(number=max(name.number + chance.choice([-1, 1]), 0)),
        some_name(chance, claim),
    ])


def near_choice(chance: Random, claim: Claim, p: int, choice: int) -> int:
    """A choice below or above one, or any."""
    checks = claim.history.checks(p)
    below = checks if choice == NOW else max(choice - 1, 0)
    above = NOW if choice == NOW or choice >= checks else choice + 1
    return chance.choice([below, below, above, above, 0, NOW, checks, checks + 1])


def drop_entry(chance: Random, claim: Claim) -> None:
    """Takes an entry out."""
    if claim.entries:
        del claim.entries[chance.randrange(len(claim.entries))]


def double_entry(chance: Random, claim: Claim) -> None:
    """Puts an entry in once more."""
    if claim.entries:
        claim.entries.insert(chance.randint(0, len(claim.entries)), chance.choice(claim.entries))


def exchange_entries(chance: Random, claim: Claim) -> None:
    """Exchanges two entries, neighbours as often as not."""
    if len(claim.entries) > 1:
        i = chance.randrange(len(claim.entries) - 1)
        j = i + 1 if one_in(chance, 2) else chance.randrange(len(claim.entries))
        claim.entries[i], claim.entries[j] = claim.entries[j], claim.entries[i]


def other_entry(chance: Random, claim: Claim) -> None:
    """An entry with another message, another choice or another process."""
    if not claim.entries:
        p = some_process(chance, claim)
        claim.entries.append(Entry(p, near_choice(chance, claim, p, NOW), some_name(chance, claim)))
        return
    i = chance.randrange(len(claim.entries))
    entry = claim.entries[i]
    received = claim.history.received(entry.at)
    claim.entries[i] = chance.choice([
        entry._replace(message=near_name(chance, claim, entry.message)),
        entry._replace(message=chance.choice(received) if received else some_name(chance, claim)),
        entry._replace(choice=near_choice(chance, claim, entry.at, entry.choice)),
        entry._replace(at=some_process(chance, claim)),
    ])


def moved_line(chance: Random, claim: Claim) -> None:
    """A choice of the line moved up or down; or choices too few or too many."""
    if one_in(chance, 12):
        before = len(claim.line)
        many = chance.choice([max(before - 1, 1), before + 1, before + 1, 64, 65, 256, 257])
        claim.line = [*claim.line, *[0] * many][:many]
        return
    p = some_process(chance, claim)
    if p < len(claim.line):
        claim.line[p] = near_choice(chance, claim, p, claim.line[p])


def one_too_low(chance: Random, claim: Claim) -> None:
    """One check lower than needed, with an entry for it that names a receipt about there."""
    p = some_process(chance, claim)
    received = claim.history.received(p)
    if p >= len(claim.line) or not claim.history.has_choice(p, claim.line[p]) or not received:
        return
    before = len(claim.history.received(p, claim.line[p]))
    about = received[max(before - 2, 0):before + 2]
    claim.entries.append(Entry(p, claim.line[p], chance.choice(about)))
    claim.line[p] = claim.history.next_lower(claim.marks, p, claim.line[p])


def other_failed(chance: Random, claim: Claim) -> None:
    """Has another process failed, or one process less."""
    claim.failed = claim.failed ^ {some_process(chance, claim)}


def other_marks(chance: Random, claim: Claim) -> None:
    """Has a further check damaged, or one check less."""
    p = some_process(chance, claim)
    checks = claim.history.checks(p)
    which = [checks, chance.randint(1, checks + 1), chance.randint(0, checks)]
    claim.marks.damaged ^= {(p, chance.choice(which))}


def other_bar(chance: Random, claim: Claim) -> None:
    """A process barred elsewhere, or no more; one in six bars is at no check."""
    p = some_process(chance, claim)
    if claim.marks.bars.pop(p, None) is None or one_in(chance, 2):
        checks = claim.history.checks(p)
        claim.marks.bars[p] = checks + 1 if one_in(chance, 6) else chance.randint(0, checks)


def other_event(chance: Random, claim: Claim) -> None:
    """An event changed, dropped, doubled or moved: the history may tell what could not happen."""
    p = some_process(chance, claim)
    tape = claim.history.tapes[p]
    if not tape:
        tape.append(Recv(some_name(chance, claim)))
        return
    i = chance.randrange(len(tape))
    how = chance.choice(
        ["other", "other", "drop", "double", "move", "receive", "mark", "incarnation"])
    event = tape[i]
    if how == "other" and isinstance(event, Recv):
        tape[i] = Recv(near_name(chance, claim, event.message))
    elif how == "other" and isinstance(event, Send):
        to, inc = some_process(chance, claim), chance.choice([0, 1, event.incarnation])
        tape[i] = Send(to, inc, event.body)
    elif how == "drop":
        del tape[i]
    elif how == "double":
        tape.insert(i, tape[i])
    elif how == "move":
        tape.insert(chance.randrange(len(tape)), tape.pop(i))
    elif how == "receive":
        tape.insert(i, Recv(some_name(chance, claim)))
    elif how == "mark":
        tape.insert(i, Mark(some_process(chance, claim), chance.choice([1, 2, 65_535])))
    else:
        claim.history.incarnations[p] = chance.choice([0, 1, 65_535])


def other_start(chance: Random, claim: Claim) -> None:
    """A process that goes on in another incarnation, or from another state."""
    p = some_process(chance, claim)
    start = claim.starts[p]
    other_incarnation = max(start.incarnation + chance.choice([-1, 1]), 0)
    states = [start.state for start in claim.starts]
    checks = [event.state for event in claim.history.tapes[p] if isinstance(event, Check)]
    claim.starts[p] = chance.choice([
        start._replace(incarnation=min(other_incarnation, 65_535)),
        start._replace(state=chance.choice([None, b"", b"\xa1", *states, *checks])),
    ])


def drop_replay(chance: Random, claim: Claim) -> None:
    """Takes a replay out."""
    if claim.replays:
        del claim.replays[chance.randrange(len(claim.replays))]


def double_replay(chance: Random, claim: Claim) -> None:
    """Puts a replay in once more, most often right after where it stands."""
    if claim.replays:
        i = chance.randrange(len(claim.replays))
        at = i + 1 if one_in(chance, 2) else chance.randint(0, len(claim.replays))
        claim.replays.insert(at, claim.replays[i])


def exchange_replays(chance: Random, claim: Claim) -> None:
    """Exchanges two replays, neighbours as often as not."""
    if len(claim.replays) > 1:
        i = chance.randrange(len(claim.replays) - 1)
        j = i + 1 if one_in(chance, 2) else chance.randrange(len(claim.replays))
        claim.replays[i], claim.replays[j] = claim.replays[j], claim.replays[i]


def one_more_replay(chance: Random, claim: Claim) -> None:
    """A replay of any message, most often with what its send says."""
    name = some_name(chance, claim)
    replay = Replay(name, some_process(chance, claim), chance.choice([0, 1, 5]), b"")
    if claim.history.is_held(name):
        to = dict(claim.history.sent(name.sender))[name]
        replay = Replay(name, to, *claim.history.send_of(name))
    before = [it for it in claim.replays if it.message < name]
    at = len(before) if not one_in(chance, 4) else chance.randint(0, len(claim.replays))
    claim.replays.insert(at, replay)


def other_replay(chance: Random, claim: Claim) -> None:
    """A replay with another name, addressee, place or body."""
    if claim.replays:
        i = chance.randrange(len(claim.replays))
        replay, other = claim.replays[i], chance.choice(claim.replays)
        place = max(replay.place + chance.choice([-1, 1]), 0)
        claim.replays[i] = chance.choice([
            replay._replace(message=near_name(chance, claim, replay.message)),
            replay._replace(to=some_process(chance, claim)),
            replay._replace(place=chance.choice([place, other.place])),
            replay._replace(body=chance.choice([b"", b"d", other.body, replay.body[:-1]])),
        ])


ANSWER_CHANGES = [
    other_start, drop_replay, double_replay, exchange_replays, one_more_replay, one_more_replay,
    other_replay, other_replay,
]
CHANGES = [
    drop_entry, double_entry, exchange_entries, other_entry, other_entry, moved_line, moved_line,
    one_too_low, one_too_low, other_failed, other_marks, other_bar, other_event,
]


def past_limits(chance: Random, claim: Claim) -> None:
    """Values that no text may have, or only just may."""
    n = len(claim.history.tapes)
    for tape in claim.history.tapes:
        for i, event in enumerate(tape):
            if one_in(chance, 8):
                tape[i] = odd_event(chance, n, event)
    if one_in(chance, 3):
        claim.failed = claim.failed | {n}
    if one_in(chance, 3):
        claim.marks.damaged |= {chance.choice([(n, 0), (n, 1), (0, 0), (0, 2**32)])}
    if one_in(chance, 6):
        claim.marks.bars |= chance.choice([{n: 0}, {0: 2**32}, {0: 2**32 - 1}])
    if claim.starts and one_in(chance, 3):
        claim.starts[chance.randrange(len(claim.starts))] = chance.choice([
            Start(65_536, None), Start(65_535, None), Start(0, b"s" * 4096), Start(0, b"s" * 4097),
        ])
    if claim.replays and one_in(chance, 3):
        i = chance.randrange(len(claim.replays))
        replay, message = claim.replays[i], claim.replays[i].message
        claim.replays[i] = chance.choice([
            replay._replace(to=n), replay._replace(place=chance.choice([2**32 - 1, 2**32])),
            replay._replace(body=b"r" * chance.choice([64, 65])),
            replay._replace(message=message._replace(sender=n)),
            replay._replace(message=message._replace(incarnation=65_536)),
            replay._replace(message=message._replace(number=2**32)),
        ])
    if claim.entries and one_in(chance, 3):
        i = chance.randrange(len(claim.entries))
        entry, message = claim.entries[i], claim.entries[i].message
        claim.entries[i] = chance.choice([
            entry._replace(at=n), entry._replace(choice=2**32),
            entry._replace(message=message._replace(sender=n)),
            entry._replace(message=message._replace(incarnation=65_536)),
            entry._replace(message=message._replace(number=2**32)),
        ])


def odd_event(chance: Random, n: int, event: Event) -> Event:
    """An event with a number or bytes that are at a limit or past it."""
    if isinstance(event, Send):
        return Send(chance.choice([event.to, n]), event.incarnation, b"d" * chance.choice([64, 65]))
    if isinstance(event, Recv):
        return Recv(event.message._replace(sender=n))
    if isinstance(event, Check):
        state = b"e" * chance.choice([4096, 4097])
        return Check(state, chance.choice([event.round, 0, 1, 65_535, 65_536]))
    return Mark(chance.choice([event.sender, n]), chance.choice([event.round, 0, 65_536]))
