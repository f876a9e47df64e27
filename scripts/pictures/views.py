"""What of a story is shown: which records, of which processes, and what is said of the rest."""

from collections.abc import Iterator
from dataclasses import dataclass

from slow_model.texts import NOW

from . import words
from .program import FAULT, Fault
from .stories import Check, Event, MarkerReceipt, Message, Receipt, Recovery, Story

Events = list[Event | Recovery]
MOST = 80  # so many records are shown unless more are asked for


@dataclass(frozen=True)
class Wish:
    """What is asked for: so many of the last records, up to which recovery, of which processes."""

    last: int | None = None
    recovery: int | None = None
    processes: tuple[int, ...] = ()


@dataclass(frozen=True)
class View:
    """What is shown, in the order of time, and sentences on what is not.

    `gaps` has the places of what has records left out before it.
    """

    story: Story
    processes: tuple[int, ...]
    shown: tuple[Event | Recovery, ...]
    gaps: frozenset[int]
    is_from_start: bool
    notes: tuple[str, ...]

    @property
    def recoveries(self) -> list[Recovery]:
        """The recoveries that are shown."""
        return [it for it in self.shown if isinstance(it, Recovery)]


def recovery_of(story: Story, number: int | None) -> Recovery | None:
    """The recovery of that number from 1; the last where none is given, if there is one."""
    if number is None:
        return story.recoveries[-1] if story.recoveries else None
    if not 1 <= number <= len(story.recoveries):
        has = words.counted(len(story.recoveries), "recovery", "recoveries")
        raise Fault(FAULT, f"there is no recovery {number}: the {story.called} has {has}")
    return story.recoveries[number - 1]


def sent_again(recovery: Recovery) -> list[Message]:
    """The replays: first those from or to a process that goes back, whom the recovery is about.

    The rest is on its way whatever failed.
    """

    def is_between_others(message: Message) -> bool:
        """Whether both its ends stay where they are."""
        line = recovery.line
        return min(line[message.process].choice, line[message.to].choice) == NOW

    return sorted(recovery.replays, key=is_between_others)


def spoken_of(recovery: Recovery) -> Iterator[list[Event]]:
    """What a recovery speaks of, in groups: the entries in order, marks on checks, replays."""
    for entry in recovery.passes:
        sent = [entry.message] if entry.message.is_reported else []
        yield [*sent, entry.receipt, *([entry.check] if entry.check else [])]
    for restart in recovery.line:
        for check in restart.lost:
            if isinstance(check, Check) and check.damage:
                yield [check, check.damage]
    for bar in recovery.bars.values():
        yield [*([bar.check] if bar.check.index else []), bar]
    for message in sent_again(recovery):
        yield [message, *(it for it in message.receipts if recovery in (it.cut_by, it.source))]


def told_of(recovery: Recovery, chosen: set[int], most: int) -> tuple[set[int], set[int]]:
    """The places of what a recovery speaks of, and the processes concerned.

    No more than so many records are taken. A choice that the line has goes with it, where it is not
    older than all of that.
    """
    found: set[int] = {recovery.place}
    records, concerned = {recovery.record}, {*recovery.failed, *recovery.bars}
    for group in spoken_of(recovery):
        if not chosen.intersection(it.process for it in group):
            continue
        if len(records | {it.record for it in group}) > most:
            break
        records |= {it.record for it in group}
        found |= {it.place for it in group}
        concerned |= {process for it in group for process in partners(it)}
    checks = [it.check for it in recovery.line if it.check and it.process in concerned & chosen]
    if len(records | {it.record for it in checks}) <= most:
        return found | {it.place for it in checks if it.place >= 0}, concerned
    return found | {it.place for it in checks if it.place > min(found)}, concerned


def partners(it: Event) -> tuple[int, ...]:
    """The processes that an event is drawn between."""
    if isinstance(it, Message):
        return it.process, it.to
    if isinstance(it, Receipt):
        return it.process, it.message.process
    return (it.process, it.sender) if isinstance(it, MarkerReceipt) else (it.process,)


def among(story: Story, chosen: tuple[int, ...], last: int) -> Events:
    """What happens among some processes, or is spoken of by a recovery, up to a place."""
    if len(chosen) == story.processes:
        return story.events[: last + 1]
    wanted = set(chosen)
    keep = {
        it.place for recovery in story.recoveries for group in spoken_of(recovery) for it in group
    }
    return [
        it
        for it in story.events[: last + 1]
        if isinstance(it, Recovery)
        or wanted.issuperset(partners(it))
        or (it.process in wanted and it.place in keep)
    ]


def last_records(events: Events, count: int) -> Events:
    """The events of so many last records; a record has two where it had a check taken first."""
    late = events[-2 * count :]
    records = set(list(dict.fromkeys(it.record for it in reversed(late)))[:count])
    return [it for it in late if it.record in records]


def view_of(story: Story, wish: Wish) -> View:
    """What is shown of a story.

    With `last` the last records, up to the recovery where one is asked for. Else all records where
    they are not more than MOST; and else what the recovery speaks of, of the processes concerned.
    """
    if beyond := [p for p in wish.processes if p >= story.processes]:
        has = words.counted(story.processes, "process", "processes")
        raise Fault(FAULT, f"there is no process {beyond[0]}: the {story.called} has {has}")
    recovery = recovery_of(story, wish.recovery)
    last = recovery.place if recovery and wish.recovery else len(story.events)
    chosen = tuple(sorted(set(wish.processes))) or tuple(range(story.processes))
    every = among(story, chosen, last)
    if not recovery or wish.last or len({it.record for it in every}) <= MOST:
        return finished(story, chosen, every, last_records(every, wish.last or MOST), None)
    places, concerned = told_of(recovery, set(chosen), MOST)
    if not wish.processes:
        chosen = tuple(sorted(concerned)) or chosen
        every = among(story, chosen, last)
    return finished(story, chosen, every, [it for it in every if it.place in places], recovery)


def finished(
    story: Story, chosen: tuple[int, ...], every: Events, shown: Events, focus: Recovery | None
) -> View:
    """A view with its gaps and notes. `every` is what could be shown of these processes."""
    places = {it.place for it in shown}
    before = [None, *every]
    gaps = {
        it.place
        for last, it in zip(before, every)
        if it.place in places and last and last.place not in places
    }
    notes = [
        *notes_on_records(story, every, shown, focus),
        *notes_on_replays(shown),
        *notes_on_processes(story, chosen),
        *notes_on_order(shown),
        *notes_on_idle(story),
    ]
    is_from_start = every[:1] == shown[:1]
    return View(story, chosen, tuple(shown), frozenset(gaps), is_from_start, tuple(notes))


def is_shown(message: Message, recovery: Recovery, places: set[int]) -> bool:
    """Whether a replay is to be seen: by its send, or by its receipt after the recovery."""
    again = (it.place for it in message.receipts if it.source is recovery)
    return message.place in places or not places.isdisjoint(again)


def notes_on_records(
    story: Story, every: Events, shown: Events, focus: Recovery | None
) -> list[str]:
    """What is said of the records that are left out, and of the entries that are about them."""
    if len(shown) == len(every):
        return []
    places = {it.place for it in shown}
    count = len({it.record for it in story.events}) - len({it.record for it in shown})
    them = f"{words.counted(count, 'other record')} {'is' if count == 1 else 'are'} left out."
    notes = [
        f"Shown is what recovery {focus.number} speaks of: {them}" if focus else words.capital(them)
    ]
    for recovery in [it for it in shown if isinstance(it, Recovery)]:
        numbers = [it.number for it in recovery.passes if it.receipt.place not in places]
        if numbers:
            what = ("entry " if len(numbers) == 1 else "entries ") + words.listed(
                words.ranges(numbers)
            )
            where = f"of recovery {recovery.number}: ./explain tells of all"
            notes.append(f"So {words.are(len(numbers))} {what} {where}.")
    return notes


def notes_on_replays(shown: Events) -> Iterator[str]:
    """What is said of the messages that are sent again and not shown."""
    places = {it.place for it in shown}
    for recovery in [it for it in shown if isinstance(it, Recovery)]:
        again = [it for it in recovery.replays if not is_shown(it, recovery, places)]
        if again:
            many = words.capital(words.counted(len(again), "message"))
            which = f"that recovery {recovery.number} sends again"
            yield f"{many} {which} {words.are(len(again))} left out: ./explain tells of all."


def notes_on_processes(story: Story, chosen: tuple[int, ...]) -> list[str]:
    """What is said of the processes that are left out."""
    hidden = [p for p in range(story.processes) if p not in chosen]
    are = "is" if len(hidden) == 1 else "are"
    return [f"{words.capital(words.processes(hidden))} {are} left out."] if hidden else []


def notes_on_order(shown: Events) -> list[str]:
    """What is said where reports do not stand as they came."""
    records = [it.record for it in shown]
    moved = "Where it can, a send stands before its receipts, and not in the order of the input."
    return [] if records == sorted(records) else [moved]


def notes_on_idle(story: Story) -> list[str]:
    """What is said of records without an effect."""
    what = {
        "refused": ("refused command", "refused commands"),
        "stale": ("delivery of a stale copy", "deliveries of stale copies"),
        "repeated": ("delivery of a repeated copy", "deliveries of repeated copies"),
        "late": ("stale report", "stale reports"),
        "unfit": ("refused record", "refused records"),
        "faulty": ("faulty record", "faulty records"),
    }
    found = [words.counted(count, *what[kind]) for kind, count in story.idle.items()]
    return [f"Without effect, and not shown: {words.listed(found)}."] if found else []
