"""A recovery in sentences: what happened, what was passed over and why, and what is sent again."""

from collections.abc import Iterator

from slow_model.histories import Name
from slow_model.texts import NOW

from . import words
from .stories import Check, Message, Pass, Recovery, Restart, Story
from .texts import Choice
from .views import View

MOST_TOLD = 12  # so many entries are told in a picture's description


def causes(recovery: Recovery) -> str:
    """Who failed, and who was barred if anybody was."""
    failed = f"{words.processes(recovery.failed)} failed" if recovery.failed else "nobody failed"
    barred = tuple(recovery.bars)
    if not barred:
        return failed
    return f"{failed}, and {words.processes(barred)} {'was' if len(barred) == 1 else 'were'} barred"


# What pictures say.


def title(view: View) -> str:
    """What a picture shows."""
    links = {True: "ordered links", False: "unordered links", None: "as they reported"}
    count = words.counted(view.story.processes, "process", "processes")
    numbers = [str(recovery.number) for recovery in view.recoveries]
    title = f"{count}, {links[view.story.is_fifo]}"
    if not numbers:
        return title
    return f"{title}; {'recovery' if len(numbers) == 1 else 'recoveries'} {words.listed(numbers)}"


def summary(recovery: Recovery) -> str:
    """A recovery in short."""
    back = [it.process for it in recovery.line if it.choice != NOW]
    goes = "goes" if len(back) == 1 else "go"
    where = f"{words.processes(back)} {goes} back" if back else "no process goes back"
    lost = words.counted(sum(len(it.lost) for it in recovery.line), "event")
    passes, replays = len(recovery.passes), len(recovery.replays)
    passed = f"{words.counted(passes, 'later choice')} {words.are(passes)} passed over"
    if passes:
        passed += f" for {'an orphan message' if passes == 1 else 'orphan messages'}"
    again = f"{words.counted(replays, 'message')} {words.are(replays)} sent again"
    happened = f"Recovery {recovery.number}: {causes(recovery)}; {where}, with {lost} undone."
    return f"{happened} {words.capital(passed)}, and {again}."


def description(view: View) -> str:
    """The picture in words, for those who do not see it."""
    told = []
    for recovery in view.recoveries:
        told += [summary(recovery), *(reason(entry) for entry in recovery.passes[:MOST_TOLD])]
        more = len(recovery.passes) - MOST_TOLD
        if more > 0:
            told.append(f"And {words.counted(more, 'more entry', 'more entries')}.")
        told.append(f"The recovery line: {words.listed([stands(it) for it in recovery.line])}.")
    return " ".join([*told, *view.notes]) or "No recovery."


def stands(restart: Restart) -> str:
    """Where the line is at a process."""
    return f"{words.process(restart.process)} {words.at_choice(restart.choice)}"


# Why a choice cannot be kept.


def cannot(process: int, choice: Choice) -> str:
    """That a choice of a process cannot be kept."""
    if choice == NOW:
        return f"{words.process(process)} cannot stay where it stands"
    return f"{words.process(process)} cannot go on from {words.choice_of(choice)}"


def not_sent(sender: int, ceiling: Choice) -> str:
    """That the sender of an orphan has not sent it by its ceiling."""
    if ceiling == NOW:
        return f"{words.process(sender)}, even where it stands, has not sent it"
    return f"{words.process(sender)}, back at {words.choice_of(ceiling)} by then, has not sent it"


def orphan(process: int, choice: Choice, name: Name, ceiling: Choice) -> str:
    """Why a choice of a process cannot be kept: a message, received before it and not sent."""
    before = "" if choice == NOW else " before that"
    received = f"it has received {words.message(name)}{before}"
    cannot_keep = words.capital(cannot(process, choice))
    return f"{cannot_keep}: {received}, and {not_sent(name.sender, ceiling)}."


def reason(entry: Pass) -> str:
    """Why a choice was passed over."""
    return orphan(entry.process, entry.choice, entry.message.name, entry.ceiling)


# The explanation of a recovery.


def explanation(story: Story, recovery: Recovery) -> Iterator[str]:
    """A recovery in paragraphs and the entries of a list."""
    yield headline(story, recovery)
    yield from beginning(story, recovery)
    if recovery.passes:
        yield (
            "From there on, more places had to be given up, one after another. These are the "
            "entries of the certificate, in its order:"
        )
        yield from entries(recovery)
        yield (
            "That is all: each message that is received before the places that are left is sent "
            "before them. No process could go on from a later place: each one that can be used is "
            "in this list, with the orphan message that speaks against it."
        )
    else:
        yield (
            "That can be kept as it is: each message that is received before these places is sent "
            "before them. No process could go on from a later place."
        )
    yield "The recovery line:"
    yield from (f"  {goes_on(it)}" for it in recovery.line)
    yield from again(recovery)
    if recovery.bars and not recovery.is_plan:
        barred = words.capital(words.processes(tuple(recovery.bars)))
        yield f"{barred} {words.are(len(recovery.bars))} barred no longer."


def headline(story: Story, recovery: Recovery) -> str:
    """Which recovery it is, or plan."""
    where = f"at record {recovery.record} of the {story.called}"
    if recovery.is_plan:
        return f"The plan {where}, which changes nothing: as if {causes(recovery)}."
    count = len(story.recoveries)
    which = f"Recovery {recovery.number}" + (f" of {count}" if count > 1 else "")
    return f"{which}, {where}: {causes(recovery)}."


def beginning(story: Story, recovery: Recovery) -> Iterator[str]:
    """The latest choice that each process had left to begin with."""
    back = sorted({*recovery.failed, *recovery.bars})
    if not back:
        yield "To begin with, each process could stay where it stands."
        return
    parts = []
    for number, process in enumerate(back):
        first = recovery.first_ceilings[process]
        goes = "" if number else " goes back"
        marks = skipped(recovery, process, first)
        parts.append(f"{words.process(process)}{goes} to {words.choice_of(first)}{marks}")
    yield f"{cannot_stay(recovery)}: to begin with, {words.listed(parts)}."
    if len(back) < story.processes:
        yield "Each other process could stay where it stands."


def cannot_stay(recovery: Recovery) -> str:
    """What is lost to processes that failed, and to those that were barred."""
    parts = []
    if recovery.failed:
        parts.append(
            "a process that failed cannot stay where it stands"
            if len(recovery.failed) == 1
            else "processes that failed cannot stay where they stand"
        )
    if recovery.bars:
        parts.append(
            "a process that is barred cannot go on from anything later than its bar"
            if len(recovery.bars) == 1
            else "processes that are barred cannot go on from anything later than their bars"
        )
    return words.capital(", and ".join(parts))


def skipped(recovery: Recovery, process: int, first: Choice) -> str:
    """The process's bar, and the damaged checks above the latest one that can be used."""
    bar = recovery.bars.get(process)
    top = bar.check.index if bar else NOW
    damaged = [
        it.index
        for it in recovery.line[process].lost
        if isinstance(it, Check) and first < it.index <= top and it.damage
    ]
    told = []
    if bar:
        told.append(f"it is barred {'there' if top == first else f'at its {words.checks([top])}'}")
    if damaged:
        its = "that" if damaged == [top] else f"its {words.checks(damaged)}"
        told.append(f"{its} {words.are(len(damaged))} damaged")
    return f" ({', and '.join(told)})" if told else ""


def entries(recovery: Recovery) -> Iterator[str]:
    """The entries as a list: each with where its process falls to."""
    after = [it.choice for it in recovery.line]
    falls: list[Choice] = []
    for entry in reversed(recovery.passes):
        falls.append(after[entry.process])
        after[entry.process] = entry.choice
    wide = len(str(len(recovery.passes)))
    for entry, fall in zip(recovery.passes, reversed(falls)):
        yield f"{entry.number:>{wide + 2}}. {reason(entry)} So it falls to {words.choice_of(fall)}."


def goes_on(restart: Restart) -> str:
    """Where a process goes on from."""
    if restart.choice == NOW:
        return f"{words.first_process(restart.process)} stays where it stands."
    state = f", with the state {restart.state} that it stored there" if restart.state else ""
    lost = len(restart.lost)
    back = f"{words.first_process(restart.process)} goes back to "
    back += f"{words.choice_of(restart.choice)}{state}"
    undone = f"{words.counted(lost, 'event')} {words.are(lost)} undone"
    return f"{back}; {undone}. It goes on under incarnation {restart.incarnation}."


# What is sent again.


def again(recovery: Recovery) -> Iterator[str]:
    """The messages that have to be delivered again, and why."""
    if not recovery.replays:
        yield "No message is sent again: each that is sent before that line is received before it."
        return
    count = len(recovery.replays)
    many = words.counted(count, "message")
    yield (
        f"{many} {words.are(count)} sent again, in transit at that line: sent before it, and not "
        "received before it."
    )
    yield from (f"  {words.capital(in_transit(recovery, message))}" for message in recovery.replays)


def in_transit(recovery: Recovery, message: Message) -> str:
    """Why a message is sent again."""
    start, end = recovery.line[message.process], recovery.line[message.to]
    told = words.message(message.name)
    if start.choice != NOW:
        told += f" was sent before {words.choice_at(start.process, start.choice)}"
    else:
        told += f" was sent, and {words.process(start.process)} stays where it stands"
    receipts = [it for it in message.receipts if it.process == message.to]
    undone = next((it for it in receipts if it.cut_by is recovery), None)
    if undone is None:
        return f"{told}; it has not arrived at {words.process(message.to)}."
    place = words.choice_at(end.process, end.choice)
    return f"{told}; it had not arrived before {place}, and its receipt after that is undone."
