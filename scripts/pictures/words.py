"""The words that pictures and sentences share."""

from collections.abc import Sequence
from dataclasses import dataclass, field

from slow_model.histories import Name
from slow_model.texts import NOW

from .texts import Choice


@dataclass
class Names:
    """How a computation calls its processes and messages, where that is told."""

    processes: dict[int, str] = field(default_factory=dict)
    messages: dict[Name, str] = field(default_factory=dict)


# The names that all words are said by, which are told once.
NAMES = Names()


def process(number: int) -> str:
    """A process, by its name or its number."""
    return NAMES.processes.get(number, f"process {number}")


def first_process(number: int) -> str:
    """A process where a sentence begins. A name stays as it is."""
    return NAMES.processes.get(number, f"Process {number}")


def choice_of(choice: Choice) -> str:
    """A choice of a process that was named before."""
    if choice == NOW:
        return "where it stands"
    return "its initial state" if choice == 0 else f"its checkpoint {choice:.0f}"


def choice_at(number: int, choice: Choice) -> str:
    """A choice, with its process."""
    if choice == NOW:
        return f"where {process(number)} stands"
    of_it = f"of {process(number)}"
    return f"checkpoint {choice:.0f} {of_it}" if choice else f"the initial state {of_it}"


def place_of(index: int) -> str:
    """A check of a process that need not be named."""
    return f"checkpoint {index}" if index else "its initial state"


def at_choice(choice: Choice) -> str:
    """Where a process that was named before is, with a choice."""
    return choice_of(choice) if choice == NOW else f"at {choice_of(choice)}"


def message(name: Name) -> str:
    """A message by its name. The first incarnation of its sender, 0, is not told."""
    under = f" (sent under incarnation {name.incarnation})" if name.incarnation else ""
    called = NAMES.messages.get(name, str(name.number))
    return f"message {called} of {process(name.sender)}{under}"


def counted(count: int, one: str, many: str = "") -> str:
    """A number of things, or none; a word alone takes an s."""
    return f"{count:,} {one if count == 1 else many or one + 's'}" if count else f"no {one}"


def are(count: int) -> str:
    """The verb for so many things; of none as of one."""
    return "are" if count > 1 else "is"


def checks(numbers: Sequence[int]) -> str:
    """Some checkpoints, at least one."""
    return f"{'checkpoint' if len(numbers) == 1 else 'checkpoints'} {listed(ranges(numbers))}"


def listed(parts: Sequence[str]) -> str:
    """Parts of a sentence: one, two and three."""
    return " and ".join([", ".join(parts[:-1]), parts[-1]] if len(parts) > 1 else parts)


def ranges(numbers: Sequence[int]) -> list[str]:
    """Rising numbers, with three or more in a row written from the first to the last."""
    found: list[list[int]] = []
    for number in numbers:
        if found and number == found[-1][-1] + 1:
            found[-1].append(number)
        else:
            found.append([number])
    spans = []
    for run in found:
        spans += [f"{run[0]} to {run[-1]}"] if len(run) > 2 else [str(number) for number in run]
    return spans


def processes(numbers: Sequence[int]) -> str:
    """Some processes, at least one."""
    if not NAMES.processes.keys().isdisjoint(numbers):
        return listed([process(number) for number in numbers])
    return ("process " if len(numbers) == 1 else "processes ") + listed(ranges(numbers))


def capital(sentence: str) -> str:
    """A sentence with its first letter large. A name that it begins with stays as it is."""
    begins = tuple(f"{name} " for name in NAMES.processes.values())
    if sentence.startswith(begins) and not sentence.startswith("a process that"):
        return sentence
    return sentence[:1].upper() + sentence[1:]
