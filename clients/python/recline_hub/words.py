"""What a hub answers, in words."""

from __future__ import annotations

from collections.abc import Iterator, Sequence
from typing import Any

STATES = {
    "reports": "reports", "away": "is away: its connection has ended",
    "lost": "has failed, and waits for a recovery", "awaited": "has failed, and is to be started",
    "ended": "has ended well", "not begun": "has not begun",
}


def words_of(asked: str, said: dict[str, Any]) -> str:
    """An answer in words, a line for each process."""
    if asked == "status":
        return "\n".join(_status(said))
    return "\n".join(_floors(said) if asked == "forget" else _plan(asked, said))


def _count(many: int, what: str) -> str:
    """So many of something."""
    return f"{many:,} {what}{'' if many == 1 else 's'}"


def _status(said: dict[str, Any]) -> Iterator[str]:
    """What there is."""
    for it in said["processes"]:
        kept = _count(it["kept"], "note")
        went = f", gone back {_count(it['incarnation'], 'time')}" if it["incarnation"] else ""
        yield f"process {it['process']} {STATES[it['state']]}; {kept} kept{went}"
    service, behind = said["service"], said["bytes"] - said["service"]["answered"]
    yield f"{_count(said['recoveries'], 'recovery').replace('recoverys', 'recoveries')} so far"
    yield f"the journal is {said['journal']}, {_count(said['bytes'], 'byte')}"
    if service["pid"] is None:
        yield "the service does not run"
    else:
        starts, late = _count(service["starts"], "time"), _count(behind, "byte")
        yield f"the service is process {service['pid']}, started {starts}, and {late} behind"


def _floors(said: dict[str, Any]) -> Iterator[str]:
    """What is let go of each process."""
    for p, floor in enumerate(said["floors"]):
        first = f"its check {floor['check']}" if floor["check"] else "its initial state"
        yield f"process {p} begins with {first}; {_count(floor['sends'], 'message')} let go"


def _plan(asked: str, said: dict[str, Any]) -> Iterator[str]:
    """Where each process goes on, or would."""
    would = "goes" if asked == "recover" else "would go"
    for p, (choice, state) in enumerate(zip(said["line"], said["states"])):
        if choice is None:
            yield f"process {p} {'stays' if asked == 'recover' else 'would stay'} as it is"
        elif choice == 0:
            yield f"process {p} {would} back to its initial state"
        else:
            yield f"process {p} {would} back to its check {choice}, {_shown(state)}"
    if asked == "live":
        yield "what lies before these checks is not needed any more"
        return
    yield f"{_count(len(said['replays']), 'message')} in transit, to be sent again"
    for entry in said["certificate"]:
        at = "where it is" if entry["choice"] is None else f"its check {entry['choice']}"
        yield (f"process {entry['process']} cannot keep {at}: it received message "
               f"{_name(entry['orphan'])}, which would not be sent")


def _shown(state: str) -> str:
    """A state, as a text where it is one."""
    text = bytes.fromhex(state).decode("utf-8", "replace")
    return repr(text) if text.isprintable() and len(text) < 80 else f"{len(state) // 2} bytes"


def _name(name: Sequence[int]) -> str:
    """A message's name."""
    return f"{name[2]} of process {name[0]}" + (f" ({name[1]})" if name[1] else "")
