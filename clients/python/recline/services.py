"""A service, and the machine in it: what a program tells it, and asks."""

from __future__ import annotations

from typing import TypeVar

from .calls import Ahead, obsolete
from .histories import Claim, History
from .journals import next_journal
from .records import Answer, Failed
from .rolling import put_world, renamed
from .talks import Talk
from .values import (
    Begun, Delivered, Floor, MessageName, Plan, Replay, RolledOver, Round, Turned,
)

T = TypeVar("T")


class Together(Ahead):
    """Records that are sent ahead: each call of `Service`, with an `Answer` at once.

    Its `value` is there after the block, and raises what the call would have raised. `not_done` has
    the answers of all records that were refused or faulty.
    """

    def __init__(self, service: Service) -> None:
        super().__init__(service._put)
        self._service = service

    def __enter__(self) -> Together:
        return self

    def __exit__(self, *_raised: object) -> None:
        self.end()
        self._service._flush()


class Service(Talk):
    """A service that runs, and the machine in it. A context manager, which ends as `close` does.

    `processes`: from 1 to 256. `links`: "fifo", where each link delivers in the order of sending,
    or "unordered", where it holds copies, delivers any of them, and keeps it. The command is
    started at once, without a shell. Any thread may call; one call is under way at a time.

    **No call waits for ever.** A service that says nothing for `timeout` seconds while it has
    something to answer, 30 where none is given, is ended, and the call raises `ServiceEnded` with
    what it said on standard error. `start_timeout` is the same until the machine has begun and the
    journal is read. None waits as long as it takes. What was never a service is found out so.

    `journal`: a path. Where there is one, its steps are fed again. `replayed` says how many records
    that were, the `world` record among them; `last_replayed` has the last one and its answer; and
    `torn` says how many bytes were cut off: of a last line without its end, or of a record that was
    being taken off. A record that was kept and not answered, since the client or the service was
    killed, is done by this, once: so look at `replayed` or `last_replayed` before the last call is
    made again. `counted` is `replayed` and what was answered since, counted alike, so that
    `replayed` of the next service less `counted` of this one is how many records were done without
    an answer. Questions (`rounds`, `history`, `bundle`, `plan`, `live`, `answer`, `save`) are not
    fed again and not counted; with `keep_questions=False` they do not stand in the journal either,
    where each has `recline run` answer it once more. `durable=True` has each record synced to the
    device before it is sent, and `durable=Sync(records=100, seconds=0.05)` as often as that says.
    Without it killed programs lose nothing, but a machine that loses its power may lose what was
    kept in the last half minute or so, answered or not. A durable journal has checksums in a file
    beside it, whose name ends with `.sums`: a record that was changed is found when the journal is
    opened.

    `forget_every`: a number of records. After so many the service is told to `forget`, and then, as
    after each `forget` that is called, the journal begins anew with what is kept, so that it does
    not grow. While a round is open that is tried again later. `replayed`, `counted` and
    `last_replayed` go on as if it had not. With "fifo" links alone. `RuntimeError` where the
    program is older than `save`.

    Raises `JournalError`; `OSError` where the command does not start or the journal cannot be read
    or written; `Fault` with code 0 where memory does not suffice for the journal's steps; and
    `ServiceEnded`. Each call below may raise `Fault` with code 0, `ServiceEnded`, and `OSError`
    where the journal cannot grow. After an exception other than `Refused`, `Fault`,
    `ReplaysMissing`, `ValueError` and `TypeError` the service is ended; with a journal, make
    another `Service`.
    """

    def __enter__(self) -> Service:
        return self

    def __exit__(self, kind: type[BaseException] | None, *_raised: object) -> None:
        if kind is None:
            self.close()
        else:
            self._end(at_once=True)

    # The steps.

    def send(self, sender: int, to: int, body: bytes = b"") -> MessageName:
        """A message leaves a process: 64 bytes at most. Answers its name.

        Refused: 1 NoSuchProcess, 2 BodyTooLong, 17 ToSelf, 3 TapeFull (1,000,000 events).
        """
        return self._told(self._calls.send(sender, to, body))

    def deliver(self, sender: int, to: int, pick: int = 0, state: bytes = b"") -> Delivered:
        """A process takes what stands at a place of its link from a sender, from 0 the oldest on.

        With "fifo" the place is 0. The state, at most 4,096 bytes, is stored where the process has
        to take a check of a round before: so in a round hand its present one along.
        Refused: 1 NoSuchProcess, 17 ToSelf, 5 StateTooLong, 18 LinkEmpty, 19 BadPick, 3 TapeFull.
        """
        return self._told(self._calls.deliver(sender, to, pick, state))

    def check(self, process: int, state: bytes = b"") -> int:
        """A process takes a check that stores a state, at most 4,096 bytes. Answers its number.

        Refused: 1 NoSuchProcess, 5 StateTooLong, 3 TapeFull.
        """
        return self._told(self._calls.check(process, state))

    def begin(self, process: int, state: bytes = b"") -> Begun:
        """A process begins the next round of snapshots, by a check that stores this state.

        Refused: 1 NoSuchProcess, 5 StateTooLong, 20 RoundOpen, 23 NoMoreRounds (after 65,535),
        3 TapeFull.
        """
        return self._told(self._calls.begin(process, state))

    def turn(self, process: int, state: bytes = b"") -> Turned:
        """A process takes its check of the open round, with "unordered" links alone.

        Refused: 1 NoSuchProcess, 22 WrongMode, 5 StateTooLong, 21 NothingToTurn, 3 TapeFull.
        """
        return self._told(self._calls.turn(process, state))

    def damage(self, process: int, check: int) -> None:
        """A check is damaged: no line goes back to it from now on.

        Refused: 1 NoSuchProcess, 7 InitialDamage, 4 NoSuchCheck, 8 AlreadyDamaged.
        """
        return self._told(self._calls.damage(process, check))

    def bar(self, process: int, check: int) -> None:
        """A process may go on from this check at the latest, until the next recovery.

        Check 0 is the initial state. Refused: 1 NoSuchProcess, 4 NoSuchCheck, 40 BarNotLower.
        """
        return self._told(self._calls.bar(process, check))

    def recover(self, failed: Failed = ()) -> Plan:
        """These processes, or this one, have failed, and the machine goes on from the line.

        The bodies of the replays are looked up in the history, so that a recovery with replays
        takes the time of `history` too. `ReplaysMissing` where memory is out for that: it is done.
        Refused: 1 NoSuchProcess, 24 NoMoreIncarnations (a process goes back 65,535 times at most).
        """
        return self._told_plan(self._calls.recover(failed))

    def forget(self, round: int | None = None) -> tuple[Floor, ...]:
        """Lets go what is before a listed round, or where none is given before the line of `live`.

        Answers what each process has let go in all, with "fifo" links alone. No recovery goes back
        further then: a check up to the floor cannot be damaged (7), and no process can be barred
        before its floor (4). All names and numbers stay as they are.
        Refused: 22 WrongMode, 20 RoundOpen, 48 NoSuchRound (no round of that number is listed),
        49 RoundLost (a check of it is damaged, or barred), 50 NoMoreNumbers.
        """
        return self._told(self._calls.forget(round))

    # The questions. They change nothing.

    def plan(self, failed: Failed = ()) -> Plan:
        """What `recover` would answer; nothing changes.

        Refused: 1 NoSuchProcess, 24 NoMoreIncarnations.
        """
        return self._told_plan(self._calls.plan(failed))

    def live(self) -> Plan:
        """The plan where every process fails; nothing changes.

        No later line is before this one, as long as its checks are not damaged and nobody is barred
        before it. Refused: 24 NoMoreIncarnations.
        """
        return self._told_plan(self._calls.live())

    def obsolete(self) -> tuple[range, ...]:
        """For each process the checks that may be deleted: those before the line of `live`.

        No recovery goes back to them, unless a check of that line is damaged, or a process barred
        before it.
        """
        with self._turn:
            return obsolete(self._done(self._calls.live()))

    def rounds(self) -> tuple[Round, ...]:
        """The completed rounds of which no check was cut since, by number."""
        return self._told(self._calls.rounds())

    def history(self) -> History:
        """The history text of the machine, which has its tapes as values too."""
        return self._told(self._calls.history())

    def save(self) -> str:
        """The text of what is kept, with which another service may begin in place of its world.

        With "fifo" links alone. Refused: 22 WrongMode, 20 RoundOpen.
        """
        return self._told(self._calls.save())

    def bundle(self, failed: Failed = ()) -> Claim:
        """The check text, for `recline check`, of the plan for these failed processes.

        It has its parts as values too. Nothing is restarted. Refused: 1 NoSuchProcess.
        """
        return self._told(self._calls.bundle(failed))

    def answer(self, failed: Failed = ()) -> Claim:
        """The check text of all that `recover` would answer for these failed.

        That is the bundle, and where each process would start and what would be sent again.
        Nothing is restarted. Refused: 1 NoSuchProcess, 24 NoMoreIncarnations.
        """
        return self._told(self._calls.answer(failed))

    def together(self) -> Together:
        """Sends records ahead: `with service.together() as ahead: sent = ahead.send(0, 1)`.

        After the block each is answered: `sent.value`. What is sent ahead takes little memory, but
        for the answers that the caller keeps.
        """
        return Together(self)

    def roll_over(self) -> RolledOver:
        """Goes on in a new world, with a new service, and a new journal in the place of the old.

        For computations that are longer than a tape has room for: call it now and then where a
        round is completed, since it is a recovery in which every process fails. All go back to
        `plan`, which the old world answers; in the new one each has taken that state as its check
        1, and the replays are sent again, under the names that they have there. Killed at any
        moment, the journal is the old one with the recovery at its end, or the new one.

        RuntimeError where no round is completed: then nothing has changed.
        """
        with self._turn:
            if not self._done(self._calls.rounds()):
                raise RuntimeError("no round is completed: the line may be at the beginning")
            plan = self._with_bodies(self._asked(self._calls.recover(range(self.processes))))
            fresh = self._next_world()
            try:
                replays = begin_world(fresh.together(), plan)
                journal = self._session.journal
                if journal and fresh._session.journal:
                    fresh._session.journal.move(journal.path)
            except BaseException:
                fresh._end(at_once=True)
                raise
            self._change_places(fresh)
        fresh.close()
        return RolledOver(plan, replays)

    def _asked(self, answer: Answer[T]) -> Answer[T]:
        """A record that is done."""
        self._done(answer)
        return answer

    def _next_world(self) -> Service:
        """A service of the same kind, with a journal beside the old one."""
        path = None
        if self._session.journal:
            path = next_journal(self._session.journal.path)
        return Service(
            self._command, processes=self.processes, links=self.links, journal=path,
            durable=self._durable, keep_questions=self._keeps, timeout=self.timeout,
            start_timeout=self.start_timeout, forget_every=self._forget_every,
        )

    def _change_places(self, other: Service) -> None:
        """Each is the other from now on, but for who waits to call it."""
        own, others = {"_turn": self._turn}, {"_turn": other._turn}
        self.__dict__, other.__dict__ = {**other.__dict__, **own}, {**self.__dict__, **others}


def begin_world(ahead: Together, plan: Plan) -> tuple[Replay, ...]:
    """Tells a new world how it begins, and answers the replays as it names them."""
    with ahead:
        sent = put_world(ahead, plan)
    for refused in ahead.not_done:
        refused.value
    return renamed(plan, sent)
