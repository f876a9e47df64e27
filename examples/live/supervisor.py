"""Workers in processes of their own, whose calls the service is told before they are answered.

The supervisor holds what is on the links between them. Where a worker's process is killed, it asks
the service for the recovery line, starts anew who goes back, and puts the replays on the links.
Nothing here is about heat: a worker is any program that speaks as worker.py says.
"""

import os
import selectors
import subprocess
import time
from collections import Counter, deque
from collections.abc import Callable, Iterable, Sequence

from files import Files
from kills import Kills, Moment
from recline import Marked, Plan, Replay, Round, Service, Took
from watches import Marker, Message, Recovery, Watch
from workers import Worker

PIECE = 1 << 16  # bytes that are read at once
SECONDS_TO_END = 5.0  # for a process whose output is closed
SWEEP = 40  # so many checkpoints are taken between two looks at what may be deleted
IN_RECOVERY = "while the recovery was under way"


class Failure(Exception):
    """The supervisor cannot go on, and why."""


class Supervisor:
    """All workers, the links between them, and the service that is told what they do."""

    def __init__(
        self,
        service: Service,
        command: Callable[[int], Sequence[str]],
        turn_of: Callable[[bytes], int],
        watch: Watch,
        kills: Kills,
        is_by_rounds: bool,
        most_events: int,
    ) -> None:
        self.service, self.command, self.turn_of = service, command, turn_of
        self.watch, self.kills, self.is_by_rounds = watch, kills, is_by_rounds
        self.most_events = most_events
        self.numbers = range(service.processes)
        self.workers = [Worker(p, b"", turn_of(b"")) for p in self.numbers]
        self.links: dict[tuple[int, int], deque[Message | Marker]] = {
            (p, q): deque() for p in self.numbers for q in self.numbers if p != q
        }
        self.failed: set[int] = set()
        self.meanwhile: set[int] = set()  # whom to kill while a recovery is under way
        self.later: list[tuple[float, int]] = []  # when to kill whom
        self.markers_left = 0  # of the round that is open
        self.last_round: int | None = None  # the last completed one
        self.events = Counter[int]()  # of each worker in this world, more than its tape has
        self.ears = selectors.DefaultSelector()
        self.swept = 0  # how many checkpoints there were at the last look
        self.files: Files | None = None  # where checkpoints are, where they are in files

    def run(self) -> list[bytes]:
        """Runs all workers to their ends; answers what each has stored last.

        Where the service has replayed a journal, that run was broken off: it goes on from its line.
        """
        try:
            if self.service.replayed > 1:
                listed = self.service.rounds()
                self.last_round = listed[-1].number if listed else None
                self.failed.update(self.numbers)
                self.events.update({p: self.service.replayed for p in self.numbers})
            self.mend()
            while not all(worker.has_ended for worker in self.workers):
                self.listen()
                if self.failed:
                    self.mend()
                if self.files and self.files.written >= self.swept + SWEEP:
                    self.sweep()
                if self.last_round and max(self.events.values()) >= self.most_events:
                    self.begin_next_world()
            self.sweep()
            return [worker.stored for worker in self.workers]
        finally:
            for worker in self.workers:
                self.stop(worker)

    # Processes: how they are started, end and are killed.

    def start(self, worker: Worker) -> None:
        """Starts a process for a worker."""
        ear = worker.start(self.command(worker.number))
        self.ears.register(ear, selectors.EVENT_READ, worker)
        assert worker.process
        self.watch.started(worker.number, worker.process.pid, worker.turn)

    def stop(self, worker: Worker) -> int:
        """Sees to it that a worker has no process; answers the status of the one it had."""
        if not worker.process:
            return 0
        self.ears.unregister(worker.ear())
        status = worker.stop()
        if worker.is_struck and status < 0:
            self.watch.died(worker.number, worker.turn, Moment.LATER.value)
        return status

    def fail(self, numbers: Iterable[int], how: str) -> None:
        """Kills workers, whatever they do: none of what they may still have said counts."""
        for worker in (self.workers[number] for number in numbers):
            if worker.process:
                is_told = worker.is_struck
                self.stop(worker)
                if not is_told:
                    self.watch.died(worker.number, worker.turn, how)
                self.failed.add(worker.number)
            elif worker.has_ended:
                self.watch.missed(worker.number)

    def strike(self, worker: Worker, moment: Moment) -> None:
        """Makes the kill that is planned for this moment of a worker's call, if one is."""
        kill = self.kills.due(worker.number, worker.turn, worker.calls, moment)
        if not kill:
            return
        self.meanwhile.update(kill.then)
        if moment is Moment.LATER:
            self.later += [(time.monotonic() + kill.delay, number) for number in kill.workers]
        else:
            self.fail(kill.workers, moment.value)

    def strike_later(self) -> None:
        """Sends the signals whose time has come. Who is dead by that, `hear` finds out."""
        for at, number in [it for it in self.later if it[0] <= time.monotonic()]:
            self.later.remove((at, number))
            worker = self.workers[number]
            if worker.is_alive():
                worker.strike()
            elif worker.has_ended:
                self.watch.missed(number)

    # What workers say, and what they are told.

    def listen(self) -> None:
        """Waits until workers say something, and hears them."""
        wait = min((at - time.monotonic() for at, _ in self.later), default=1.0)
        for key, _ in self.ears.select(max(wait, 0.0)):
            worker: Worker = key.data
            if worker.process:
                self.hear(worker)
        self.strike_later()
        self.watch.is_at(min(worker.turn for worker in self.workers))

    def hear(self, worker: Worker) -> None:
        """Takes what a worker has said. A line that its death has cut off does not count."""
        said = os.read(worker.ear().fileno(), PIECE)
        if not said:
            self.end(worker)
            return
        *lines, worker.said = (worker.said + said).split(b"\n")
        for line in lines:
            if worker.process:
                self.take_line(worker, line.decode("ascii", "replace"))

    def end(self, worker: Worker) -> None:
        """A worker says no more: it has ended by itself, or it was killed."""
        assert worker.process
        try:
            worker.process.wait(SECONDS_TO_END)
        except subprocess.TimeoutExpired:
            raise Failure(f"worker {worker.number} has closed its output and goes on") from None
        status = self.stop(worker)
        if status > 0:
            raise Failure(f"worker {worker.number} has ended with status {status}")
        if status < 0:
            if not worker.is_struck:
                self.watch.died(worker.number, worker.turn, f"by signal {-status} from outside")
            self.failed.add(worker.number)
        else:
            worker.has_ended, worker.stands = True, worker.stored
            self.settle([worker.number])

    def answer(self, worker: Worker, line: str) -> None:
        """Answers a call that the service was told of, unless the worker is killed before that."""
        self.strike(worker, Moment.TOLD)
        if worker.process:
            worker.tell(line)
            self.strike(worker, Moment.LATER)
            worker.calls += 1

    # Calls.

    def take_line(self, worker: Worker, line: str) -> None:
        """Does what a line of a worker says."""
        name, *words = line.split(" ")
        try:
            if name == "turn":
                worker.turn, worker.calls = int(words[0]), 0
                return
            state_or_body = bytes.fromhex(words[-1])
            other = int(words[0]) if name != "checkpoint" else worker.number
            if name not in ("send", "receive", "checkpoint") or other not in self.numbers:
                raise ValueError
            if other == worker.number and name != "checkpoint":
                raise ValueError
        except (ValueError, IndexError):
            said = f"worker {worker.number} has said what is no call: {line[:60]}"
            raise Failure(said) from None
        self.strike(worker, Moment.UNTOLD)
        if not worker.process:
            return
        if name == "send":
            self.send(worker, other, state_or_body)
        elif name == "receive":
            self.receive(worker, other, state_or_body)
        else:
            self.checkpoint(worker, state_or_body)

    def send(self, worker: Worker, to: int, body: bytes) -> None:
        """A worker sends a message."""
        self.put_message(worker.number, to, body)
        self.answer(worker, "done")
        self.settle([to])

    def receive(self, worker: Worker, sender: int, state: bytes) -> None:
        """A worker waits for a message, and stands at this state as long as it waits."""
        if self.is_by_rounds and not state:
            raise Failure(f"worker {worker.number} receives without a state, which rounds need")
        worker.wants, worker.stands = sender, state
        self.settle([worker.number])

    def checkpoint(self, worker: Worker, state: bytes) -> None:
        """A worker takes a checkpoint. By rounds it begins one, unless one is open."""
        worker.stored = state
        if self.is_by_rounds and not self.markers_left:
            begun = self.service.begin(worker.number, self.told(state))
            self.markers_left = len(self.links)
            self.put_markers(worker.number, begun.round)
        else:
            self.service.check(worker.number, self.told(state))
        self.events[worker.number] += 1
        self.answer(worker, "done")
        self.settle(self.numbers)

    def told(self, state: bytes) -> bytes:
        """What a checkpoint stores at the service: the name of its file, or the state itself."""
        return self.files.put(state) if self.files else state

    def sweep(self) -> None:
        """Deletes the files of checkpoints that no recovery goes back to any more."""
        if self.files:
            self.files.sweep(self.service)
            self.swept = self.files.written

    # Links.

    def put_message(self, sender: int, to: int, body: bytes) -> None:
        """Tells the service of a message, and puts it on its link."""
        self.events[sender] += 1
        name = self.service.send(sender, to, body)
        self.links[sender, to].append(Message(name, to, body))

    def put_markers(self, sender: int, number: int) -> None:
        """The markers of a round go on all links from a worker that has its checkpoint of it."""
        for (source, _), link in self.links.items():
            if source == sender:
                link.append(Marker(number))

    def settle(self, numbers: Iterable[int]) -> None:
        """Gives workers that wait what is on the links to them, and so on where markers go out."""
        todo = deque(numbers)
        while todo:
            worker = self.workers[todo.popleft()]
            sender = self.next_sender(worker)
            if sender is not None:
                todo.extend(self.deliver(sender, worker))

    def next_sender(self, worker: Worker) -> int | None:
        """On the link from whom there is what a worker may take: a marker, or what it waits for."""
        if worker.stands is None:
            return None
        links = {p: self.links[p, worker.number] for p in self.numbers if p != worker.number}
        markers = [p for p, link in links.items() if link and isinstance(link[0], Marker)]
        wanted = [p for p, link in links.items() if link and p == worker.wants]
        return next(iter(markers + wanted), None)

    def deliver(self, sender: int, worker: Worker) -> Iterable[int]:
        """Has a worker take the first item of a link; answers who may take more by that.

        A marker may force a checkpoint of it: that stores where it stands.
        """
        item = self.links[sender, worker.number].popleft()
        state = worker.stands or b""
        if isinstance(item, Marker):
            state = self.told(state)
        elif self.files:
            state = b""  # no message has a worker take a checkpoint
        answered = self.service.deliver(sender, worker.number, 0, state)
        self.events[worker.number] += 2  # the receipt, and perhaps a checkpoint
        if isinstance(item, Message) and answered == Took(item.name, None):
            worker.wants = worker.stands = None
            self.answer(worker, f"message {item.body.hex()}")
            return []
        if not (isinstance(answered, Marked) and item == Marker(answered.round)):
            raise Failure(f"the service answers {answered}, where the link holds {item}")
        if answered.forced:
            self.put_markers(worker.number, answered.round)
        self.markers_left -= 1
        if not self.markers_left:
            self.last_round = answered.round
            self.watch.completed(answered.round)
        return self.numbers

    # Recoveries.

    def mend(self) -> None:
        """Recovers as long as somebody has failed, and starts the workers that have no process.

        Whoever is killed meanwhile has failed again, and the recovery is asked once more.
        """
        while True:
            waiting = [worker for worker in self.workers if worker.begins is not None]
            if self.failed:
                self.recover()
            elif waiting:
                self.start(waiting[0])
            else:
                break
            caught = {number for number in self.meanwhile if self.workers[number].process}
            self.meanwhile -= caught
            self.fail(caught, IN_RECOVERY)
        for number in self.meanwhile:
            self.watch.missed(number)
        self.meanwhile.clear()
        self.settle(self.numbers)

    def recover(self) -> None:
        """Asks for the line, and brings all to it."""
        failed, self.failed = tuple(sorted(self.failed)), set()
        plan = self.service.recover(failed)
        self.go_back(failed, plan, plan.replays)

    def go_back(
        self, failed: tuple[int, ...], plan: Plan, replays: Sequence[Replay], is_next: bool = False
    ) -> None:
        """Brings all to the line; who goes back waits for a process then.

        Who stays goes on as it is, blocked in a receive perhaps, and the links hold the replays.
        """
        was = tuple(worker.turn for worker in self.workers)
        begin = tuple(worker.number for worker in self.workers if worker.begins is not None)
        for number, told in enumerate(plan.states):
            if told is not None:
                state = self.files.state(told) if self.files else told
                self.stop(self.workers[number])
                self.workers[number] = Worker(number, state, self.turn_of(state), stored=state)
        for link in self.links.values():
            link.clear()
        messages = [Message(*replay) for replay in replays]
        for message in messages:
            self.links[message.name.sender, message.to].append(message)
        self.markers_left = 0
        now = tuple(worker.turn for worker in self.workers)
        whole = self.whole_round()
        self.watch.recovered(Recovery(failed, plan, was, now, begin, messages, whole, is_next))

    def whole_round(self) -> Round | None:
        """The last completed round. No recovery has cut off one of its checkpoints."""
        if self.last_round is None:
            return None
        listed = self.service.rounds()
        if not listed or listed[-1].number != self.last_round:
            raise Failure(f"the recovery went back to before round {self.last_round}")
        return listed[-1]

    def begin_next_world(self) -> None:
        """Begins a new world before a tape is full: from the line that there is if all failed.

        There each worker takes the check that it goes back to as its first one, so that no line of
        the new world is before that.
        """
        self.watch.begins_world()
        rolled = self.service.roll_over()
        self.last_round = None
        self.events = Counter({number: 1 for number in self.numbers})
        self.events.update(replay.message.sender for replay in rolled.replays)
        self.go_back(tuple(self.numbers), rolled.plan, rolled.replays, is_next=True)
        self.mend()
