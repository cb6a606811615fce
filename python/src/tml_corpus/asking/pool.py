"""Work on all processors, with the results in the order of the items, and a way to be interrupted.

The work is done in processes of Python, since much of it is to start `tml` again and again, or to say what was answered, which threads
would do one after the other. They are forked and have the items from then on, so that two numbers say which ones a process is given.
A process is given some items at a time, and the next ones when their results are there.
"""

from __future__ import annotations

import gc
import os
import select
import signal
import struct
import threading
import time
from collections import deque
from collections.abc import Callable, Iterator, Sequence
from contextlib import suppress
from functools import partial
from typing import Any, Generic, NoReturn, TypeVar

from tml.attempts import attempted, cause
from tml.running import STARTS, CannotRun, end_all

from ..command_line.statuses import ENDED
from ..files.finding import reason
from ..files.writing import FORKED, WRITING
from .room import Room, SharedLock

Item = TypeVar("Item")
Result = TypeVar("Result")

AHEAD, QUICK_AHEAD = 256, 2048
"""How many results may wait for one that comes before them, so that memory stays bounded: of items that go alone, and of those that are
quick, whose results are small."""

TOGETHER = 64
"""How many items go to a process at once at most."""

MOMENT, LEAST = 0.05, 1e-6
"""They are so many that they probably take no more seconds than this; no time that is measured counts as less than the least one."""

PATIENCE = 0.5
"""How many seconds pass at most until an interruption is seen."""

BEGINNING = 20.0
"""How many seconds a process has to say that it is ready. One that runs out of memory while it begins may never say so, nor end."""

ATTEMPTS = 3
"""So often in a row the last process that is left may end before it is ready."""

SPARE = 4
"""How many files this program can still open once it has forked as many processes as it can."""

READY = b"\1"
"""What a process says first."""

PAIR = struct.Struct("=QQ")
"""What a process is told: the number of an item, and how many from there on are meant."""

HEAD = struct.Struct("=QQd")
"""How its answer begins: how many bytes follow, how many results there are, and how many seconds they took.

Where nothing is to be said of any of the items, no bytes follow, so that most answers need not be pickled."""

PART = 1 << 18


class Interruption:
    """Notes the first Ctrl-C, so that what was judged can still be reported; a second one ends the program and its children at once."""

    def __init__(self) -> None:
        self.happened = threading.Event()

    def __enter__(self) -> Interruption:
        self.before = signal.signal(signal.SIGINT, self.note)
        return self

    def __exit__(self, *error: object) -> None:
        signal.signal(signal.SIGINT, self.before)

    def note(self, number: int, frame: object) -> None:
        """Is called by the signal."""
        if self.happened.is_set():
            signal.signal(signal.SIGINT, signal.SIG_DFL)
            end_all()
            os.kill(os.getpid(), signal.SIGINT)
        self.happened.set()


def nothing() -> None:
    """What a process does before its first item, where nothing else is said."""


def in_order(
    work: Callable[[Item], Result],
    items: Sequence[Item],
    workers: int,
    stop: Interruption,
    failed: Callable[[Item, str], Result],
    prepare: Callable[[], None] = nothing,
) -> Iterator[Result]:
    """The results of the items in their order. After an interruption no item is begun; what was begun is still reported.

    The result of an item at which the work raises anything is made by `failed`, of the item and the cause. If a process is ended from
    outside, as when it is out of memory, the items that it had are begun again one at a time, with nothing beside them. One that ends its
    process again has failed too.
    """
    groups: Groups[Result] = Groups(len(items), workers)
    with Crew(work, items, failed, prepare) as crew:
        crew.grow(min(workers, len(items)))
        while True:
            if not stop.happened.is_set():
                crew.give(groups)
            yield from groups.ready()
            if not groups.go_on(stop.happened.is_set()):
                return
            for group in crew.take(groups):
                groups.break_up(group, lambda number: failed(items[number], ENDED))


class HasEnded(Exception):
    """A process has ended, and answers no more."""


class Group(Generic[Result]):
    """Items that go to a process together, by the number of the first one; whether they go with nothing beside them; and their results."""

    def __init__(self, first: int, count: int, alone: bool = False) -> None:
        self.first, self.count, self.alone = first, count, alone
        self.results: list[Result] | None = None
        self.under_way = False


class Groups(Generic[Result]):
    """Items on their way through processes, in their order. Those that are quick go together, since a way takes as long as some of them."""

    def __init__(self, count: int, workers: int) -> None:
        self.count, self.workers, self.next, self.reported = count, workers, 0, 0
        self.most_together = max(min(QUICK_AHEAD // (2 * workers), TOGETHER), 1)
        # Until it is known how long an item takes, each goes alone.
        self.together = 1
        self.waiting: deque[Group[Result]] = deque()
        self.again: deque[Group[Result]] = deque()
        """Those that are given before all others: items that were not begun, and those that are tried again."""
        self.tried: Group[Result] | None = None
        """The one that is tried again, while it is under way."""

    def take(self, nothing_else: bool) -> Group[Result] | None:
        """The next items for a process, or None where there are none, or none yet. What is tried again waits for all that is under way."""
        if self.tried is not None:
            return None
        if self.again:
            if not self.again[0].alone:
                return self.again.popleft()
            self.tried = self.again.popleft() if nothing_else else None
            return self.tried
        if self.next == self.count or self.next - self.reported >= max(AHEAD, 2 * self.workers * self.together):
            return None
        # The last items are spread over all processes.
        group: Group[Result] = Group(self.next, max(min(self.together, (self.count - self.next) // (2 * self.workers)), 1))
        self.next += group.count
        self.waiting.append(group)
        return group

    def note(self, group: Group[Result], results: list[Result], seconds: float) -> None:
        """Notes the results of a group, and how long they took. Items that were not begun become a group, which is given first."""
        group.results, group.under_way = results, False
        self.tried = None
        left = group.count - len(results)
        if left:
            group.count = len(results)
            self.put_after(group, [Group(group.first + group.count, left)])
        quick = int(MOMENT * len(results) / max(seconds, LEAST))
        self.together = max(min(quick, self.most_together), 1)

    def break_up(self, group: Group[Result], lost: Callable[[int], Result]) -> None:
        """Puts the items of a group with which a process ended into groups of one; what ends a process alone is lost."""
        group.under_way = False
        self.tried = None
        if group.alone:
            group.results = [lost(group.first)]
            return
        self.put_after(group, [Group(group.first + place, 1, alone=True) for place in range(group.count)])
        self.waiting.remove(group)

    def put_after(self, group: Group[Result], others: list[Group[Result]]) -> None:
        """Puts groups behind one, to be given before all others."""
        place = self.waiting.index(group) + 1
        for other in reversed(others):
            self.waiting.insert(place, other)
        self.again.extend(others)

    def ready(self) -> Iterator[Result]:
        """The results of the first groups, as many as are done."""
        while self.waiting and (results := self.waiting[0].results) is not None:
            self.reported += self.waiting.popleft().count
            yield from results

    def go_on(self, is_stopped: bool) -> bool:
        """Whether something is to be waited for: after an interruption only where the first items were begun."""
        if is_stopped:
            return bool(self.waiting) and self.waiting[0].under_way
        return bool(self.waiting) or self.next < self.count


class Worker(Generic[Result]):
    """A process that was forked, as the program sees it: its pipes, the items that it is at, and what it has answered of them."""

    def __init__(self, process: int, told: int, answers: int) -> None:
        self.process, self.told, self.answers = process, told, answers
        self.late = time.monotonic() + BEGINNING
        """When it is late with saying that it is ready."""
        self.group: Group[Result] | None = None
        self.answered = bytearray()

    def become_ready(self) -> None:
        """Takes what it says first."""
        if not os.read(self.answers, len(READY)):
            raise HasEnded

    def begin(self, group: Group[Result]) -> None:
        """Gives it some items. That it has ended is seen where it is read from."""
        self.group, group.under_way = group, True
        with suppress(BrokenPipeError):
            os.write(self.told, PAIR.pack(group.first, group.count))

    def answer(self) -> tuple[list[Any], float] | None:
        """The results that it answers and the seconds that they took, once all of that is there."""
        part = os.read(self.answers, PART)
        if not part:
            raise HasEnded
        self.answered += part
        if len(self.answered) < HEAD.size:
            return None
        length, count, seconds = HEAD.unpack_from(self.answered)
        if len(self.answered) < HEAD.size + length:
            return None
        results: Any = [None] * count
        if length:
            import pickle

            results = pickle.loads(memoryview(self.answered)[HEAD.size :])
        self.answered = bytearray()
        if isinstance(results, Exception):
            raise results
        return results, seconds

    def close(self) -> None:
        """Lets go of it: it ends when it is through with what it is at."""
        os.close(self.told)
        os.close(self.answers)

    def end(self) -> None:
        """Ends it at once; that it has ended is seen where it is read from."""
        with suppress(ProcessLookupError):
            os.kill(self.process, signal.SIGKILL)

    def wait(self) -> None:
        """Waits until it has ended, if the system still knows of it: it does not where children are ignored."""
        with suppress(ChildProcessError):
            os.waitpid(self.process, 0)


class Crew(Generic[Item, Result]):
    """The processes that do some work. They leave Ctrl-C to the program, and end where it is no more: the pipe that it holds is closed."""

    def __init__(
        self, work: Callable[[Item], Result], items: Sequence[Item], failed: Callable[[Item, str], Result], prepare: Callable[[], None]
    ) -> None:
        self.work, self.items, self.failed, self.prepare = work, items, failed, prepare
        self.starting: dict[int, Worker[Result]] = {}
        """Those that have not said yet that they are ready."""
        self.idle: list[Worker[Result]] = []
        self.busy: dict[int, Worker[Result]] = {}
        self.attempts = ATTEMPTS
        self.poll = select.poll()
        self.lock = SharedLock()

    def __enter__(self) -> Crew[Item, Result]:
        try:
            self.watched, self.held = os.pipe()
        except OSError as error:
            raise cannot_fork(error) from None
        FORKED.add(self.end_now)
        return self

    def end_now(self) -> None:
        """Ends all processes, before they are through. If one does not end soon nobody waits for it."""
        os.close(self.held)
        late = time.monotonic() + PATIENCE
        for worker in self.workers():
            with suppress(ChildProcessError):
                while os.waitpid(worker.process, os.WNOHANG) == (0, 0) and time.monotonic() < late:
                    time.sleep(0.001)

    def __exit__(self, *error: object) -> None:
        """Ends all processes, once they are through with what they are at."""
        FORKED.discard(self.end_now)
        for worker in self.starting.values():
            worker.end()
        workers = self.workers()
        for worker in workers:
            worker.close()
        for worker in workers:
            worker.wait()
        self.lock.close()
        os.close(self.watched)
        os.close(self.held)

    def workers(self) -> list[Worker[Result]]:
        """All processes."""
        return [*self.starting.values(), *self.idle, *self.busy.values()]

    def grow(self, count: int) -> None:
        """Forks so many processes, or as many as it can; without any it cannot go on."""
        spare: list[int] = []
        try:
            for _ in range(SPARE):
                spare += [os.dup(self.held)]
            for _ in range(count):
                self.fork(spare)
        except OSError as error:
            if not self.workers():
                raise cannot_fork(error) from None
        finally:
            for handle in spare:
                os.close(handle)

    def fork(self, spare: list[int]) -> None:
        """Forks a process, which does not need the spare handles."""
        pipes: list[int] = []
        try:
            pipes += os.pipe()
            pipes += os.pipe()
            process = os.fork()
        except OSError:
            for handle in pipes:
                os.close(handle)
            raise
        reading, told, answers, writing = pipes
        if not process:
            self.work_on(reading, writing, [told, answers, self.held, *spare])
        os.close(reading)
        os.close(writing)
        self.starting[answers] = Worker(process, told, answers)
        self.poll.register(answers, select.POLLIN)

    def work_on(self, told: int, answers: int, others: list[int]) -> NoReturn:
        """What a process does: it never comes back to what the program was at when it was forked."""
        try:
            for worker in self.workers():
                worker.close()
            for handle in others:
                os.close(handle)
            prepare_worker(self.watched, self.lock)
            os.write(answers, READY)
            self.answer_all(told, answers)
        finally:
            os._exit(1)

    def answer_all(self, told: int, answers: int) -> None:
        """Answers of all items that a process is told, until there are no more."""
        problem = attempted(lambda prepare: prepare(), self.prepare, lambda _, problem: problem)
        while message := os.read(told, PAIR.size):
            first, count = PAIR.unpack(message)
            rest = memoryview(self.answer_of(self.items[first : first + count], problem))
            while rest:
                rest = rest[os.write(answers, rest) :]

    def answer_of(self, group: Sequence[Item], problem: str | None) -> bytes:
        """The answer of some items, or a problem that ends the run."""
        try:
            if problem is not None:
                raise CannotRun(problem)
            results, seconds = do_group(partial(attempted, self.work, failed=self.failed), group)
            if all(result is None for result in results):
                return HEAD.pack(0, len(results), seconds)
            from .batch import packed

            answer = packed(results, group, self.failed)
            return HEAD.pack(len(answer), 0, seconds) + answer
        except Exception as error:
            from .batch import written

            answer = written(CannotRun(cause(error)))
            return HEAD.pack(len(answer), 0, 0.0) + answer

    def give(self, groups: Groups[Result]) -> None:
        """Gives each process that has nothing to do the next items, as far as there are any."""
        while self.idle and (group := groups.take(not self.busy)) is not None:
            worker = self.idle.pop()
            self.busy[worker.answers] = worker
            worker.begin(group)

    def take(self, groups: Groups[Result]) -> list[Group[Result]]:
        """Takes what comes next, if it comes soon, and answers the groups with which processes ended."""
        ended: list[Group[Result]] = []
        for handle, _ in self.poll.poll(PATIENCE * 1000):
            worker = self.starting.get(handle) or self.busy.get(handle) or next(one for one in self.idle if one.answers == handle)
            try:
                self.hear(worker, groups)
            except HasEnded:
                ended += self.replace(worker)
        now = time.monotonic()
        for worker in self.starting.values():
            if now > worker.late:
                worker.end()
        return ended

    def hear(self, worker: Worker[Result], groups: Groups[Result]) -> None:
        """Takes what a process says: that it is ready, or results."""
        if worker.answers in self.starting:
            worker.become_ready()
            self.idle.append(self.starting.pop(worker.answers))
            return
        answer = worker.answer()
        if answer is not None and worker.group is not None:
            groups.note(worker.group, *answer)
            worker.group = None
            self.idle.append(self.busy.pop(worker.answers))

    def replace(self, worker: Worker[Result]) -> list[Group[Result]]:
        """Forks another process in the place of one that has ended, and answers the items that it was at.

        Where one has ended before it was ready, those that are there go on without another one.
        """
        was_ready = self.starting.pop(worker.answers, None) is None
        if was_ready and self.busy.pop(worker.answers, None) is None:
            self.idle.remove(worker)
        self.poll.unregister(worker.answers)
        worker.close()
        worker.wait()
        if was_ready or not self.workers():
            self.attempts = ATTEMPTS if was_ready else self.attempts - 1
            if not self.attempts:
                raise CannotRun("no process of Python can begin its work: there is not enough memory, or there are too many processes")
            self.grow(1)
        return [worker.group] if worker.group is not None else []


def cannot_fork(error: OSError) -> CannotRun:
    """What is said where no process can be forked."""
    return CannotRun(f"no process of Python can be forked: {reason(error)}")


def prepare_worker(watched: int, lock: SharedLock) -> None:
    """Has a process leave Ctrl-C to the program, and end when that is no more, with the `tml` that it has started.

    A file that it is at is written whole before that.
    """
    signal.signal(signal.SIGINT, signal.SIG_IGN)
    # What the program has by now stays to the end: no search for what can be freed goes over it in each process.
    gc.freeze()
    Room.share(lock)

    def end_now() -> None:
        end_all()
        with WRITING:
            os._exit(1)

    def watch() -> None:
        os.read(watched, 1)
        # A program that is just being started is waited for.
        STARTS.after(end_now)

    threading.Thread(target=watch, daemon=True).start()


def do_group(work: Callable[[Item], Result], items: Sequence[Item]) -> tuple[list[Result], float]:
    """The results of the first items of some, as many as take two moments, and the seconds that they took."""
    begun = time.monotonic()
    results: list[Result] = []
    seconds = 0.0
    for item in items:
        results.append(work(item))
        seconds = time.monotonic() - begun
        if seconds > 2 * MOMENT:
            break
    return results, seconds
