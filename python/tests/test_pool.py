"""Work in several processes: results in the order of the items, groups of items that are quick, and what an interruption leaves."""

import itertools
import os
import resource
import signal
import time
import unittest
from collections.abc import Generator, Iterator
from contextlib import contextmanager
from unittest import mock

from corpus import needed
from processes import PATIENCE
from tml_corpus.asking import pool
from tml_corpus.asking.pool import AHEAD, TOGETHER, Groups, Interruption, Worker, do_group, in_order
from tml_corpus.asking.program import CannotRun
from tml_corpus.asking.room import Room, SharedLock, room_for


def lost(item: int, _: str = "") -> tuple[str, int]:
    """What is said of an item with which something went wrong."""
    return "lost", item


def quick(item: int) -> tuple[int, int]:
    """Work that takes no time, and the process that did it."""
    return item, os.getpid()


def slow_at_times(item: int) -> int:
    """Work of which some takes as long as several groups may."""
    time.sleep(0.12 if item % 40 == 7 else 0)
    return item


def deadly(item: int) -> int:
    """Work that ends its process at some items."""
    if item in (30, 31, 59, 900):
        os.kill(os.getpid(), 9)
    return item


def large_or_nothing(item: int) -> str | None:
    """Work with results that no pipe takes at once, and with none."""
    return str(item) * 200_000 if item % 50 == 3 else None


def hard_to_send(item: int) -> object:
    """Work of which some results cannot be sent to another process."""
    return (lambda: item) if item % 20 == 7 else item


class Odd(Exception):
    """An error that cannot be sent."""

    def __init__(self, one: str, other: str) -> None:
        super().__init__(f"{one} and {other}")


def failing(item: int) -> int:
    """Work that fails at some items."""
    if item == 40:
        raise Odd("one", "other")
    if item == 20:
        raise CannotRun("no item 20")
    return item


class Order(unittest.TestCase):
    def test_results_are_in_the_order_of_the_items(self) -> None:
        for workers in (1, 3, 200):
            with self.subTest(workers):
                self.assertEqual([item for item, _ in in_order(quick, range(500), workers, Interruption(), lost)], list(range(500)))
        self.assertEqual(list(in_order(slow_at_times, range(150), 3, Interruption(), lost)), list(range(150)))
        self.assertEqual(list(in_order(large_or_nothing, range(300), 2, Interruption(), lost)), list(map(large_or_nothing, range(300))))
        self.assertEqual(list(in_order(quick, [], 3, Interruption(), lost)), [])

    def test_an_item_that_ends_its_process_is_the_only_one_lost(self) -> None:
        for workers in (1, 2, 5):
            with self.subTest(workers):
                found = list(in_order(deadly, range(1000), workers, Interruption(), lost))
                self.assertEqual(found, [lost(item) if item in (30, 31, 59, 900) else item for item in range(1000)])

    def test_an_interruption_leaves_the_first_results(self) -> None:
        for after in (1, 20, 150):
            with self.subTest(after):
                stop = Interruption()
                found: list[object] = []
                for item in in_order(slow_at_times, range(3000), 3, stop, lost):
                    found.append(item)
                    if len(found) == after:
                        stop.happened.set()
                self.assertEqual(found, list(range(len(found))))
                self.assertTrue(after <= len(found) < 3000)

    def test_nothing_is_left_of_what_is_given_up(self) -> None:
        before = os.listdir("/proc/self/fd")
        results = in_order(slow_at_times, range(300), 4, Interruption(), lost)
        self.assertEqual(next(results), 0)
        assert isinstance(results, Generator)
        results.close()
        self.assertEqual(os.listdir("/proc/self/fd"), before)
        with self.assertRaises(ChildProcessError):
            os.waitpid(-1, os.WNOHANG)

    def test_where_children_are_ignored(self) -> None:
        self.addCleanup(signal.signal, signal.SIGCHLD, signal.signal(signal.SIGCHLD, signal.SIG_IGN))
        found = list(in_order(deadly, range(100), 2, Interruption(), lost))
        self.assertEqual(found, [lost(item) if item in (30, 31, 59) else item for item in range(100)])

    def test_an_item_at_which_the_work_raises_is_the_only_one_lost(self) -> None:
        odd = f"Odd: one and other (tests/test_pool.py:{failing.__code__.co_firstlineno + 3})"
        said = [*range(20), "no item 20", *range(21, 40), odd, *range(41, 60)]
        self.assertEqual(list(in_order(failing, range(60), 2, Interruption(), lambda _, problem: problem)), said)

    def test_an_item_whose_result_cannot_be_sent_is_the_only_one_lost(self) -> None:
        found = list(in_order(hard_to_send, range(60), 2, Interruption(), lost))
        self.assertEqual(found, [lost(item) if item % 20 == 7 else item for item in range(60)])

    def test_what_is_made_of_a_failure_may_end_the_run(self) -> None:
        def ends(_: int, problem: str) -> int:
            raise CannotRun(problem)

        for items, problem in ((range(30), "no item 20"), (range(21, 60), "Odd: one and other")):
            with self.assertRaisesRegex(CannotRun, f"^{problem}"):
                list(in_order(failing, items, 1, Interruption(), ends))

    def test_what_a_process_does_first(self) -> None:
        prepared = []
        results = in_order(lambda item: (item, *prepared), range(50), 2, Interruption(), lost, lambda: prepared.append("ready"))
        self.assertEqual(list(results), [(item, "ready") for item in range(50)])
        self.assertEqual(prepared, [])

        def unprepared() -> None:
            raise CannotRun("not ready")

        with self.assertRaisesRegex(CannotRun, "^not ready$"):
            list(in_order(quick, range(50), 2, Interruption(), lost, unprepared))

    def test_long_documents_are_taken_apart_one_at_a_time(self) -> None:
        self.addCleanup(Room.locks.clear)

        def held(_: int) -> tuple[float, float]:
            with room_for(b" " * 300_000):
                begun = time.monotonic()
                time.sleep(0.02)
                return begun, time.monotonic()

        def killed(_: int) -> None:
            with room_for(b" " * 300_000):
                os.kill(os.getpid(), 9)

        def never(item: int, _: str) -> tuple[float, float]:
            raise AssertionError(f"{item} is lost")

        times = sorted(in_order(held, range(20), 4, Interruption(), never))
        self.assertTrue(all(ended <= begun for (_, ended), (begun, _) in zip(times, times[1:])))
        # A process that ends with the lock leaves it.
        self.assertEqual(list(in_order(killed, range(4), 2, Interruption(), lost)), list(map(lost, range(4))))


@contextmanager
def slow_to_begin(count: int) -> Iterator[None]:
    """Has so many processes take ten minutes before they are ready: the first ones that begin."""
    reading, writing = os.pipe()
    os.write(writing, b"x" * count)
    os.set_blocking(reading, False)
    prepare = pool.prepare_worker

    def begin(watched: int, lock: SharedLock) -> None:
        try:
            os.read(reading, 1)
            time.sleep(600)
        except BlockingIOError:
            prepare(watched, lock)

    try:
        with mock.patch.object(pool, "prepare_worker", begin):
            yield
    finally:
        os.close(reading)
        os.close(writing)


def soon_late(count: int) -> type[Worker[object]]:
    """A class of processes of which the first ones are late after half a second, and the others after very long."""
    made = itertools.count()

    class SoonLate(Worker[object]):
        def __init__(self, process: int, told: int, answers: int) -> None:
            super().__init__(process, told, answers)
            self.late = time.monotonic() + (0.5 if next(made) < count else PATIENCE)

    return SoonLate


class LittleRoom(unittest.TestCase):
    """Where there is too little memory, or too few processes or files may be had."""

    def test_a_process_that_does_not_get_ready_is_ended(self) -> None:
        for workers, slow in ((1, 1), (3, 4)):
            with self.subTest(workers=workers, slow=slow), slow_to_begin(slow), mock.patch.object(pool, "Worker", soon_late(slow)):
                begun = time.monotonic()
                self.assertEqual(list(in_order(deadly, range(100), workers, Interruption(), lost))[:29], list(range(29)))
                self.assertLess(time.monotonic() - begun, PATIENCE)

    def test_a_process_that_does_not_get_ready_is_not_waited_for(self) -> None:
        with slow_to_begin(1), mock.patch.object(pool, "BEGINNING", 2 * PATIENCE):
            begun = time.monotonic()
            self.assertEqual(list(in_order(failing, range(15, 300), 2, Interruption(), lost))[:6], [15, 16, 17, 18, 19, lost(20)])
            self.assertLess(time.monotonic() - begun, PATIENCE)

    def test_where_no_process_gets_ready(self) -> None:
        with mock.patch.object(pool, "prepare_worker", side_effect=MemoryError), mock.patch.object(os, "fork", wraps=os.fork) as fork:
            for workers in (1, 3):
                fork.reset_mock()
                with self.assertRaisesRegex(CannotRun, "^no process of Python can begin its work: "):
                    list(in_order(quick, range(50), workers, Interruption(), lost))
                self.assertEqual(fork.call_count, workers + pool.ATTEMPTS - 1)

    def test_fewer_processes_than_wanted_go_on(self) -> None:
        fork = os.fork
        for there in (1, 3):
            forks = itertools.chain(
                [fork] * there, itertools.repeat(mock.Mock(side_effect=BlockingIOError(11, "Resource temporarily unavailable")))
            )
            with self.subTest(there), mock.patch.object(os, "fork", lambda forks=forks: next(forks)()):
                found = list(in_order(slow_at_times, range(200), 50, Interruption(), lost))
                self.assertEqual(found, list(range(200)))
        with mock.patch.object(os, "fork", side_effect=BlockingIOError(11, "Resource temporarily unavailable")):
            with self.assertRaisesRegex(CannotRun, "^no process of Python can be forked: resource temporarily unavailable$"):
                list(in_order(quick, range(50), 4, Interruption(), lost))

    def test_fewer_files_than_wanted_leave_some_to_be_opened(self) -> None:
        before, limits = len(os.listdir("/proc/self/fd")), resource.getrlimit(resource.RLIMIT_NOFILE)
        self.addCleanup(resource.setrlimit, resource.RLIMIT_NOFILE, limits)
        resource.setrlimit(resource.RLIMIT_NOFILE, (before + 20, limits[1]))
        results = in_order(quick, range(500), 100, Interruption(), lost)
        first, process = next(results)
        handles = [os.open(os.devnull, os.O_RDONLY) for _ in range(pool.SPARE)]
        found = list(results)
        self.assertEqual([first, *(item for item, _ in found)], list(range(500)))
        self.assertLess(len({process, *(process for _, process in found)}), 10)
        for handle in handles:
            os.close(handle)

    def test_a_thread_that_cannot_be_started(self) -> None:
        with mock.patch("threading.Thread.start", side_effect=RuntimeError("can't start new thread")):
            with self.assertRaisesRegex(CannotRun, "^no process of Python can begin its work: "):
                list(in_order(quick, range(50), 2, Interruption(), lost))


class GroupsOfItems(unittest.TestCase):
    def test_a_group_ends_early_where_its_items_are_slow(self) -> None:
        now = 0.0

        def work(item: int) -> int:
            nonlocal now
            now += 0.12 if item == 7 else 0.0
            return item

        with mock.patch("time.monotonic", lambda: now):
            self.assertEqual(do_group(work, range(5)), (list(range(5)), 0.0))
            self.assertEqual(do_group(work, range(20)), (list(range(8)), 0.12))

    def test_how_many_go_together_and_ahead(self) -> None:
        groups: Groups[None] = Groups(100_000, 4)
        first = [needed(groups.take(nothing_else=False)) for _ in range(AHEAD)]
        self.assertEqual({group.count for group in first}, {1})
        self.assertIsNone(groups.take(nothing_else=False))
        for group in first:
            groups.note(group, [None], 0.0001)
        self.assertEqual(len(list(groups.ready())), AHEAD)
        counts = []
        while (more := groups.take(nothing_else=False)) is not None:
            counts.append(more.count)
        self.assertEqual((set(counts), sum(counts)), ({TOGETHER}, 8 * TOGETHER))
        # Slow ones go alone again.
        groups.note(groups.waiting[0], [None] * TOGETHER, 10.0)
        list(groups.ready())
        self.assertIsNone(groups.take(nothing_else=False))
        self.assertEqual(groups.together, 1)

    def test_items_that_were_not_begun_are_given_first(self) -> None:
        groups: Groups[int] = Groups(100, 2)
        groups.together = 10
        first, second = needed(groups.take(nothing_else=True)), needed(groups.take(nothing_else=False))
        groups.note(first, [0, 1, 2], 0.03)
        left = needed(groups.take(nothing_else=False))
        self.assertEqual((left.first, left.count), (3, 7))
        groups.note(second, list(range(10, 20)), 0.03)
        self.assertEqual(list(groups.ready()), [0, 1, 2])
        groups.note(left, list(range(3, 10)), 0.03)
        self.assertEqual(list(groups.ready()), list(range(3, 20)))

    def test_items_that_are_tried_again_have_nothing_beside_them(self) -> None:
        groups: Groups[object] = Groups(100, 2)
        groups.together = 3
        first, second = needed(groups.take(nothing_else=True)), needed(groups.take(nothing_else=False))
        first.under_way = second.under_way = True
        groups.break_up(first, lost)
        self.assertIsNone(groups.take(nothing_else=False))
        groups.note(second, [3, 4, 5], 0.03)
        found: list[object] = []
        for place in range(3):
            one = needed(groups.take(nothing_else=True))
            self.assertEqual((one.first, one.count, one.alone), (place, 1, True))
            one.under_way = True
            self.assertIsNone(groups.take(nothing_else=False))
            if place == 1:
                groups.break_up(one, lost)
            else:
                groups.note(one, [place], 0.03)
            found += groups.ready()
        self.assertEqual(found, [0, ("lost", 1), 2, 3, 4, 5])
        self.assertEqual(needed(groups.take(nothing_else=True)).first, 6)


if __name__ == "__main__":
    unittest.main()
