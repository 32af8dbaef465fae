"""Who does tasks: processes or threads of this machine, or the workers of dask.distributed. A task is a function of a
module and what it is called with; it can be done again, so that one whose worker is lost is done by another."""
from __future__ import annotations

import contextlib
import os
import pickle
import subprocess
import sys
import weakref
from concurrent.futures import ThreadPoolExecutor, as_completed
from typing import Any, Callable, Iterator, Protocol, Sequence

import numpy as np

from ._adapters import module
from ._errors import HanskupError
from ._numbers import whole

TRIES = 4  #: so often a task is begun whose worker is lost each time

Task = Callable[..., Any]
Asked = Sequence[tuple[Any, ...]]


class Engine(Protocol):
    """What a run in tiles asks of whoever does its tasks."""

    def each(self, task: Task, asked: Asked) -> Iterator[Any]:
        """The answers of a task to each that is asked, as they come. Raises what a task raised."""


class LostWorkers(HanskupError):
    """The workers of one task were lost, as often as it was begun."""


class Processes:
    """Processes of this machine, so many side by side, each of which does one task after another.

    They are commands of their own: so nothing is asked of the caller's program, and a process that is killed takes no
    other with it; another is begun for its task. They begin when they are wanted, or by `begin`, and end with this.
    """

    def __init__(self, workers: int | None = None) -> None:
        self.workers = workers or os.cpu_count() or 1
        self._idle: list[_Process] = []  # those that wait for a task
        self._end = weakref.finalize(self, _end_all, self._idle)

    def begin(self, count: int) -> None:
        """Begins processes for so many tasks, so that they are ready when the first task comes."""
        self._idle.extend(_Process() for _ in range(min(count, self.workers) - len(self._idle)))

    def close(self) -> None:
        """Ends the processes, which do nothing by now."""
        _end_all(self._idle)

    def each(self, task: Task, asked: Asked) -> Iterator[Any]:
        pool = ThreadPoolExecutor(self.workers)
        try:
            for future in as_completed([pool.submit(self._done, task, words) for words in asked]):
                yield future.result()
        finally:
            pool.shutdown(cancel_futures=True)

    def _done(self, task: Task, words: tuple[Any, ...]) -> Any:
        status = 0
        for _ in range(TRIES):
            process = self._one()
            told = process.does(task, words)
            if told is None:
                status = process.end()
                continue
            self._idle.append(process)
            done, answer = told
            if not done:
                raise answer
            return answer
        raise LostWorkers(f'{task.__name__}{words}: {TRIES} processes ended, the last with status {status}')

    def _one(self) -> _Process:
        # A process that waits, but for those that were killed as they did; or a new one.
        with contextlib.suppress(IndexError):
            while True:
                process = self._idle.pop()
                if process.is_there():
                    return process
                process.end()
        return _Process()


class Threads:
    """Threads of this process, so many side by side. Nothing is begun and nothing is sent: the library and most of
    numpy let go of the interpreter's lock while they work. A task that a signal ends takes the program with it."""

    def __init__(self, workers: int | None = None) -> None:
        self.workers = workers or os.cpu_count() or 1

    def each(self, task: Task, asked: Asked) -> Iterator[Any]:
        """The answers of a task to each that is asked, as they come. Raises what a task raised."""
        pool = ThreadPoolExecutor(self.workers)
        try:
            for future in as_completed([pool.submit(task, *words) for words in asked]):
                yield future.result()
        finally:  # an interrupt waits for no task
            pool.shutdown(wait=False, cancel_futures=True)


class Dask:
    """The workers of a dask.distributed.Client. They must find this package, and the folder of the tiles by its path.

    The scheduler gives the task of a lost worker to another; its page (`client.dashboard_link`) shows what is done.
    """

    def __init__(self, client: Any) -> None:
        self.client = client

    def each(self, task: Task, asked: Asked) -> Iterator[Any]:
        futures = [self.client.submit(task, *words, pure=False, retries=TRIES - 1) for words in asked]
        for future in module('distributed').as_completed(futures):
            yield future.result()
            future.release()


def engine_of(given: Any) -> Engine:
    """The engine that is meant: an engine, a number of processes or None for one a processor, or a client of dask."""
    if given is None or isinstance(given, (int, np.integer)):
        return Processes(None if given is None else whole(given, 'the number of workers'))
    made: Engine = given if hasattr(given, 'each') else Dask(given)
    return made


# ---- tasks in a process

_CHILD = 'import sys; sys.path.insert(0, sys.argv[1]); from hanskup import _engines; _engines.answer()'
_HOME = os.path.dirname(os.path.dirname(os.path.abspath(__file__)))


class _Process:
    """A process that does tasks, one after another, until it is ended."""

    def __init__(self) -> None:
        # It stays beyond this call, until `end`.
        self._process = subprocess.Popen(  # pylint: disable=consider-using-with
            [sys.executable, '-c', _CHILD, _HOME], stdin=subprocess.PIPE, stdout=subprocess.PIPE)

    def is_there(self) -> bool:
        """Whether it has not ended."""
        return self._process.poll() is None

    def does(self, task: Task, words: tuple[Any, ...]) -> tuple[bool, Any] | None:
        """Whether a task was done, and its answer or what it raised; or None where the process ended."""
        to, out = self._process.stdin, self._process.stdout
        assert to and out
        try:
            to.write(pickle.dumps((task, words)))
            to.flush()
            told: tuple[bool, Any] = pickle.load(out)
        except (OSError, EOFError, pickle.UnpicklingError):
            return None
        return told

    def end(self) -> int:
        """Lets it end, which it does when nothing more is asked; its status."""
        to, out = self._process.stdin, self._process.stdout
        assert to and out
        with contextlib.suppress(OSError):
            to.close()
        out.close()
        return self._process.wait()


def _end_all(processes: list[_Process]) -> None:
    while processes:
        processes.pop().end()


def answer() -> None:
    """In a process of its own: does the tasks on standard input, and writes of each its answer, or what it raised."""
    out = os.fdopen(os.dup(1), 'wb')
    os.dup2(2, 1)  # what a task prints is no part of the answer
    with out, contextlib.suppress(EOFError):
        while True:
            task, words = pickle.load(sys.stdin.buffer)
            try:
                told = (True, task(*words))
            except Exception as raised:  # pylint: disable=broad-except
                told = (False, raised)
            out.write(pickle.dumps(told))
            out.flush()
