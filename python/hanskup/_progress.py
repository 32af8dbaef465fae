"""Bars on long calls, on a terminal, once a call has taken more than a second: by tqdm where it is installed, else a
line of the package's own. And calls of the library that an interrupt ends at once."""
from __future__ import annotations

import sys
import threading
import time
from contextlib import contextmanager
from typing import Any, Callable, Iterator, TypeVar

T = TypeVar('T')

LONG = 20_000  #: points of which a call of the library may take longer than a reader of a key waits
_DELAY, _EVERY, _WIDE = 1.0, 0.2, 60


def _tqdm() -> Any:
    try:
        from tqdm import tqdm
    except ImportError:
        return None
    return tqdm


def _on_terminal() -> bool:
    return sys.stderr is not None and sys.stderr.isatty()


class _Line:
    """A line on standard error that is written over: what is done of how much, and the time."""

    def __init__(self, total: int, unit: str) -> None:
        self._total, self._unit, self._done = total, unit, 0
        self._begun = time.monotonic()
        self._next, self._shown = self._begun + _DELAY, False

    def update(self, count: int) -> None:
        """So many more are done."""
        self._done += count
        now = time.monotonic()
        if now >= self._next:
            self._next = now + _EVERY
            self.tell(f'{self._done / self._total:4.0%} of {self._total} {self._unit}', now)

    def tell(self, words: str, now: float) -> None:
        """Writes it over the one before."""
        self._shown = True
        sys.stderr.write('\r' + f'{words}, {now - self._begun:.0f} s'.ljust(_WIDE))
        sys.stderr.flush()

    def close(self) -> None:
        """Takes the line away."""
        if self._shown:
            sys.stderr.write('\r' + ' ' * _WIDE + '\r')
            sys.stderr.flush()


def _bar(total: int, unit: str) -> Any:
    tqdm = _tqdm()
    if tqdm:
        return tqdm(total=total, unit=unit, delay=_DELAY, disable=None)
    return _Line(total, f'{unit}s') if _on_terminal() else None


def pieces(count: int, length: int, unit: str, progress: bool = True) -> Iterator[slice]:
    """0 to count in pieces of a length, with a bar that counts what is done."""
    bar = _bar(count, unit) if progress and count > length else None
    try:
        for start in range(0, count, length):
            piece = slice(start, min(start + length, count))
            yield piece
            if bar is not None:
                bar.update(piece.stop - start)
    finally:
        if bar is not None:
            bar.close()


def counting(done: Iterator[Any], count: int, unit: str, progress: bool = True) -> Iterator[Any]:
    """What is done, as it comes, with a bar that counts it."""
    bar = _bar(count, unit.rstrip('s')) if progress and count else None
    try:
        for one in done:
            if bar is not None:
                bar.update(1)
            yield one
    finally:
        if bar is not None:
            bar.close()


@contextmanager
def waiting(what: str, progress: bool = True) -> Iterator[None]:
    """While one call of the library runs, which tells nothing on its way: a line with the time that it has taken."""
    if not progress or not _on_terminal():
        yield
        return
    done = threading.Event()

    def tell() -> None:
        line = _Line(1, what)
        if not done.wait(_DELAY):
            while not done.wait(_EVERY):
                line.tell(what, time.monotonic())
            line.close()

    teller = threading.Thread(target=tell, daemon=True)
    teller.start()
    try:
        yield
    finally:
        done.set()
        teller.join()


def patiently(call: Callable[[], T], size: int) -> T:
    """What a call gives. Of many points it runs in a thread of its own, while this one waits and hears an interrupt:
    then the call goes on to its end, and what it gives is let go."""
    if size < LONG or threading.current_thread() is not threading.main_thread():
        return call()
    told: list[T] = []
    raised: list[BaseException] = []

    def work() -> None:
        try:
            told.append(call())
        except BaseException as error:  # pylint: disable=broad-except  # it is raised where it is asked for
            raised.append(error)

    worker = threading.Thread(target=work, daemon=True)
    worker.start()
    while worker.is_alive():
        worker.join(0.1)
    if raised:
        raise raised[0]
    return told[0]
