"""Work on many things side by side, on all cores."""

import os
import signal
import sys
from concurrent.futures import ProcessPoolExecutor
from concurrent.futures.process import BrokenProcessPool
from typing import Callable, Iterable, Iterator, TypeVar

from nllc_tools.base.refusal import Refusal
from nllc_tools.base.rooms import end_with

FEW = 8     # so few things are done sooner than other processes are started
MOST_AT_ONCE = 16

Thing = TypeVar("Thing")
Result = TypeVar("Result")


def side_by_side(work: Callable[[Thing], Result], things: Iterable[Thing], few: int = FEW) -> Iterator[Result]:
    """What the work makes of each thing, in their order."""
    things = list(things)
    if len(things) <= few:
        yield from map(work, things)
        return
    at_once = min(MOST_AT_ONCE, 1 + len(things) // (8 * (os.cpu_count() or 1)))
    pool = ProcessPoolExecutor(initializer=keep_silent, initargs=(os.getpid(),))
    try:
        yield from pool.map(work, things, chunksize=at_once)
    except BrokenProcessPool:
        raise Refusal("a process that worked on some of the functions was killed: is there too little memory?", 3) from None
    finally:
        pool.shutdown(wait=True, cancel_futures=True)


def keep_silent(parent: int = 0) -> None:
    """Leaves signals and the terminal to the first process, and ends with it."""
    signal.signal(signal.SIGINT, signal.SIG_IGN)
    for number in (signal.SIGTERM, signal.SIGHUP):
        signal.signal(number, signal.SIG_DFL)
    sys.stderr = open(os.devnull, "w", encoding="utf-8")
    end_with(parent or os.getppid())
