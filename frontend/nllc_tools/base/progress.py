"""A line on standard error that says what goes on, where somebody looks and it takes long."""

import sys
import threading
import time
from typing import Callable

from nllc_tools.base.sentences import plural

WIDTH = 30
PATIENCE, PACE = 1.0, 0.3


class Progress:
    """The line, while its block runs: from the second second on, and only on a terminal."""

    def __init__(self, words: Callable[[], str]):
        self.words = words
        self.began = time.monotonic()
        self.ended = threading.Event()
        self.thread = threading.Thread(target=self.draw, daemon=True)

    def __enter__(self) -> "Progress":
        if sys.stderr.isatty():
            self.thread.start()
        return self

    def __exit__(self, *_: object) -> None:
        self.ended.set()
        if self.thread.is_alive():
            self.thread.join()

    def draw(self) -> None:
        if self.ended.wait(PATIENCE):
            return
        while not self.ended.wait(PACE):
            print(f"\r{self.words()} ({time.monotonic() - self.began:.0f} s)\033[K", end="", file=sys.stderr, flush=True)
        sys.stderr.write("\r\033[K")


class Bar:
    """How many of some functions are done, in words for a line of progress."""

    def __init__(self, total: int):
        self.total, self.done, self.faults = total, 0, 0

    def step(self, faults: int) -> None:
        self.done += 1
        self.faults += faults

    def words(self) -> str:
        full = WIDTH * self.done // self.total
        return (f"[{'#' * full}{'.' * (WIDTH - full)}] {self.done} of {plural(self.total, 'function')}, "
                f"{plural(self.faults, 'fault')}")
