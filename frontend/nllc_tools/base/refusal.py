"""What the tool says where it can't go on."""

from contextlib import contextmanager
from typing import Iterator


class Refusal(Exception):
    """One line for a person, and the status with which the program ends."""

    def __init__(self, line: str, status: int = 2):
        super().__init__(line)
        self.status = status


@contextmanager
def refusing(what: str, advice: str = "", status: int = 2) -> Iterator[None]:
    """Says what can't be done where the system refuses it, and why, and gives advice."""
    try:
        yield
    except OSError as error:
        raise Refusal(f"{what}: {error.strerror}{advice and '; '}{advice}", status) from None
