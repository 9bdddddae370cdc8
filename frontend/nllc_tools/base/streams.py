"""Standard output and standard error, whatever the locale is and wherever they lead, and how a run ends."""

from __future__ import annotations

import codecs
import contextlib
import errno
import os
import signal
import sys
from io import TextIOWrapper
from typing import Callable, Sequence

from nllc_tools.base.command_line import called, current
from nllc_tools.base.refusal import Refusal
from nllc_tools.base.sentences import visible

# By what a stream refuses to take what is written.
OF_STREAMS = (errno.EPIPE, errno.ENOSPC, errno.EDQUOT, errno.EFBIG, errno.EIO, errno.EBADF)
PLAIN = {"→": "->", "…": "..", "–": "-", "’": "'", "‹": "<", "›": ">"}    # as a person writes them


def plain(error: UnicodeError) -> tuple[str, int]:
    """What stands for letters that an encoding lacks."""
    if not isinstance(error, UnicodeEncodeError):
        raise error
    letters = (PLAIN.get(letter, letter.encode("ascii", "backslashreplace").decode())
               for letter in error.object[error.start:error.end])
    return "".join(letters), error.end


codecs.register_error("plain", plain)


Main = Callable[[Sequence[str]], int]


def command(word: str) -> Callable[[Main], Main]:
    """Has what one of the command's words does with those behind it end as `guarded` says."""
    return lambda work: lambda words: guarded(word, lambda: work(words))


def guarded(word: str, work: Callable[[], int]) -> int:
    """The status of what one of the command's words does; what it can't do is one line on standard error."""
    program = current()[0] = called(word)
    sys.stderr = sys.stderr or open(os.devnull, "w", encoding="utf-8")    # it is None where it was closed
    if sys.stdout is None:
        return tell(f"{program}: standard output can't be written: it is closed", 3)
    prepare()
    try:
        try:
            status = work()
        except SystemExit as end:    # after help, or of a word that isn't known
            status = end.code if isinstance(end.code, int) else int(bool(end.code))
        sys.stdout.flush()
        return status
    except Refusal as refusal:
        return tell(f"{program}: {visible(str(refusal))}", refusal.status)
    except KeyboardInterrupt:
        return tell(f"{program}: stopped; nothing half-written is left", 130)
    except MemoryError:
        return tell(f"{program}: out of memory", 3)
    except OSError as error:
        return tell(f"{program}: {refused(error)}", 3)


def tell(line: str, status: int) -> int:
    """Says a line on standard error, if that can be written; the status."""
    with contextlib.suppress(OSError):
        print(line, file=sys.stderr, flush=True)
    return status


def prepare() -> None:
    """Has letters that the locale lacks written otherwise; and a signal end the work as Ctrl-C does.

    So what is half-written is taken away.
    """
    for stream in (sys.stdout, sys.stderr):
        if isinstance(stream, TextIOWrapper):
            stream.reconfigure(errors="plain")
    for number in (signal.SIGTERM, signal.SIGHUP):
        if signal.getsignal(number) == signal.SIG_DFL:    # it is ignored under nohup
            signal.signal(number, signal.default_int_handler)


def refused(error: OSError) -> str:
    """That standard output can't be written, or what else the system refused."""
    if error.filename is not None or error.errno not in OF_STREAMS:
        where = f"{visible(str(error.filename))}: " if error.filename is not None else ""
        return f"{where}{error.strerror or error}"
    os.dup2(os.open(os.devnull, os.O_WRONLY), 1)    # what is still to be written goes there
    return f"standard output can't be written: {error.strerror}"
