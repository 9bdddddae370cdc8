"""The folder of a run: however the run ends, the folder and the processes that work in it are gone soon after."""

import contextlib
import ctypes
import os
import re
import shutil
import signal
import subprocess
import tempfile
from functools import cache, partial
from typing import Callable, Iterator, Optional

PR_SET_PDEATHSIG = 1
MEMORY = "/dev/shm"
PLENTY = 1 << 32    # bytes; what rustc leaves of ten thousand functions takes a quarter
# Ends with the process that holds its standard input, then takes the folder away, also what was still being written.
GUARD = 'cat >/dev/null; for again in 1 2 3; do rm -rf -- "$1"; [ -e "$1" ] || exit; sleep 0.1; done'


def home_of_rooms() -> Optional[str]:
    """Memory, where there is plenty and nobody names another folder: files of a disk take several times as long to make."""
    if os.environ.get("TMPDIR") or not os.access(MEMORY, os.W_OK | os.X_OK):
        return None
    found = os.statvfs(MEMORY)
    return MEMORY if min(found.f_bavail * found.f_frsize, *free_memory()) >= PLENTY else None


def free_memory() -> Iterator[int]:
    """How many bytes the system has, and how many its limits leave."""
    for path, words in (("/proc/meminfo", re.compile(r"^MemAvailable: *(\d+) kB", re.MULTILINE)),
                        ("/sys/fs/cgroup/memory.max", re.compile(r"(\d+)"))):
        with contextlib.suppress(OSError), open(path, encoding="ascii") as file:
            if found := words.search(file.read()):
                yield int(found[1]) * (1024 if "kB" in found[0] else 1)


@contextlib.contextmanager
def guarded_room(prefix: str) -> Iterator[str]:
    """An empty folder, which a process of its own takes away where this one is killed."""
    room = tempfile.mkdtemp(prefix=prefix, dir=home_of_rooms())
    with subprocess.Popen(["sh", "-c", GUARD, "sh", room], stdin=subprocess.PIPE, stdout=subprocess.DEVNULL,
                          stderr=subprocess.DEVNULL, cwd="/", start_new_session=True) as guard:
        try:
            yield room
        finally:
            shutil.rmtree(room, ignore_errors=True)
            assert guard.stdin
            guard.stdin.close()


@cache
def system_library() -> ctypes.CDLL:
    return ctypes.CDLL(None)


def end_with(parent: int) -> None:
    """Has the system kill this process when its parent ends, in whatever way, if the system can do that."""
    with contextlib.suppress(OSError, AttributeError):
        system_library().prctl(PR_SET_PDEATHSIG, signal.SIGKILL)
    if os.getppid() != parent:
        os._exit(1)


def tied() -> Callable[[], None]:
    """What a process that this one starts does first, to end with this one."""
    system_library()
    return partial(end_with, os.getpid())
