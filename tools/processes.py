"""What each process that another one starts takes: seconds of processor time, and memory at most.

    with Watch(pid) as watch:
        ..
    watch.gone      a sample for each process that has ended, in the order of their ends

It reads /proc twice a second, so what a process takes in its last half second isn't counted. What a process
starts itself counts with it, once it has ended. A sample is a dict: `pid`, `parent`, `first` and `last` (the
times at which it was seen), `own` and `kids` (seconds of processor time, its own and its children's), `cwd`,
`words` (the first of its command line, and `--test` where it's one of them), `over` (the name of the folder of
kept work that it begins with, or nothing) and `kb` (memory at most).
"""

import os
import threading
import time

TICKS = os.sysconf("SC_CLK_TCK")
WORDS = 4


def read(path):
    with open(path, errors="replace") as file:
        return file.read()


def children_of(parent):
    """The process id, start and seconds (own and children's) of each child of a process."""
    for pid in filter(str.isdigit, os.listdir("/proc")):
        try:
            stat = read(f"/proc/{pid}/stat")
        except OSError:
            continue
        fields = stat[stat.rindex(")") + 2:].split()
        if int(fields[1]) == parent:
            own, kids = (sum(map(int, fields[at:at + 2])) / TICKS for at in (11, 13))
            yield int(pid), int(fields[19]), own, kids


def described(pid):
    """Words, folder and memory of a process, or nothing once it has ended."""
    try:
        words = read(f"/proc/{pid}/cmdline").split("\0")
        cwd = os.readlink(f"/proc/{pid}/cwd")
        memory = [line.split()[1] for line in read(f"/proc/{pid}/status").splitlines() if "VmHWM" in line]
    except OSError:
        return {}
    if not memory or not words[0]:
        return {}
    over = os.path.basename(words[words.index("--incremental") + 1]) if "--incremental" in words[:-1] else ""
    words = words[:WORDS] + ["--test"] * ("--test" in words[WORDS:])
    return {"words": words, "cwd": cwd, "over": over, "kb": int(memory[0])}


class Watch:
    """Looks at the children of a process until it's left; `told` gets the sample of each that is gone."""

    def __init__(self, root, told=None, pause=0.5):
        self.root, self.told, self.pause = root, told, pause
        self.gone, self.alive = [], {}
        self.ends = threading.Event()
        self.thread = threading.Thread(target=self.watch, daemon=True)

    def __enter__(self):
        self.thread.start()
        return self

    def __exit__(self, *_):
        self.ends.set()
        self.thread.join()

    def watch(self):
        while not self.ends.wait(self.pause):
            self.look()
        self.end([*self.alive])

    def look(self):
        now, seen = time.time(), set()
        for pid, start, own, kids in children_of(self.root):
            seen.add((pid, start))
            new = {"pid": pid, "parent": self.root, "first": now, "cwd": "", "words": [], "over": "", "kb": 0}
            sample = self.alive.setdefault((pid, start), new)
            sample.update(described(pid), last=now, own=round(own, 2), kids=round(kids, 2))
        self.end([key for key in self.alive if key not in seen])

    def end(self, keys):
        for key in keys:
            sample = self.alive.pop(key)
            self.gone.append(sample)
            if self.told:
                self.told(sample)

    def samples(self):
        """The samples of those that have ended, and of those that go on."""
        return self.gone + [*self.alive.copy().values()]


def seconds_of(sample):
    return sample["own"] + sample["kids"]


def crate_of(sample):
    """The crate that a `rattle check` or `rattle build` is of, or None for any other process."""
    words = sample["words"]
    is_check = len(words) >= 4 and words[0].endswith("/rattle") and words[1] in ("check", "build")
    return words[3] if is_check and words[2] == "--crate-name" else None


def is_edit(sample):
    """Whether the check is one of a copy with an edit, which `rt` makes in a folder of its own."""
    return os.path.basename(sample["cwd"]).startswith("rt-edit-")
