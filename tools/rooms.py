"""Rooms: copies of crates, in which `rt` works on several at a time that stand on one.

`rt` keeps others out of the folders of the crate that it works on and of those below it. So in one tree it works on one
crate after the other, where all of them stand on one. A room is a tree of its own, out/rooms/NAME, for one crate: it has
the sources of that crate and of those below it, and their libraries by hard links, so it takes next to no disk. What
earlier checks kept of the crate is moved into its room, and back in the end. Then `rt`, which knows the trees of this
machine in which it has worked, takes the library from the room into the tree.

Python 3.8 is enough for this module, as for `rt`.
"""

import contextlib
import fcntl
import os
import shutil

from crates import lines_of

SOURCES = ("src", "specs", "proofs")


def link(one, other):
    """Gives a file a second name, or copies it where the disk knows no second names."""
    try:
        os.link(one, other)
    except OSError:
        shutil.copy2(one, other)


def copy(folder, to, copy_function=shutil.copy2):
    """Copies a folder, if it's there."""
    if os.path.isdir(folder):
        shutil.copytree(folder, to, copy_function=copy_function)


def move(folder, to):
    """Moves a folder, if it's there, in the place of another one."""
    if os.path.isdir(folder):
        shutil.rmtree(to, ignore_errors=True)
        os.makedirs(os.path.dirname(to), exist_ok=True)
        shutil.move(folder, to)


def folder_of(root, crate):
    return os.path.join(root, "crates", crate)


def kept_of(root, crate):
    """Where `rt` keeps what its checks of a crate found."""
    return os.path.join(folder_of(root, crate), "out", "incremental")


def library_of(root, crate):
    return os.path.join(folder_of(root, crate), "out", "rlib")


def copy_crates(root, to, crates):
    """Copies the sources of crates into another tree, and their lines of crates.txt."""
    for crate in crates:
        for part in SOURCES:
            copy(os.path.join(folder_of(root, crate), part), os.path.join(folder_of(to, crate), part))
    with open(os.path.join(root, "crates.txt"), encoding="utf-8") as file:
        lines = lines_of(file.read())
    with open(os.path.join(to, "crates.txt"), "w", encoding="utf-8") as file:
        file.writelines(lines[crate] + "\n" for crate in crates)


@contextlib.contextmanager
def alone_in(folder, told=lambda: None):
    """Keeps others out of the folder, as `rt` does; where one is in it, calls `told` and waits."""
    held = os.open(folder, os.O_RDONLY)
    try:
        try:
            fcntl.flock(held, fcntl.LOCK_EX | fcntl.LOCK_NB)
        except BlockingIOError:
            told()
            fcntl.flock(held, fcntl.LOCK_EX)
        yield
    finally:
        os.close(held)


class Room:
    """The room of one crate, which nothing else than its check works in."""

    def __init__(self, root, crate, libraries):
        self.root, self.crate, self.libraries = root, crate, libraries
        self.top = os.path.join(root, "out", "rooms", crate)
        self.folder, self.is_open = folder_of(self.top, crate), False

    def open(self):
        """Makes the room."""
        crates = [*self.libraries, self.crate]
        copy_crates(self.root, self.top, crates)
        for crate in crates:
            copy(library_of(self.root, crate), library_of(self.top, crate), link)
        self.is_open = True
        with alone_in(folder_of(self.root, self.crate)):
            move(kept_of(self.root, self.crate), kept_of(self.top, self.crate))

    def close(self):
        """Gives back what was kept. The library stays in the room until that is removed."""
        if self.is_open:
            with alone_in(folder_of(self.root, self.crate)):
                move(kept_of(self.top, self.crate), kept_of(self.root, self.crate))
            self.is_open = False

    def remove(self):
        self.close()
        shutil.rmtree(self.top, ignore_errors=True)
        with contextlib.suppress(OSError):
            os.rmdir(os.path.dirname(self.top))


def remove_left(root):
    """Removes the rooms of a run that was killed, and puts back what was kept in them."""
    rooms = os.path.join(root, "out", "rooms")
    for crate in os.listdir(rooms) if os.path.isdir(rooms) else []:
        top = os.path.join(rooms, crate)
        if os.path.isdir(folder_of(root, crate)) and not os.path.isdir(kept_of(root, crate)):
            move(kept_of(top, crate), kept_of(root, crate))
        shutil.rmtree(top, ignore_errors=True)
