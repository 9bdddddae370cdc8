"""Which crates are proved next, and how many processes each of their checks may have.

A crate is proved once those that it uses are. All take no less than the longest chain of crates that stand one on
the other, so the crate with the most lines from it up to the program goes first, and gets half of the processors;
the others share what is left. More processes than half make one check shorter still, but two take some 31 % more
processor time in all than one does, four 45 %.

Python 3.8 is enough for this module, as for `rt`.
"""

import os

from crates import below, files_in


def lines_in(root, crate):
    """The lines of the crate's code, which tell roughly how long its check takes."""
    total = 0
    for path in files_in(os.path.join(root, "crates", crate, "src"), ".rt"):
        with open(path, "rb") as file:
            total += file.read().count(b"\n")
    return total


def ahead_of(uses, lines):
    """For each of these crates the lines of the longest chain from it up, its own among them."""
    ahead = dict(lines)
    for crate in sorted(lines, key=lambda crate: -len(below(uses, crate))):
        for used in uses[crate]:
            ahead[used] = max(ahead[used], lines[used] + ahead[crate])
    return ahead


def at_once(number):
    """How many processes there are for so many processors: a check has one alone when it begins and when it ends."""
    return number + number // 4


def shares(ready, running, number, ahead):
    """The crates that begin now, with the processes of each, where these are ready and those have so many already."""
    free, begun = at_once(number) - sum(running.values()), {}
    ready = sorted(ready, key=lambda crate: -ahead[crate])
    longest = max([ahead[crate] for crate in [*ready, *running]], default=0)
    for at, crate in enumerate(ready):
        if free > 0:
            half = max(1, number // 2)
            least, most = (half, number) if ahead[crate] == longest else (1, half)
            begun[crate] = min(free, most, max(least, free // (len(ready) - at)))
            free -= begun[crate]
    return begun
