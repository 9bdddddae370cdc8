#!/usr/bin/env python3
"""Compares owners that one thread drives with the solver, on random facts texts.

    check/run turns [--program PATH] [--count N] [--seed S] [--save FOLDER]

PATH is what bench/programs/owner_program.sh builds. A text is a small one, or one of up to a hundred
regions. Its regions are assigned to 1 to 64 owners, mostly at random, and then the owners take random
turns before they settle. Counts of elements and digests of the values are compared. Saves each text
on which they differ, and ends with `N compared, M differ`; status 1 where M isn't 0.
"""

import random
import sys

import small_facts
from comparing import Comparison, Difference, compare_all, ended, options, write


def random_words(rng):
    """How regions are dealt to how many owners, and how these are driven."""
    order = rng.choice(["owners", "owners", "turns"])
    deal = rng.choice(["round", "blocks"] + 6 * [str(rng.randrange(1 << 32))])
    return [order, deal, str(rng.choice([1, 2, 3, 4, rng.randrange(5, 65), 64]))]


class Turns(Comparison):
    """What the program tells of the values by its solver and by owners."""

    def told(self, words):
        """What a run tells of the values, its status and standard error."""
        out, status, err = ended([self.args.program, self.path, *words], self.args.seconds)
        numbers = dict(zip(out.split()[::2], out.split()[1::2]))
        return b" ".join(numbers.get(name, b"nothing") for name in (b"elements", b"digest")), status, err

    def difference(self, seed):
        rng = random.Random(seed)
        text = small_facts.small(rng) if rng.random() < 0.5 else small_facts.crowded(rng)
        write(self.path, text)
        words = random_words(rng)
        found = {"solver": self.told(["solve"]), "owners": self.told(words)}
        if found["solver"] == found["owners"] and found["solver"][1] == 0:
            return None
        return Difference(" ".join(words), found, {".facts": text})


def main():
    parser = options(__doc__, 3_000, 60.0)
    parser.add_argument("--program", required=True)
    args = parser.parse_args()
    seeds = (f"{args.seed} {number}" for number in range(args.count))
    return compare_all(Turns, args, seeds, lambda number: f"owners-{args.seed}-{number}")


if __name__ == "__main__":
    sys.exit(main())
