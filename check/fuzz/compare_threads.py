#!/usr/bin/env python3
"""Compares owners in threads with one thread, the baseline and the slow reference, on random texts and cuts.

    check/run owners [--nllc PATH] [--count N] [--seed S] [--save FOLDER]

Of each text, a small facts or MIR text of which every third is changed, the program answers `values` and `check`
with random owners, round-robin, in blocks or by a cut file. Standard output, status and standard error must be
those of `nllc` without owners, of the baseline and of the reference, byte by byte. A text without a fault whose
cut file is refused has the refusal of the slow reader `reference_cut`. Some cut files are hostile: other
headers, faulty lines, changed bytes, another length, owners that there aren't, no file at all. Each text is also
asked for with a number of owners, a deal or mail that there isn't, or two of an option: a usage line. Saves what
differs, and ends with `N compared, M differ`; status 1 where M isn't 0. Arguments may follow PATH.
"""

import os
import random
import sys

import reference
import reference_cut

from comparing import FILE, Comparison, Difference, compare_all, options, write
from random_cut import cut_of, region_count, small_text, spread_words
from text_tables import lines_of

# Options that are refused, whatever the text.
USAGES = [line.decode().split(" ") for line in lines_of("wrong", "owner_options")]


class Case:
    """A text, and with which owners it is asked for."""

    def __init__(self, seed, folder, most):
        rng = random.Random(seed)
        self.text = small_text(rng, 0.33)
        self.regions = region_count(self.text)
        self.owners = min(most, rng.choice([1, 2, 3, 4, rng.randrange(5, 65), 64]))
        self.cut_path = os.path.join(folder, "owners.cut")
        self.cut = None
        self.usage = rng.choice(USAGES)
        self.has_cut = rng.random() < 0.5
        self.words = self.chosen_words(rng)

    def chosen_words(self, rng):
        """The words behind the command, of which one is FILE: options in random order, some of them one word. Some
        that say what is meant anyway are left out."""
        pairs = []
        if self.has_cut:
            if rng.random() < 0.1:
                self.owners = 1
            self.cut = cut_of(rng, self.regions or rng.randrange(1, 9), self.owners)
            pairs.append(["--cut", self.cut_path])
        else:
            deal = rng.choice(["round", "blocks"])
            pairs += [["--deal", deal]] if deal == "blocks" or rng.random() < 0.5 else []
        if self.owners > 1 or not self.has_cut or rng.random() < 0.5:
            pairs.append(["--owners", str(self.owners)])
        if rng.random() < 0.6:
            pairs.append(["--mail", rng.choice(["queue", "ring", "ring"])])
        return spread_words(rng, pairs)

    def refusal(self):
        """For what the cut is refused, or None; it counts where the text has no fault."""
        if not self.has_cut or self.regions is None:
            return None
        return reference_cut.refusal(self.cut_path, self.cut, self.regions, self.owners)


class Owners(Comparison):
    """The answers by owners in threads, and by others."""

    def answers(self, command, case):
        """The answers to one command by the name of who gave them."""
        found = {"nllc without owners": self.ask(self.args.nllc, command),
                 "baseline": self.ask(self.args.baseline, command),
                 "reference": reference.answer(command, case.text)}
        refusal = case.refusal()
        if refusal is not None:
            line = (b"", 2, f"{refusal}\n".encode())
            found = {who: answer if answer[1] == 2 else line for who, answer in found.items()}
        return {"nllc": self.ask(self.args.nllc, command, case.words), **found}

    def differing(self, case):
        """The words on which answers differ and these answers, or None."""
        for command in ("values", "check"):
            found = self.answers(command, case)
            if len(set(found.values())) > 1:
                return [command, *case.words], found
        return self.usage("values", [FILE, *case.usage])

    def difference(self, seed):
        case = Case(seed, self.folder.name, self.args.most)
        write(self.path, case.text)
        write(case.cut_path, case.cut)
        found = self.differing(case)
        return found and Difference(" ".join(found[0]), found[1], {".text": case.text, ".cut": case.cut})


def main():
    parser = options(__doc__, 10_000)
    args = parser.parse_args()
    if not args.nllc:
        parser.error("the following arguments are required: --nllc")
    seeds = (f"threads {args.seed} {number}" for number in range(args.count))
    return compare_all(Owners, args, seeds, lambda number: f"threads-{args.seed}-{number}", 16)


if __name__ == "__main__":
    sys.exit(main())
