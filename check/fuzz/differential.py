#!/usr/bin/env python3
"""Compares programs on random and on changed small facts texts, or MIR texts with `--mir`.

    check/run facts|mir [--nllc PATH] [--count N] [--seed S] [--reference]
    check/run facts|mir [--nllc PATH] --every FILE | --limits
    check/run mir [--nllc PATH] --hostile [--reference]

Runs `PATH values FILE` and `PATH check FILE`, and the baseline, and compares standard output,
status and standard error byte by byte. With `--reference` the slow reference is compared too;
with `--nllc ''` it alone, and then on the counts of `read` and `problem` as well. The first half
of the texts has no change. `--every` takes each small change of a text in place of random texts;
`--limits` takes the texts at the limits of the format, `--hostile` MIR texts whose types are deep
or would grow without end. A text on which two answers differ is saved, after lines that don't
matter were taken out of it. Arguments may follow PATH, as in `--baseline 'PATH --runs'`.
Ends with `N compared, M differ`; status 1 where M isn't 0.
"""

import pathlib
import random
import sys

import reference

import small_facts
import small_mir
from comparing import Comparison, Difference, compare_all, options, without_lines, write
from limits import HOSTILE, LIMITS


class Programs(Comparison):
    """The answers of all programs to one text."""

    def answers(self, command, text):
        """The answers to one command by the name of who gave them."""
        write(self.path, text)
        found = {"baseline": self.ask(self.args.baseline, command)}
        if self.args.nllc:
            found["nllc"] = self.ask(self.args.nllc, command)
        if self.args.reference:
            found["reference"] = reference.answer(command, text)
        return found

    def differing(self, text):
        """The command on which answers differ and these answers, or None."""
        counts = () if self.args.nllc else ("read", "problem")
        for command in counts + ("values", "check"):
            found = self.answers(command, text)
            if len(set(found.values())) > 1:
                return command, found
            if found["baseline"][1] == 2 and command == "values" and len(text) % 8:
                break
        return None

    def difference(self, text):
        """What answers differ on, with the text made small."""
        found = self.differing(text)
        if found is None:
            return None
        small = without_lines(text, self.differing) if text.count(b"\n") < 2_000 else text
        again = self.differing(small)
        command, answers = again or found
        return Difference(command, answers, {".mir" if self.args.mir else ".facts": small if again else text})


def texts(args):
    """The texts to compare on."""
    source = small_mir if args.mir else small_facts
    if args.every:
        text = pathlib.Path(args.every).read_bytes()
        yield text
        yield from source.mutations(text)
    elif args.limits or args.hostile:
        found = LIMITS["mir" if args.mir else "facts"] if args.limits else HOSTILE
        yield from (text for _, text, _ in found())
    else:
        for number in range(args.count):
            rng = random.Random(f"{args.seed} {number}")
            text = source.small(rng)
            yield text if number * 2 < args.count else source.mutant(rng, text)


def words():
    parser = options(__doc__, 10_000, 10.0)
    parser.add_argument("--mir", action="store_true", help="MIR texts in place of facts texts")
    parser.add_argument("--reference", action="store_true", help="compare the reference too")
    parser.add_argument("--every", metavar="FILE", help="each small change of this text")
    parser.add_argument("--limits", action="store_true", help="texts at the limits")
    parser.add_argument("--hostile", action="store_true", help="MIR texts with hostile types")
    args = parser.parse_args()
    if args.limits and args.reference:
        parser.error("the reference is for small texts: no --limits")
    if args.hostile and not args.mir:
        parser.error("--hostile is for --mir")
    if not args.nllc and not args.reference:
        parser.error("nothing to compare: --nllc PATH, --reference or both")
    return args


def main():
    args = words()
    chunk = 1 if args.limits or args.hostile else 32
    return compare_all(Programs, args, texts(args), lambda number: f"{number + 1:06}", chunk)


if __name__ == "__main__":
    sys.exit(main())
