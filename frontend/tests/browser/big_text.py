#!/usr/bin/env python3
"""Writes a facts text of about so many points, as of a function with branches, loops and calls.

    big_text.py POINTS [SEED]

The text is for looking at pages: it has remark lines, and is no account of any function. Each call
may unwind to one block at the end. Regions are live on a stretch of points and feed the next one,
as references do that are handed on; the last one is handed out, so that there is a fault.
"""

import random
import sys

CALLS = ["len", "push", "get", "split_at", "next", "insert", "as_str"]


class Function:
    """Points as they are made, in order."""

    def __init__(self, draw):
        self.draw = draw
        self.words = []
        self.edges = []
        self.unwinding = []
        self.line = 3

    def point(self, words, after):
        """A further point behind these ones; its number."""
        number = len(self.words)
        self.words.append((self.line, words))
        self.edges += [(before, number) for before in after]
        return number

    def straight(self, after, most):
        for _ in range(self.draw.randint(1, most)):
            at = len(self.words)
            self.line += self.draw.random() < 0.5
            if self.draw.random() < 0.3:
                call = self.point(f"_{at} = {self.draw.choice(CALLS)}(move _{at - 1})", after)
                self.unwinding.append(call)
                after = [call]
            else:
                after = [self.point(f"_{at} = &'r{at // 20} (*_{max(at - 3, 1)})", after)]
        return after

    def body(self, after, budget, depth):
        """Statements, branches and loops until so many points are made."""
        stop = len(self.words) + budget
        while len(self.words) < stop:
            after = self.straight(after, min(14, stop - len(self.words)))
            kind = self.draw.random()
            if stop - len(self.words) < 8:
                continue
            if depth < 5 and kind < 0.5:
                after = self.branch(after, min(stop - len(self.words), budget // 2), depth)
            elif depth < 5 and kind < 0.65:
                after = self.loop(after, min(stop - len(self.words), budget // 3), depth)
        return after

    def branch(self, after, budget, depth):
        at = self.point("switchInt(move _4)", after)
        arms = self.draw.choice([2, 2, 2, 3, 5])
        ends = [end for _ in range(arms)
                for end in self.body([at], max(budget // arms, 2), depth + 1)]
        return [self.point("goto", ends)]

    def loop(self, after, budget, depth):
        head = self.point("_7 = next(copy _6)", after)
        for end in self.body([head], max(budget, 3), depth + 1):
            self.edges.append((end, head))
        return [head]


def facts_text(points, seed):
    draw = random.Random(seed)
    function = Function(draw)
    end = function.body([], points, 0)
    back = function.point("return", end)
    resume = function.point("resume", function.unwinding)
    count = len(function.words)
    regions = (count - 2) // 20 + 1
    lines = ["nll-facts 1", "# function: big", f"points {count}"]
    lines += [f"# point {n}: line {line}: {words} (bb{n // 9}[{n % 9}])"
              for n, (line, words) in enumerate(function.words)]
    lines += ["# region 'a: line 2: 'a of the signature", "universal 'a", "universal 'b"]
    for n in range(regions):
        lines += [f"# region 'r{n}: line {function.words[n * 20][0]}: the borrow in _{n * 20}",
                  f"region 'r{n}"]
    lines += [f"next {p} {q}" for p, q in sorted(set(function.edges))]
    lines += [f"return {back}", f"return {resume}"]
    for n in range(regions):
        lines += [f"base 'r{n} {p}" for p in range(n * 20, min(n * 20 + 45, back))
                  if draw.random() < 0.93]
    lines += [f"constraint 'r{n} 'r{n + 1} {n * 20 + 20}" for n in range(regions - 1)]
    lines += [f"constraint 'r{regions - 1} 'a {back}", f"constraint 'b 'r{regions - 1} {back}",
              "end", ""]
    return "\n".join(lines)


if __name__ == "__main__":
    sys.stdout.write(facts_text(int(sys.argv[1]), int(sys.argv[2]) if len(sys.argv) > 2 else 1))
