"""What the tests of pages share: small texts, values of the slow reference, random problems."""

import os
import random
from html.parser import HTMLParser

from paths import EXAMPLES, ROOT, TESTS  # noqa: F401 (others have them from here)

import reference
from rooms import Room

from nllc_tools.base import nllc
from nllc_tools.judge.content import Content, explained
from nllc_tools.model.faults import faults
from nllc_tools.texts.facts.reader import read_facts
from nllc_tools.texts.facts.values import read_values

SAMPLES = os.path.join(TESTS, "page_samples")


def text(points, *lines, version=1):
    return "\n".join([f"nll-facts {version}", f"points {points}", *lines, "end", ""]).encode()


def facts_of(points, *lines):
    return read_facts(text(points, *lines), "TEXT")


def solved(data):
    """Facts and values of a text, the values as the reference prints them."""
    facts = read_facts(data, "TEXT")
    report, status, _ = reference.answer("values", data)
    assert status == 0
    return facts, read_values(report.decode(), facts, "REPORT")


def content_of(facts, values, source=None, path="TEXT", origin="nllc.sh", standing=nllc.PROVED):
    """What a page shows of a problem with these values, with the chains of its faults."""
    found = explained(facts, values, faults(facts, values), origin)
    return Content(facts, values, found, path, source, origin, standing)


class Markup(HTMLParser):
    """The elements of a page, its attributes, scripts and text; which elements stay open, and which ends fit none."""

    VOID = {"meta", "link", "input", "rect", "path", "br"}

    def __init__(self, made):
        super().__init__()
        self.tags, self.attributes, self.scripts, self.text, self.open, self.wrong = [], [], [], [], [], []
        self.inside = None
        self.feed(made)

    def handle_starttag(self, tag, attributes):
        self.handle_startendtag(tag, attributes)
        self.open += [tag] if tag not in self.VOID else []
        self.inside = tag

    def handle_startendtag(self, tag, attributes):
        self.tags.append(tag)
        self.attributes += attributes
        self.inside = None

    def handle_endtag(self, tag):
        self.inside = None
        if self.open[-1:] == [tag]:
            self.open.pop()
        else:
            self.wrong.append((tag, self.open[-3:]))

    def handle_data(self, data):
        (self.scripts if self.inside == "script" else self.text).append(data)

    def values(self, name):
        """What attributes of that name are."""
        return [value for own, value in self.attributes if own == name]


def file_bytes(*path):
    with open(os.path.join(*path), "rb") as file:
        return file.read()


def random_text(seed, places=()):
    """A small problem with loops, several returns and named lifetimes; many of them have faults.
    Beside the points, its constraints hold at these places.
    """
    draw = random.Random(seed)
    points = draw.randint(1, 9)
    universals = [f"u{n}" for n in range(draw.randint(1, 3))]
    regions = [f"r{n}" for n in range(draw.randint(0, 4))]
    names = ["static"] + universals + regions
    lines = [f"universal '{name}" for name in universals]
    lines += [f"outlives '{draw.choice(universals)} '{draw.choice(universals)}"
              for _ in range(draw.randint(0, 1))]
    lines += [f"region '{name}" for name in regions]
    lines += [f"next {p} {p + 1}" for p in range(points - 1) if draw.random() < 0.85]
    lines += [f"next {draw.randrange(points)} {draw.randrange(points)}"
              for _ in range(draw.randint(0, 4))]
    lines += [f"return {draw.randrange(points)}" for _ in range(draw.randint(1, 2))]
    lines += [f"base '{name} {p}" for name in regions for p in range(points) if draw.random() < 0.6]
    places = [*range(points), *places]
    lines += [f"constraint '{draw.choice(names)} '{draw.choice(names)} {draw.choice(places)}"
              for _ in range(draw.randint(1, 9))]
    return text(points, *lines, version=2)


class Folder(Room):
    """Each test has a folder of its own; `nllc` is a script there that runs the reference."""

    def setUp(self):
        super().setUp()
        self.slow()
