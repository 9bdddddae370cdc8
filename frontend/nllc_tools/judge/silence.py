"""Whether nothing is told of a text: found of what `nllc` prints and of a few remarks, without the work for a page.

That is of texts as texts.facts writes them. What something may be told of is looked at in full.
"""

import re
from typing import NamedTuple, Optional

from nllc_tools.base import nllc
from nllc_tools.base.grouping import grouped
from nllc_tools.judge.as_rustc.loan_faults import in_force
from nllc_tools.model.facts import Facts
from nllc_tools.texts.facts.remark_reader import RemarkReader

TELLING = rb"(?m)^# (?:gone|needs|rustc) "
AGAINST = r"(?m)^# against (\d+), .*: ([\d ]+)$"
LOAN = r"(?m)^# loan (\d+): '(\w+) at (\d+), "
KILLED = r"(?m)^# killed (\d+): ([\d ]+)$"
NEXT = r"(?m)^next (\d+) (\d+)$"
HEAD = rb"nll-facts.*\n(?:#.*\n)*"
REGION = rb"(?m)^# region .*$"


class Silence(NamedTuple):
    """Whether a text has no error of rustc, no fault, and no loan that something goes against while it is live; and what
    `nllc` has printed of it, if that was asked for."""

    is_silent: bool
    report: Optional[nllc.Report] = None


def silence_of(text: bytes) -> Silence:
    if re.search(TELLING, text):
        return Silence(False)
    if b"\n# against " not in text:
        return Silence(not nllc.has_faults(text))
    report = nllc.run(text)
    return Silence(not report.faults and not is_against_live(text.decode(), report.values), report)


def is_against_live(text: str, values: str) -> bool:
    """Whether a point at which something goes against a loan is one at which the loan is live."""
    against = grouped((number, int(point)) for point, numbers in re.findall(AGAINST, text) for number in numbers.split())
    killed = {number: set(map(int, points.split())) for number, points in re.findall(KILLED, text)}
    following = grouped((int(point), int(successor)) for point, successor in re.findall(NEXT, text))
    held = dict(line.partition(":")[::2] for line in values.splitlines())
    for number, region, at in re.findall(LOAN, text):
        if number in against and f"'{region}" not in held:
            return True
        inside = {int(element) for element in held[f"'{region}"].split() if element.isdigit()} if number in against else set()
        points = inside.intersection(against.get(number, ()))
        if points and not points.isdisjoint(
                in_force(lambda point: following.get(point, ()), inside, int(at), killed.get(number, ()))):
            return True
    return False


def facts_of(text: bytes) -> Facts:
    """What is said of the function of such a text: its name and source, and where these need them its regions."""
    reader = RemarkReader()
    head = re.match(HEAD, text)
    regions = re.findall(REGION, text) if b"{closure#" in text else []
    for line in [*(head[0].splitlines() if head else ()), *regions]:
        reader.read(line.decode())
    return Facts(remarks=reader.remarks)
