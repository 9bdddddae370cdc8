"""How lifetimes that the signature gives no name are called: as rustc calls them, `'1` and `'2`, and where they stand."""

import re
from typing import Iterable, Optional

from nllc_tools.base.grouping import grouped
from nllc_tools.base.sentences import Code, Sentence, joined, ticked
from nllc_tools.judge.as_rustc.counterparts import is_called, pair_of
from nllc_tools.judge.content import Content
from nllc_tools.judge.faults import AnyFault, Fault, LoanFault
from nllc_tools.model.facts import Facts
from nllc_tools.model.region_names import tick
from nllc_tools.model.said import Error, Label
from nllc_tools.texts.source import Source, line_of, snippet

HERE = r"let's call (?:the lifetime of this reference|this) `('\d+)`"
TYPE = r"has type `(.*'\d+.*)`"
BORROWED_FOR = r"borrowed for `('\w+)`"
OF_VARIABLE = r"the type of (\w+)(?:: (.*?))?(?:;|$)"
MOST_LETTERS = 120


class Lifetimes:
    """The names of the lifetimes of one fault, of which an error of rustc may say more."""

    def __init__(self, content: Content, fault: Optional[AnyFault] = None, error: Optional[Error] = None):
        self.facts, self.source = content.facts, content.source
        self.labels = error.labels if error else []
        self.called = names_of(content.facts, fault, error) if error else {}

    def name(self, region: int) -> Sentence:
        """A lifetime by its name; one without a name by rustc's, or by the variable whose type has it alone."""
        own: Sentence = [tick(self.facts, region)]
        if not is_nameless(self.facts, region):
            return own
        if region in self.called:
            return [Code(self.called[region])]
        variable = self.variable(region)
        if variable and len(lifetimes_in(variable[2])) < 2:
            return ["the lifetime in the type of ", Code(variable[1])]
        return own if variable else ["the lifetime ", *own]

    def variable(self, region: int) -> Optional[re.Match[str]]:
        """The variable in whose type a lifetime is that has no name, and the type."""
        return re.search(OF_VARIABLE, remark_of(self.facts, region)) if is_nameless(self.facts, region) else None

    def places(self, *regions: int) -> Sentence:
        """Where those of the regions stand whose names the source doesn't have: a sentence, or nothing."""
        names = {self.called[region] for region in regions if region in self.called}
        variables = (self.variable(region) for region in dict.fromkeys(regions) if region not in self.called)
        return joined([*(self.of_rustc(names) if names else ()),
                       *(["the type of ", Code(one[1]), " is ", Code(one[2])] for one in variables
                         if one and len(lifetimes_in(one[2])) > 1)], "; ", "; ")

    def of_rustc(self, names: set[str]) -> list[Sentence]:
        """Where rustc says that they are: lines of the source with the names put in, and types of variables."""
        put: list[Label] = []
        said: list[Sentence] = []
        for place, words in self.labels:
            if (here := re.search(HERE, words)) and here[1] in names:
                put.append(Label(place, here[1]))
            elif (kind := re.search(TYPE, words)) and not names.isdisjoint(lifetimes_in(kind[1])):
                said.append(["the type of ", Code(snippet(self.source, place)), " is ", Code(kind[1])])
            elif not names.isdisjoint(re.findall(r"`('\d+)`", words)) \
                    and "must outlive" not in words and not re.search(BORROWED_FOR, words):
                said.append([f"line {place.line}: ", *ticked(words)])
        lines = sorted(grouped((one.place.line, one) for one in put).items())
        named: list[Sentence] = [[f"line {line} with names: ", Code(code)] for line, its in lines
                                 if (code := named_line(self.source, line, its))]
        return named + said


def lifetimes_in(text: Optional[str]) -> list[str]:
    return re.findall(r"'\w+", text or "")


def remark_of(facts: Facts, region: int) -> str:
    return facts.remarks.region(facts.names[region]).text


def is_nameless(facts: Facts, region: int) -> bool:
    said = remark_of(facts, region)
    return "without a name" in said or "of the function around" in said and facts.names[region].startswith("r")


def names_of(facts: Facts, fault: Optional[AnyFault], error: Error) -> dict[int, str]:
    """What rustc calls the lifetimes of a fault."""
    pairs: Iterable[tuple[int, str]] = ()
    if isinstance(fault, LoanFault):
        found = (re.search(BORROWED_FOR, label.words) for label in error.labels)
        pairs = [(fault.cause.region, one[1]) for one in found if one][:1]
    elif isinstance(fault, Fault):
        pairs = zip(fault[:2], pair_of(error) or ())
    return {region: name for region, name in pairs
            if name[1:].isdigit() and is_nameless(facts, region) and is_called(facts, region, name)}


def named_line(source: Optional[Source], line: int, names: Iterable[Label]) -> str:
    """A line of the source with the names put in, behind each `&` or in place of each `'_`."""
    code = line_of(source, line) or ""
    for place, name in sorted(names, reverse=True):
        there = code[place.column - 1:place.end - 1]
        put = name if there == "'_" else f"{there}{name} " if there == "&" else f"{there}<{name}>"
        code = code[:place.column - 1] + put + code[place.end - 1:]
    code = code.strip()
    return code if len(code) <= MOST_LETTERS else code[:MOST_LETTERS - 3] + " .."
