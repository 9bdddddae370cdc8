"""The findings of a page, faults and loan errors with their chains; what rustc refuses and `nllc` doesn't, with the reason;
what nothing here judges."""

from typing import Sequence

from nllc_tools.base.sentences import Code, Sentence, ticked
from nllc_tools.judge import asking_statements, chain_sentences
from nllc_tools.judge.content import Content
from nllc_tools.judge.differences import differences, refused
from nllc_tools.judge.faults import Fault, LoanFault
from nllc_tools.judge.findings import advice, lifetime_findings, loan_findings, move_findings
from nllc_tools.judge.findings.finding import HELP, Finding
from nllc_tools.views.html.parts.chain_list import chain_of_fault, chain_of_loan, code_at
from nllc_tools.views.html.writing import line_link, section, sentence, text

HEADS = {"help": "rustc’s help", "invariant": "Invariance"}


def finding_list(content: Content) -> str:
    """The parts of the page; the first fault or loan error is open."""
    faults = "".join(fault_item(content, fault, number == 0) for number, fault in enumerate(content.faults))
    loans = "".join(loan_item(content, fault, number == 0 and not faults) for number, fault in enumerate(content.loans))
    moves = "".join(item(one.place.line, f"{one.code}: {sentence(told.head)}", sentence(told.cause))
                    for one in content.beside.gone for told in [move_findings.of_gone(content, one)])
    differing = "".join(item(one.error.line, sentence(ticked(one.error.words)), f"nllc: no fault there; {sentence(one.why)}")
                        for one in differences(content))
    others = "".join(item(one.line, sentence(ticked(one.words)), "nllc doesn’t check this") for one in refused(content))
    return (section("faults", "Faults", faults) + section("faults loans", "Loan errors", loans)
            + section("faults", "Moves and assignments", moves) + section("faults differs", "rustc refuses, nllc doesn’t", differing)
            + section("faults differs", "rustc refuses for a reason that nllc doesn’t check", others))


def item(line: int, said: str, why: str) -> str:
    return f'<div class="fault"><p class="head">{line_link(line)}: {said}</p><p class="where">{why}.</p></div>'


def fault_item(content: Content, fault: Fault, is_open: bool) -> str:
    finding, advised = lifetime_findings.of_fault(content, fault), advice.of_fault(content, fault)
    so = sentence(chain_sentences.conclusion(content.facts, fault.sup, fault.sub))
    return opened(is_open, sentence(finding.head), f"{told(content, fault)}{more_part(finding, advised)}"
                  f'{chain_of_fault(content, fault)}<p class="so">{so}</p>')


def loan_item(content: Content, fault: LoanFault, is_open: bool) -> str:
    finding = loan_findings.of_loan(content, fault)
    line = f"{line_link(finding.place.line)}: " if finding.place else ""
    return opened(is_open, f"{text(fault.code)}: {sentence(finding.head)}",
                  f'<p class="where">{line}{sentence(finding.cause)}.</p>{more_part(finding, loan_findings.advised(content, fault))}'
                  f"{chain_of_loan(content, fault)}")


def opened(is_open: bool, head: str, inside: str) -> str:
    return f'<details class="fault"{" open" if is_open else ""}><summary>{head}</summary>{inside}</details>'


def told(content: Content, fault: Fault) -> str:
    """The fault in one sentence, by the lines of the source where its chain begins and ends."""
    sup, sub = (sentence(name) for name in lifetime_findings.names_of(content, fault))
    lines = [line for step in reversed(fault.steps) for line in asking_statements.arising(content.facts, [step])]
    if not lines and not content.facts.remarks.points:
        return ('<p class="where">The text doesn’t say which statements its points are. '
                "<code>nllc.sh facts</code> writes remark lines that do.</p>")
    way = f"has to live for {sub}"
    if lines and lines[0] == lines[-1]:
        way += f" at {placed(content, lines[0])}"
    elif lines:
        way = f"enters at {placed(content, lines[0])}, and at {placed(content, lines[-1])}, it {way}"
    return f'<p class="told">Data that lives for {sup} {way}; nothing declares that {sup} outlives {sub}.</p>'


def placed(content: Content, line: int) -> str:
    """A line as a link, with what stands there."""
    code = code_at(content, line)
    return line_link(line) + (f", <code>{text(code)}</code>" if code else "")


def more_part(finding: Finding, advised: Sentence) -> str:
    """What to do, and what else is said: where lifetimes without a name stand, variance, and rustc's help."""
    more = "".join(f'<p class="more">{more_line(sentence(parts))}.</p>' for parts in finding.more
                   if not is_advised(parts, advised))
    return f'<p class="advice"><b>What to do</b>: {sentence(advised)}.</p>{more}'


def is_advised(parts: Sequence[str], advised: Sentence) -> bool:
    """Whether a help is what is advised already, or its code, such as a bound, is there."""
    codes = [part for part in parts if isinstance(part, Code)]
    return parts[0] == HELP and (parts[1:] == advised or bool(codes) and all(one in advised for one in codes))


def more_line(said: str) -> str:
    head, mark, rest = said.partition(": ")
    return f"<b>{HEADS[head]}</b>: {rest}" if mark and head in HEADS else said[:1].upper() + said[1:]
