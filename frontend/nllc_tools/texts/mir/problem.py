"""The problem of a text: that of a MIR text is told by the program, first of what it prints."""

from nllc_tools.base.refusal import Refusal
from nllc_tools.model.facts import Facts
from nllc_tools.texts.facts.reader import read_facts


def is_mir_text(text: bytes) -> bool:
    return text.split(b"\n", 1)[0].split() in ([b"nll-mir", b"1"], [b"nll-mir", b"2"])


def problem_in(printed: str, path: str) -> tuple[Facts, str]:
    """The problem of a MIR text, which the program prints first as a facts text, and what is behind it."""
    head, end, rest = printed.partition("\nend\n")
    if not end:
        raise Refusal("world_program printed no problem of the MIR text", 3)
    facts = read_facts((head + end).encode(), path)
    facts.point_names = {point: remark.text for point, remark in facts.remarks.points.items()}
    return facts, rest
