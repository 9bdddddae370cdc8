"""All findings of a function: faults, loan errors, and errors of moves and assignments."""

from functools import lru_cache

from nllc_tools.judge.content import Content
from nllc_tools.judge.findings.finding import Finding
from nllc_tools.judge.findings.lifetime_findings import of_faults
from nllc_tools.judge.findings.loan_findings import of_loan
from nllc_tools.judge.findings.move_findings import of_gone
from nllc_tools.model.said import Place


@lru_cache(2)    # a page asks for them several times
def all_of(content: Content) -> list[Finding]:
    """Faults, loans, and errors of moves and assignments, in the order of their places."""
    found = [*of_faults(content), *(of_loan(content, one) for one in content.loans),
             *(of_gone(content, one) for one in content.beside.gone)]
    return sorted(found, key=lambda one: one.place or Place(0, 0, 0, 0))
