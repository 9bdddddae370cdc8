"""What to do about a fault, or a loan error whose code has no way out of its own: the usual ways."""

from nllc_tools.base.sentences import Code, Sentence
from nllc_tools.judge.content import Content
from nllc_tools.judge.faults import Fault, LoanFault
from nllc_tools.model.region_names import tick

# Where a later use is what keeps the loan live.
IN_THE_WAY = "or clone what is needed; or keep an index or a key in place of the reference"


def of_fault(content: Content, fault: Fault) -> Sentence:
    """The bound that is lacking, or one lifetime in place of two."""
    facts = content.facts
    said = " ".join(facts.remarks.region(facts.names[region]).text for region in fault[:2])
    sup, sub = tick(facts, fault.sup), tick(facts, fault.sub)
    if "around this closure" in said:
        return ["let the function around the closure have the bound; or keep what is borrowed out of it"]
    if sub == "'static":
        return ["ask for ", Code("'static"), " in the signature; or pass an owned value"]
    if "without a name" in said:
        return ["name both lifetimes in the signature, and write the bound; or write one name for both"]
    return ["consider adding the bound ", Code(f"{sup}: {sub}"), " to the signature; or write ", sub, " in place of ", sup,
            "; or return an owned value"]


def of_loan(content: Content, fault: LoanFault) -> Sentence:
    """How the loan ends before what goes against it."""
    facts, cause = content.facts, fault.cause
    if facts.is_universal(cause.region):
        return ["don’t let the borrow go out of the function: return a copy, an index or a key"]
    use = cause.line(facts)
    here, made = (place.line if place else None for place in (fault.place, fault.loan.place))
    if use is None or here is None or use <= here or made and made > here or fault.is_end():
        return ["end the borrow before; ", IN_THE_WAY]
    clone = "; or clone it, or lend it in place of moving it" if fault.against.way == "moves" else f"; {IN_THE_WAY}"
    return [f"move the use in line {use} above line {here}", clone]
