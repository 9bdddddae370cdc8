"""rustc's errors: which are of its borrow checker, and which function each belongs to."""

from nllc_tools.rustc import error_kinds
from nllc_tools.rustc.dumps import Dump
from nllc_tools.rustc.errors import Error

# At these, what a closure borrows from outside goes away: that is the outer function's.
FROM_OUTSIDE = ("E0373", "E0597")


def is_judged(error: Error) -> bool:
    """Whether it is of a kind that `nllc` and the loans of a text say something of."""
    return error_kinds.is_judged(error.code, error.message)


def own_errors(dump: Dump, dumps: list[Dump], errors: list[Error]) -> list[Error]:
    """The errors of a function that aren't those of a closure inside it."""
    return [error for error in errors if is_own(dump, dumps, error)]


def has_answer(dump: Dump, errors: list[Error]) -> bool:
    """Whether it is answered unasked: a function, or a constant in which rustc has an error."""
    return dump.is_function or any(error.places and is_inside(dump, error) for error in errors)


def is_inside(dump: Dump, error: Error) -> bool:
    """Whether an error stands inside a function, or in a macro that makes all of it."""
    return dump.is_inside(*error.used) or dump.is_of_macro and dump.is_inside(*error.places[0], error.column)


def is_around(dump: Dump, other: Dump) -> bool:
    """Whether another function, which is no closure, is declared inside a function."""
    outer, inner = dump.span, other.span
    return not other.is_closure and outer is not None and inner is not None and outer.file == inner.file \
        and outer.begin < inner.begin and inner.stop < outer.stop


def is_own(dump: Dump, dumps: list[Dump], error: Error) -> bool:
    if not error.places or not dump.has(error.places[0]) and not dump.has(error.used[:2]):
        return False
    inside = [one for one in dumps if is_inside(one, error)]
    closures = [one for one in inside if one.is_closure]
    functions = [one for one in inside if not one.is_closure and dump is not one and one.is_inside(*error.used)]
    if dump.is_closure:
        is_elsewhere = functions and not any(dump.name.startswith(f"{one.name}::") for one in functions)
        return dump in closures and not is_elsewhere \
            and not any(other.name.startswith(f"{dump.name}::") for other in closures)
    if any(is_around(dump, other) for other in functions) or functions and not dump.is_inside(*error.used):
        return False
    return error.code in FROM_OUTSIDE or not any(other.name.startswith(f"{dump.name}::") for other in closures)
