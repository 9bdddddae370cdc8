"""Which errors of rustc are told: those that `nllc` and the loans of a text say something of, by code, or by words where they
have none; and those of moves and assignments, by rustc's tables."""

LOANS = ("E0499", "E0502", "E0503", "E0505", "E0506", "E0510", "E0515", "E0597", "E0713", "E0716",
         "E0373", "E0500", "E0501", "E0524")
MOVES = ("E0381", "E0382", "E0384")
LIFETIMES = ("E0521", "E0621")
NAMELESS = ("lifetime may not live long enough", "captured variable cannot escape `FnMut` closure body")


def is_of_lifetimes(code: str, message: str) -> bool:
    return code in LIFETIMES or not code and message.startswith(NAMELESS)


def is_judged(code: str, message: str) -> bool:
    return code in LOANS or is_of_lifetimes(code, message)
