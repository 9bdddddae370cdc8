"""A facts text whose constraints hold at all points, as rustc's own solver takes them."""

import re

CONSTRAINT = re.compile(rb"[ \t\r]*constraint[ \t\r]*('\w+)[ \t\r]*('\w+)[ \t\r]+\w+[ \t\r]*")


def at_all_points(data: bytes) -> bytes:
    """The text with each pair of regions of its constraints once, at all points."""
    header, *lines = data.split(b"\n")
    kept, seen = [b"nll-facts 2" if header.split()[:1] == [b"nll-facts"] else header], set()
    for line in lines:
        found = CONSTRAINT.fullmatch(line)
        if not found:
            kept.append(line)
        elif found.groups() not in seen:
            seen.add(found.groups())
            kept.append(b"constraint %s %s all" % found.groups())
    return b"\n".join(kept)
