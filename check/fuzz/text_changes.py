"""Changes of texts: each small one of a text, and such as are drawn by lot."""

import re

BYTES = [0, 9, 10, 13, 32, 35, 39, 45, 48, 57, 62, 127, 128, 195, 255]


def replaced(text, start, end, piece):
    return text[:start] + piece + text[end:]


def spans(pattern, text):
    return [match.span() for match in re.finditer(pattern, text)]


def byte_changes(text):
    """Each beginning of a text, and each text with one byte taken out, put in or replaced."""
    yield from (text[:k] for k in range(len(text)))
    for at in range(len(text)):
        yield replaced(text, at, at + 1, b"")
        for byte in BYTES:
            yield replaced(text, at, at + 1, bytes([byte]))
            yield replaced(text, at, at, bytes([byte]))


def line_changes(text):
    """Each text with one line taken out, put in elsewhere too, or swapped with another."""
    lines = text.split(b"\n")
    for i in range(len(lines)):
        yield b"\n".join(lines[:i] + lines[i + 1:])
        for j in range(len(lines)):
            yield b"\n".join(lines[:i] + [lines[j]] + lines[i:])
        for j in range(i):
            yield b"\n".join(lines[:j] + [lines[i]] + lines[j + 1:i] + [lines[j]] + lines[i + 1:])


def change_bytes(rng, text):
    at = rng.randrange(len(text) + 1)
    pieces = [bytes([byte]) for byte in BYTES] + [b"\xc3\xa9", b"\xed\xa0\x80", b"'", b""]
    piece = rng.choice(pieces)
    return replaced(text, at, min(len(text), at + rng.randrange(2)), piece)


def change_lines(rng, text, wrong):
    """Drops, doubles, moves or swaps lines, or puts in a wrong one."""
    lines = text.split(b"\n")
    ends = [0, 1, 2, len(lines) - 2, len(lines) - 1]
    i, j = rng.choice([ends, range(len(lines))]), rng.choice([ends, range(len(lines))])
    i, j = rng.choice(i) % len(lines), rng.choice(j) % len(lines)
    kind = rng.randrange(6)
    if kind == 0:
        del lines[i]
    elif kind == 1:
        lines.insert(j, lines[i])
    elif kind == 5:
        lines.insert(i, lines[i])
    elif kind == 2:
        lines.insert(j, lines.pop(i))
    elif kind == 3:
        lines[i], lines[j] = lines[j], lines[i]
    else:
        lines.insert(i, rng.choice(wrong))
    return b"\n".join(lines)


def changed(rng, text, cut, kinds):
    """A text with one to three changes, each a function of a list; before each it's cut off as often as is said."""
    for _ in range(rng.choice([1, 1, 1, 2, 3])):
        if rng.random() < cut:
            text = text[:rng.randrange(len(text) + 1)]
        text = rng.choice(kinds)(rng, text)
    return text

