"""What texts of every format share: lines, tokens, numbers, kinds of fault, and which is told."""

LIMIT_TEXT = 67_108_864
LIMIT_POINTS = 1_048_576
LIMIT_EDGES = 4_194_304
LIMIT_REGIONS = 65_536
LIMIT_UNIVERSALS = 256
LIMIT_CONSTRAINTS = 1_048_576
LIMIT_VARIABLES = 65_536
LIMIT_STRUCTS = 1_024
LIMIT_NODES = 4_096

BLANKS = b" \t\r"
DIGITS = b"0123456789"
CAPITALS = b"ABCDEFGHIJKLMNOPQRSTUVWXYZ"
LETTERS = CAPITALS + b"abcdefghijklmnopqrstuvwxyz"
WORD_BYTES = LETTERS + DIGITS + b"_"
SIGNS = b"=&()<>,:.*+?-"

# The kinds of fault, in the order in which the first of several in one line is told.
KINDS = [
    "not utf-8", "header", "syntax", "unknown", "duplicate", "range", "shape", "type size",
    "limit points", "limit edges", "limit universals", "limit regions", "limit constraints",
    "limit variables", "limit structs", "end",
]


class Refused(Exception):
    """A refusal, by its line on standard error."""


def refused(line, kind):
    return Refused(f"nllc: line {line}: {kind}")


def lines_of(text):
    """The pieces between line feeds, where one at the very end parts nothing."""
    return text.removesuffix(b"\n").split(b"\n")


def is_utf8(line):
    try:
        line.decode("utf-8", "strict")
        return True
    except UnicodeDecodeError:
        return False


def tokens_of(line):
    """The tokens of a line as (class, bytes), or None where a byte belongs to none."""
    tokens = []
    at = 0
    while at < len(line):
        byte = line[at]
        length = 1
        if byte in WORD_BYTES or byte == ord("'"):
            while at + length < len(line) and line[at + length] in WORD_BYTES:
                length += 1
        if byte in WORD_BYTES:
            tokens.append(("word", line[at:at + length]))
        elif byte == ord("'") and length > 1:
            tokens.append(("region", line[at + 1:at + length]))
        elif line[at:at + 2] == b"->":
            length = 2
            tokens.append(("arrow", b"->"))
        elif byte in SIGNS:
            tokens.append(("sign", line[at:at + 1]))
        elif byte not in BLANKS:
            return None
        at += length
    return tokens


def number_of(word):
    """The number that a word is: below 10^9 and spelled as it is printed."""
    if not 0 < len(word) <= 9 or not all(byte in DIGITS for byte in word):
        return None
    return int(word) if word == b"%d" % int(word) else None


def is_header(line, name, version=b"1"):
    runs = line.replace(b"\t", b" ").replace(b"\r", b" ").split(b" ")
    return [run for run in runs if run] == [name, version]


def is_skipped(line):
    rest = line.lstrip(BLANKS)
    return rest == b"" or rest.startswith(b"#")


def read(text, said):
    """Adds to an empty `said` what a text of its format says; raises at the first faulty line.

    `said` has the name and the version in the header, `form_of` a line, all `faults` of a form,
    `add` for a form without a fault, and whether a form or what was said `ends` the text.
    """
    if len(text) > LIMIT_TEXT:
        raise refused(1, "limit text")
    lines = lines_of(text)
    for number, line in enumerate(lines, 1):
        kinds = set()
        form = None
        if not is_utf8(line):
            kinds.add("not utf-8")
        if number == 1:
            if not is_header(line, said.HEADER, said.version):
                kinds.add("header")
        elif not is_skipped(line):
            form = said.form_of(line)
            kinds |= {"syntax"} if form is None else said.faults(form)
        if number == len(lines) and not said.ends(form):
            kinds.add("end")
        if kinds:
            raise refused(number, min(kinds, key=KINDS.index))
        if form is not None:
            said.add(form)
    return said


class Listing:
    """A text of version 1 that may stop behind any line; what the lines so far said, one after the other."""

    version = b"1"

    def __init__(self):
        self.said = []

    def ends(self, _form):
        return True

    def add(self, form):
        self.said.append(form)
