"""A slow reader of cut files (version 1), and what a cut is refused for, straight from the definitions."""

import reference_text as text
from reference_text import number_of, tokens_of

MOST_OWNER = 65_535


class Cut(text.Listing):
    """The numbers of the lines so far."""

    HEADER = b"nll-cut"

    def form_of(self, line):
        """The number that a line is, or None where it isn't one."""
        tokens = tokens_of(line)
        if not tokens or len(tokens) != 1 or tokens[0][0] != "word":
            return None
        return number_of(tokens[0][1])

    def faults(self, form):
        return {"range"} if form > MOST_OWNER else set()


def refusal(path, said, regions, owners):
    """The line on standard error that refuses a cut file for so many regions and owners, or None.
    `said` are the bytes of the file, None where it can't be read."""
    if said is None:
        return f"nllc: cannot read {path}"
    try:
        dealt = text.read(said, Cut()).said
    except text.Refused as refused:
        return str(refused).replace("nllc: line", "nllc: cut line", 1)
    if len(dealt) != regions:
        return "nllc: cut: length"
    strangers = [index for index, owner in enumerate(dealt) if owner >= owners]
    return f"nllc: cut: no such owner at {strangers[0]}" if strangers else None
