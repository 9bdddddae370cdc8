"""A slow reader of schedules (version 1), straight from the definitions."""

from reference_text import Listing, number_of, tokens_of

FORMS = {b"load": 1, b"take": 2, b"owe": 1, b"clear": 1, b"push": 2, b"leave": 1}


class Schedule(Listing):
    """The events of the lines so far, each its word and its owners, of so many owners."""

    HEADER = b"nll-schedule"

    def __init__(self, owners):
        super().__init__()
        self.owners = owners

    def form_of(self, line):
        """The event that a line is, or None where it is none."""
        tokens = tokens_of(line)
        if not tokens or any(token[0] != "word" for token in tokens):
            return None
        word, *written = [token[1] for token in tokens]
        numbers = [number_of(number) for number in written]
        if None in numbers or FORMS.get(word) != len(numbers):
            return None
        return (word, numbers)

    def faults(self, form):
        return {"range"} if any(number >= self.owners for number in form[1]) else set()
