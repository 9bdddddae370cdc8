"""What the tests of schedules share: the slow model in place of the program, small texts."""

from page_support import EXAMPLES, file_bytes

import reference_states  # page_support has put check/reference/ on the path
from reference_world import Asked

from nllc_tools.texts.facts.reader import read_facts
from nllc_tools.texts.schedule_states import read_run
from nllc_tools.views.schedule.content import Content

# The examples, each with the number of owners.
SCHEDULES = {"each_other": 2, "late_hole": 3, "early_leave": 3}


def printed(facts, schedule, owners, deal="round"):
    """What the slow model prints for these texts; a deal that is bytes is a cut file."""
    asked = Asked(facts, schedule, owners, cut_path="CUT", cut=deal) if isinstance(deal, bytes) else \
        Asked(facts, schedule, owners, deal)
    return reference_states.printed(asked).decode()


def schedule(*events):
    return "\n".join(["nll-schedule 1", *events, ""]).encode()


def content_of(facts, events, owners, deal="round"):
    """The content of a page of these texts."""
    read = read_facts(facts, "TEXT")
    run = read_run(printed(facts, events, owners, deal), len(read.names), read.points + read.universals)
    return Content(read, run, "TEXT.facts", "TEXT.schedule", "reference", "unknown")


def example(name):
    return file_bytes(EXAMPLES, f"{name}.facts"), file_bytes(EXAMPLES, f"{name}.schedule")


def example_content(name):
    return content_of(*example(name), SCHEDULES[name])


def answers(text):
    """The lines that `nllc replay` prints, out of what the model prints: answers, balance and values."""
    head, _, values = text.partition("\nvalues\n")
    lines = head.split("\n")
    balances = [line for line in lines if line.startswith("balance ")]
    return [line for line in lines if line[:1].isdigit()] + balances[-1:] + values.splitlines()
