"""The command `nllc.sh json`: a text's values and faults for programs, as docs/answer.schema.json has them."""

import json
import math
from typing import Sequence

from nllc_tools.base.command_line import called
from nllc_tools.base.refusal import Refusal
from nllc_tools.base.sentences import visible
from nllc_tools.base.streams import command, tell
from nllc_tools.commands.texts import content_of, parser_of_texts, read
from nllc_tools.views.json.answer import answer

ABOUT = """\
Prints a line of JSON for each text, a facts text or a MIR text: the values of its regions, points by runs, with names,
and each fault with its chain of constraints. docs/answer.schema.json describes the line."""

STATUSES = """\
status 0: no text has a fault; 1: one has; 2: the arguments, a file or a text was refused; 3: nllc gave no answer, or standard
output can't be written. The status is the highest of all texts"""


@command("json")
def main(words: Sequence[str]) -> int:
    return max(map(answered, parser_of_texts("json", ABOUT, STATUSES).parse_args(words).texts))


def answered(path: str) -> int:
    """Prints the line of a text, or why there is none, and goes on; the status is that of the text."""
    try:
        content = content_of(*read(path), most=math.inf)
    except Refusal as refusal:
        return tell(f"{called('json')}: {visible(str(refusal))}", refusal.status)
    print(json.dumps(answer(content), ensure_ascii=False))
    return 1 if content.faults else 0
