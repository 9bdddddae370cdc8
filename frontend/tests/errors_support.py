"""What the suite of errors, and the check on changed crates, share: rustc's errors in a table's rows, what
`nllc.sh rust` prints in the same form, and how they differ.
"""

import contextlib
import io
import json
import multiprocessing
import os
import re
import subprocess
import sys
import tempfile
from dataclasses import dataclass, field
from typing import NamedTuple, Optional

from paths import TESTS as HERE

from nllc_tools.base import nllc
from nllc_tools.commands import answers as pages, rust
from nllc_tools.rustc import functions
from nllc_tools.rustc.compiler import crate_name, find_rustc
from nllc_tools.rustc.error_kinds import LIFETIMES, LOANS, MOVES
from nllc_tools.views.terminal import answers
from quick_solver import quick_report

SUITE = os.path.join(HERE, "errors")
MEMORY = "/dev/shm" if os.path.isdir("/dev/shm") else None

EDITION = re.compile(r"// edition: (\d+)\n")
WHERE = re.compile(r"--> (.*):(\d+):(\d+)$", re.MULTILINE)
FN = re.compile(r"\s*(?:pub )?(?:async |const |unsafe )*fn (\w+)")
# By which words of rustc a label is that of the loan, and that of what keeps it in force.
LOAN = re.compile(r"borrow (of `.*` )?occurs here|is borrowed here|construct(ed|ion occurs) here"
                  r"|immutable in match guard|borrowed here in the previous iteration")
CAPTURED = re.compile(r"value captured here")
LATER = re.compile(r"later (used|stored|captured|borrowed)|might be used here|in later iteration"
                   r"|requires that .* is borrowed for|requires that borrow lasts")
LOAN_ITSELF = ("E0597", "E0716", "E0713", "E0373")      # these stand where the loan is made, if no closure makes it

PLACED = re.compile(r"\s*(\S+?):(\d+)(?::(\d+))?: (?:(E\d{4}): )?(.*)")
UNPLACED = re.compile(r"  (\S+\.rs): (?:(E\d{4}): )?(.*)")
OF_RUSTC = re.compile(r"rustc [\d.]+: (?:(E\d{4}): )?(.*)")
LOAN_LINE = re.compile(r"the loan of (?:line )?(\d+)")


class Row(NamedTuple):
    """An error of rustc: its place and code, the line of the loan and that of what keeps it in force."""

    line: int
    column: int
    code: str
    loan: Optional[int] = None
    later: Optional[int] = None

    def words(self):
        return f"{self.code or 'lifetime'} {self.line}:{self.column}"


class Told(NamedTuple):
    """A fault that is told: its place and code, the line of its loan, the lines that keep it in force."""

    line: int
    column: int
    code: str
    loan: Optional[int] = None
    later: frozenset = frozenset()

    def words(self):
        return f"{self.code or 'lifetime'} {self.line}:{self.column}"


@dataclass
class Answer:
    """What is said of a file. `denied` are rustc's errors of which it is said that there is no fault,
    `doubted` the places of faults at which rustc is said to name none, `right` the functions without one.
    """

    status: int
    told: list = field(default_factory=list)
    others: list = field(default_factory=list)
    denied: list = field(default_factory=list)
    doubted: list = field(default_factory=list)
    right: set = field(default_factory=set)
    text: str = ""


def edition_of(path):
    """The edition that a file's first line names; 2021 where it names none."""
    with open(path, encoding="utf-8") as file:
        found = EDITION.match(file.readline())
    return found[1] if found else "2021"


def sources():
    """The files of the suite, as paths from its folder."""
    return sorted(os.path.relpath(os.path.join(folder, name), SUITE)
                  for folder, _, names in os.walk(SUITE) for name in names if name.endswith(".rs"))


def rustc_says(file, folder, options):
    """rustc's messages of a file, by its JSON; the folder is that in which it runs."""
    with tempfile.TemporaryDirectory(dir=MEMORY) as room:
        done = subprocess.run(
            [find_rustc(), "--crate-type=lib", f"--crate-name={crate_name(os.path.join(folder, file))}",
             "--cap-lints=allow", "--emit=metadata", "--error-format=json", f"--out-dir={room}", *options, file],
            cwd=folder, stdin=subprocess.DEVNULL, capture_output=True, text=True, check=False,
            env=os.environ | {"RUSTC_BOOTSTRAP": "1"})
    return [json.loads(line) for line in done.stderr.splitlines() if line.startswith("{")]


def rows_of(messages, file):
    """The rows of the errors of a file."""
    return [row for message in messages if (row := row_of(message, file))]


def row_of(said, file):
    """The row of what rustc says, or None where it is no error that has its place in the file."""
    where = WHERE.search(said["rendered"] or "")
    if said["level"] != "error" or not where or where[1] != file:
        return None
    code = (said["code"] or {}).get("code", "")
    loan = line_of_label(said, CAPTURED) or int(where[2]) if code in LOAN_ITSELF else line_of_label(said, LOAN)
    return Row(int(where[2]), int(where[3]), code, loan, line_of_label(said, LATER))


def line_of_label(said, pattern):
    """The line of the label that has the words; of several one that isn't the error's own."""
    found = [span for span in said["spans"] if pattern.search(span["label"] or "")]
    found.sort(key=lambda span: span["is_primary"])
    return at_home(found[0])["line_start"] if found else None


def at_home(span):
    """The place; of what a macro of another file makes the use of the outermost macro."""
    home = span
    while home["expansion"]:
        home = home["expansion"]["span"]
    return span if span["file_name"] == home["file_name"] else home


def side_by_side(work, things, chunk=4, processes=None):
    """What the work gives of each thing, in their order, on all cores."""
    pool = multiprocessing.Pool(processes)
    try:
        yield from pool.imap(work, things, chunk)
    finally:
        pool.close()
        pool.join()


def in_one_process():
    """Has `nllc.sh rust` answer here: by the quick solver, without other processes, without pages."""
    nllc.run = quick_report
    nllc.has_faults = lambda text: bool(quick_report(text).faults)
    pages.write_page = lambda path, content: None
    answers.MOST_NAMES = sys.maxsize
    pages.find_program = lambda: None
    pages.side_by_side = functions.side_by_side = lambda work, things, few=0: map(work, things)


def answer_of(file, edition, options=()):
    """The status of `nllc.sh rust` on a file of the folder in which this runs, and what it prints."""
    printed = io.StringIO()
    with tempfile.TemporaryDirectory(dir=MEMORY) as room, contextlib.redirect_stdout(printed), \
            contextlib.redirect_stderr(io.StringIO()):
        status = rust.main([file, "-o", room, "--edition", edition, "--", *options])
    return status, printed.getvalue()


def read_answer(status, text, file, module=""):
    """The lines that were printed of a file, by what they say; it may be a module of the file that was given."""
    answer = Answer(status, text=text)
    lines = text.splitlines()
    for at, line in enumerate(lines):
        following = lines[at + 1] if at + 1 < len(lines) else ""
        if line.startswith("no fault: "):
            names = line.removeprefix("no fault: ").split(" and ")[0].split(", ")
            answer.right |= {name.split("::")[-1] for name in names if name.startswith(module)}
        elif (found := PLACED.fullmatch(line)) and found[1] == file:
            take(answer, int(found[2]), int(found[3] or 0), found[4] or "", found[5], following)
        elif (found := UNPLACED.fullmatch(line)) and found[1] == file:
            answer.told.append(Told(0, 0, found[2] or ""))
    return answer


def take(answer, line, column, code, words, following):
    """Takes in a line that has a place, with the one below it."""
    of_rustc = OF_RUSTC.fullmatch(words)
    if "reports no error there" in words:
        answer.doubted.append((line, column))
    elif of_rustc and "nllc: no fault there" in words:
        answer.denied.append(Row(line, column, of_rustc[1] or ""))
    elif of_rustc:
        answer.others.append(Row(line, column, of_rustc[1] or ""))
    else:
        answer.told.append(Told(line, column, code, *lines_of_cause(following)))


def lines_of_cause(words):
    """The line of the loan, and those that a cause names as keeping it in force."""
    words = re.sub(r"`[^`]*`", "", words)
    loan = LOAN_LINE.search(words)
    where, _, since = words.partition(", since ")
    later = {int(number) for number in re.findall(r"line (\d+)", since)}
    if "the same line" in since:
        later |= {int(number) for number in re.findall(r"line (\d+)", where)[-1:]}
    return int(loan[1]) if loan else None, frozenset(later)


def differences(rows, answer):
    """How the faults that are told differ from rustc's rows, in words."""
    told, others, found = list(answer.told), list(answer.others), []
    left = [row for row in rows if not (is_loan_or_lifetime(row) and taken_exactly(row, told, found))
            and not taken(row, others) and not (row.code in MOVES and taken(row, told))]
    denied = {(row.line, row.column): row for row in answer.denied}
    for row in left:
        found.append(f"{row.words()}: {standing_of(row, told, denied)}")
    found += [f"{one.words()}: not rustc's" for one in [*told, *others]]
    found += [f"{row.words()}: denied" for row in denied.values()]
    return found + [f"{line}:{column}: doubted" for line, column in answer.doubted]


def wrongly_right(rows, answer, function_at):
    """The functions with an error that are said to have no fault.

    `function_at` gives the name of the function that has a line.
    """
    return [f"no fault: {name}" for name in sorted({function_at(row.line) for row in rows} & answer.right)]


def wrong_status(rows, answer):
    return [f"status {answer.status}"] if (answer.status != 0) != bool(rows) else []


def is_loan_or_lifetime(row):
    return row.code in (*LOANS, *LIFETIMES, "")


def taken(row, others):
    """Whether rustc's own words are passed on."""
    alike = next((one for one in others if one[:3] == row[:3]), None)
    if alike:
        others.remove(alike)
    return alike is not None


def taken_exactly(row, told, found):
    """Whether a fault of that place and code is told; lines that its cause has otherwise are differences."""
    code = row.code if row.code in LOANS else ""
    alike = [one for one in told if one[:2] == row[:2] and one.code in (code, row.code)]
    if not alike:
        return False
    best = min(alike, key=lambda one: len(other_lines(row, one)))
    told.remove(best)
    found += other_lines(row, best)
    return True


def other_lines(row, one):
    """What is told otherwise of the loan and of what keeps it in force."""
    found = []
    if row.loan and row.loan != one.loan:
        found.append(f"{row.words()}: loan of line {one.loan}, for {row.loan}")
    if row.later and row.later not in one.later:
        lines = ", ".join(map(str, sorted(one.later))) or "none"
        found.append(f"{row.words()}: later use in line {lines}, for {row.later}")
    return found


def standing_of(row, told, denied):
    """What became of an error of rustc that isn't told exactly."""
    near = next((one for one in told if one.line == row.line and one.code == row.code), None) \
        or next((one for one in told if one[:2] == row[:2]), None) \
        or next((one for one in told if one.line == row.line), None) \
        or next((one for one in told if one.line == 0), None)
    if near:
        told.remove(near)
        return f"told as {near.words()}"
    return "denied" if denied.pop(row[:2], None) else "not told"


def function_finder(path):
    """For a file, what gives the name of the function that has a line: the nearest one above that is less indented."""
    with open(path, encoding="utf-8") as file:
        lines = file.read().split("\n")

    def indent(number):
        return len(lines[number - 1]) - len(lines[number - 1].lstrip())

    def function_at(line):
        return next((found[1] for number in range(line, 0, -1) if (found := FN.match(lines[number - 1]))
                     and (number == line or indent(number) < indent(line))), "")
    return function_at
