#!/usr/bin/env python3
"""Makes errors/expected.tsv anew, of errors/*/*.rs, with the rustc at hand (1.95).

    python3 frontend/tests/store_errors.py
    python3 frontend/tests/store_errors.py --settle

The second takes out of known.tsv what isn't needed, and prints what it lacks. A row of expected.tsv: the file, line,
column and code of an error, the line of its loan, and that of what keeps the loan in force. A row of known.tsv: the
file, a difference, and the reason, which is written by hand.
"""

import os
import sys

import errors_support as support
from test_errors import EXPECTED, KNOWN, all_differences, read_rows


def write_rows(path, rows):
    with open(path, "w", encoding="utf-8") as file:
        file.writelines("\t".join(str(part or "") for part in row) + "\n" for row in rows)


def store():
    sources = support.sources()
    write_rows(EXPECTED, ([source, *row] for source, rows in zip(sources, support.side_by_side(fresh, sources))
                          for row in rows))


def fresh(source):
    """rustc's errors of a file of the suite."""
    edition = support.edition_of(os.path.join(support.SUITE, source))
    return support.rows_of(support.rustc_says(source, support.SUITE, [f"--edition={edition}"]), source)


def settle():
    """The status is 1 where there is a difference without a reason."""
    reasons = {tuple(row[:2]): row for row in read_rows(KNOWN)}
    found = sorted((source, one) for source, differences in all_differences().items() for one in differences)
    write_rows(KNOWN, (reasons[one] for one in found if one in reasons))
    new = [one for one in found if one not in reasons]
    for one in new:
        print("\t".join(one))
    return 1 if new else 0


if __name__ == "__main__":
    sys.exit(settle() if sys.argv[1:] == ["--settle"] else store())
