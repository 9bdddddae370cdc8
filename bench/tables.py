#!/usr/bin/env python3
"""The tables of what was measured: bench/results/COMMIT.csv as Markdown.

    bench/tables.py                                  which tables there are, of which commit and machine
    bench/tables.py COMMIT [TABLE [COLUMN,COLUMN..]] a commit's tables, or one of them, or some columns of it
    bench/tables.py --write                          puts tables into the documents that show them
    bench/tables.py --take FOLDER COMMIT MACHINE     makes the file of a commit of what bench/run all wrote to FOLDER

A file begins with `# commit COMMIT; MACHINE`. Each table is a line `# NAME: WHAT`, a line of columns, and rows. A
document shows a table after a line `<!-- bench/tables.py COMMIT TABLE [COLUMNS] -->`.
"""

import csv
import pathlib
import re
import sys

ROOT = pathlib.Path(__file__).resolve().parents[1]
RESULTS = ROOT / "bench" / "results"
SHOWN = re.compile(r"(<!-- bench/tables\.py (\w+) (\w+)(?: (.*?))? -->\n)((?:\|.*\n)*)")


def read(path):
    """What a file says of its commit, and its tables by name: what each has, its columns and its rows."""
    head, *parts = re.split(r"^# (?=.*\n)", path.read_text(), flags=re.M)[1:]
    tables = {}
    for part in parts:
        title, _, text = part.partition("\n")
        name, _, what = title.partition(": ")
        columns, *rows = [row for row in csv.reader(text.splitlines()) if row]
        tables[name] = (what, columns, rows)
    return head.strip(), tables


def markdown(columns, rows, wanted=None):
    """A table as Markdown, of the columns that are wanted."""
    places = [columns.index(name) for name in wanted] if wanted else range(len(columns))
    lines = [[row[place] for place in places] for row in [columns, ["---"] * len(columns), *rows]]
    return "".join(f"| {' | '.join(line)} |\n" if at != 1 else f"|{'|'.join(line)}|\n" for at, line in enumerate(lines))


def table(commit, name, columns=None):
    _, tables = read(RESULTS / f"{commit}.csv")
    return markdown(*tables[name][1:], columns.split(",") if columns else None)


def with_tables(text):
    """A document with its tables as the results have them now."""
    return SHOWN.sub(lambda found: found[1] + table(*found.groups()[1:4]), text)


def shown_in(root=ROOT):
    """The documents that show tables."""
    return [path for path in sorted(root.glob("docs/**/*.md")) if SHOWN.search(path.read_text())]


def take(folder, commit, machine):
    """The text of a commit's file, of the Markdown tables that scripts wrote: a file is a table, named as the file."""
    lines = [f"# commit {commit}; {machine}"]
    for path in sorted(pathlib.Path(folder).glob("*.md")):
        rows = [[cell.strip() for cell in line.strip().strip("|").split("|")]
                for line in path.read_text().splitlines() if line.startswith("|") and not line.startswith("|-")]
        if rows:
            said = [line for line in path.read_text().splitlines() if line.strip() and not line.startswith("|")]
            lines += ["", f"# {path.stem}: {' '.join(said)}"]
            lines += [",".join(f'"{cell}"' if "," in cell else cell for cell in row) for row in rows]
    return "\n".join(lines) + "\n"


def main(words):
    if words in (["--help"], ["-h"]):
        print(__doc__)
        return 0
    if words == ["--write"]:
        for path in shown_in():
            path.write_text(with_tables(path.read_text()))
    elif words[:1] == ["--take"] and len(words) == 4:
        (RESULTS / f"{words[2]}.csv").write_text(take(*words[1:]))
    elif not words:
        for path in sorted(RESULTS.glob("*.csv")):
            head, tables = read(path)
            print(head, *(f"    {name}: {what}" for name, (what, _, _) in tables.items()), sep="\n")
    elif len(words) <= 3 and (RESULTS / f"{words[0]}.csv").is_file():
        head, tables = read(RESULTS / f"{words[0]}.csv")
        for name in words[1:2] or tables:
            print(f"{name}: {tables[name][0]}\n\n{table(words[0], name, *words[2:3])}")
    else:
        print(__doc__, file=sys.stderr)
        return 2
    return 0


if __name__ == "__main__":
    sys.exit(main(sys.argv[1:]))
