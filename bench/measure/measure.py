#!/usr/bin/env python3
"""Times programs and prints Markdown tables; the scripts of this folder call it.

    measure.py reading --nllc PATH --baseline PATH --texts FOLDER [--sizes SIZES] [--runs N]
    measure.py bodies --nllc PATH --baseline PATH --texts FOLDER [--runs N] [--parts PARTS]
    measure.py real --nllc PATH --baseline PATH --inputs FOLDER --outputs FOLDER [--runs N]
    measure.py line --nllc PATH --texts FOLDER [--most MIB]
    measure.py solving --nllc PATH --baseline PATH --texts FOLDER --outputs FOLDER [--runs N]
    measure.py limits --nllc PATH --baseline PATH --texts FOLDER [--runs N]
"""

import filecmp
import os
import sys

from timing import end, ends_of, head, in_turn, machine, options, row, run


def reading_rows(args, size):
    """The rows of one size: both programs on the refused text, the baseline on the accepted one."""
    refused, accepted = (os.path.join(args.texts, f"{kind}-{size}.text") for kind in ("refused", "accepted"))
    found = in_turn(args, {"nllc": [args.nllc, "values", refused], "baseline": [args.baseline, "read", refused],
                           "baseline, accepted": [args.baseline, "read", accepted]}, warm=1)
    ends = {who: one.ends for who, one in found.items()}
    fine = ends["nllc"] == ends["baseline"] and len(ends["nllc"]) == 1
    if not fine or ends["baseline, accepted"] != {(0, "")}:
        print(f"unlike ends: {ends}", file=sys.stderr)
        fine = False
    for who, one in found.items():
        row(size, who, f"{one.best:.3f}", f"{one.wall:.3f}", f"{one.user:.3f}", f"{one.peak:.1f}",
            f"{one.wall / found['baseline'].wall:.2f}")
    return fine


def reading(args):
    print(f"Reading a text that is refused at its last line, {args.runs} runs of each program in "
          f"turn; {machine(args)}")
    head("MiB | program | best wall s | median wall s | median user s | peak MiB | ratio")
    return all([reading_rows(args, size) for size in args.sizes.split()])


def bodies_rows(args, name):
    """The rows of one body: reading it, its base elements, its problem (the baseline alone), and
    the whole, as far as these parts are wanted."""
    fine = True
    for part in args.parts.split():
        text = os.path.join(args.texts, name + (".refused" if part == "read" else ".accepted"))
        commands = {"nllc": [args.nllc, "check" if part == "read" else part, text], "baseline": [args.baseline, part, text]}
        if part == "problem":
            del commands["nllc"]
        found = in_turn(args, commands)
        ends, alike = ends_of(found)
        fine = fine and alike
        for who, one in found.items():
            row(name, part, who, f"{one.best:.3f}", f"{one.wall:.3f}", f"{one.peak:.1f}",
                f"{one.wall / found['baseline'].wall:.2f}" + ("" if alike else f" | UNLIKE {ends}"))
    return fine


def bodies(args):
    names = sorted({name.rsplit(".", 1)[0] for name in os.listdir(args.texts)})
    print(f"Whole bodies, {args.runs} runs of each program in turn; {machine(args)}")
    head("body | part | program | best wall s | median wall s | peak MiB | ratio")
    return all([bodies_rows(args, name) for name in names])


def real_row(args, name):
    """Runs both programs on one input; whether all is the same, and the best wall times."""
    path = os.path.join(args.inputs, name)
    programs = {"nllc": args.nllc, "baseline": args.baseline}
    outs = {who: os.path.join(args.outputs, who) for who in programs}
    found = in_turn(args, {who: [program, "values", path] for who, program in programs.items()}, outs)
    ends, best = [one.ends for one in found.values()], {who: one.best for who, one in found.items()}
    same = ends[0] == ends[1] == {(0, "")} and filecmp.cmp(*outs.values(), shallow=False)
    row(name, os.path.getsize(path), os.path.getsize(outs["baseline"]), *[f"{one:.3f}" for one in best.values()],
        f"{best['nllc'] / best['baseline']:.2f}", *[f"{one.peak:.1f}" for one in found.values()],
        "same" if same else "UNLIKE")
    if not same:
        print(f"unlike on {name}: {ends}", file=sys.stderr)
    return same, best


def real(args):
    names = sorted(name for name in os.listdir(args.inputs) if name.endswith((".facts", ".mir")))
    print(f"`values` of real functions, best wall seconds of {args.runs} runs of each program in "
          f"turn; {machine(args)}")
    head("input | bytes | bytes out | nllc s | baseline s | ratio | nllc peak MiB | baseline peak MiB | output")
    rows = [real_row(args, name) for name in names]
    alike = sum(same for same, _ in rows)
    sums = [sum(best[who] for _, best in rows) for who in ("nllc", "baseline")]
    print(f"\n{len(names)} inputs, {len(names) - alike} unlike; all together "
          f"nllc {sums[0]:.3f} s, baseline {sums[1]:.3f} s")
    return 0 < len(names) == alike


def line_row(args, name):
    """The row of one text, which is a header and one long line; whether it is told in time and room."""
    path = os.path.join(args.texts, name)
    size = os.path.getsize(path) / (1 << 20)
    found = run([args.nllc, "check", path], args.seconds)
    over = found.peak - size
    told = "line 2: end" if name.startswith(("blanks", "remark")) else "line 2: syntax"
    fine = (found.status, found.err) == (2, f"nllc: {told}") and over <= args.most
    row(name.removesuffix(".facts"), f"{size:.1f}", f"{found.peak:.1f}", f"{over:.1f}", f"{found.wall:.3f}",
        found.err + ("" if fine else " (WRONG)"))
    return fine


def of_each_text(args, about, columns, row_of):
    """A table with a row for each text; whether there is one, and all are fine."""
    print(f"{about}; {machine(args)}")
    head(columns)
    fine = [row_of(args, name) for name in sorted(os.listdir(args.texts)) if name != "refused" and name != "outputs"]
    return 0 < len(fine) == sum(fine)


def line(args):
    return of_each_text(args, "One line of a facts text that nllc refuses, and the memory of its process",
                        "line of | text MiB | peak MiB | peak above the text MiB | wall s | refusal", line_row)


def limits_row(args, name):
    """The row of one text at a limit: what `check` says of it, and the best times of both programs."""
    path = os.path.join(args.texts, name)
    newer = ["--runs"] if args.newer else []
    found = in_turn(args, {"nllc": [args.nllc, "check", path], "baseline": [args.baseline, *newer, "check", path]})
    ends, same = ends_of(found)
    told = next(iter(ends))[1].removeprefix("nllc: ") or "no fault"
    nllc, baseline = found.values()
    row(name.rsplit(".", 1)[0], f"{os.path.getsize(path) / (1 << 20):.2f}", told if same else f"UNLIKE {ends}",
        f"{nllc.best:.3f}", f"{baseline.best:.3f}", f"{nllc.best / baseline.best:.1f}", f"{nllc.peak:.1f}",
        f"{baseline.peak:.1f}")
    return same


def limits(args):
    return of_each_text(args, f"`check` of texts at the limits, best wall seconds of {args.runs} runs of each program in turn",
                        "text | MiB | answer | nllc s | baseline s | ratio | nllc peak MiB | baseline peak MiB", limits_row)


def solving_rows(args, name):
    """The rows of one text; whether `nllc` and the partner that goes about it alike agree."""
    programs = {"nllc": [args.nllc], "partner, runs": [args.baseline, "--runs"], "partner, old": [args.baseline]}
    accepted, refused = os.path.join(args.texts, name), os.path.join(args.texts, "refused", name)
    asked = {"values": accepted, "check": accepted, "read": refused}
    commands = {(who, part): [*program, part if part != "read" else "check", path]
                for who, program in programs.items() for part, path in asked.items()}
    outs = {(who, part): os.path.join(args.outputs, who.replace(", ", "-")) if part == "values" else os.devnull
            for who, part in commands}
    found = in_turn(args, commands, outs)
    fine = True
    for who in programs:
        mine = {part: found[who, part] for part in asked}
        statuses = {part: {status for status, _ in one.ends} for part, one in mine.items()}
        if not (statuses["values"] == {0} and statuses["check"] <= {0, 1} and statuses["read"] == {2}):
            row(name.removesuffix(".facts"), who, "-", "-", "-", "-", f"past {args.seconds:.0f} s or its memory")
            fine = fine and who == "partner, old"
            continue
        same = filecmp.cmp(outs["nllc", "values"], outs[who, "values"], shallow=False)
        fine = fine and (same or who == "partner, old")
        row(name.removesuffix(".facts"), who, f"{mine['values'].best:.3f}", f"{mine['check'].best:.3f}",
            f"{mine['check'].best - mine['read'].best:.3f}", f"{mine['values'].peak:.1f}", "same" if same else "UNLIKE")
    return fine


def solving(args):
    return of_each_text(args, f"`values` and `check` of large problems, best wall seconds of {args.runs} runs of each "
                              "program in turn",
                        "text | program | values s | check s | check beyond reading s | peak MiB | output", solving_rows)


WHAT = {"reading": reading, "bodies": bodies, "real": real, "line": line, "solving": solving, "limits": limits}


def main():
    parser = options(__doc__, "nllc baseline texts inputs outputs", baseline=None, runs=5)
    parser.add_argument("what", choices=WHAT)
    parser.add_argument("--most", type=float, default=8.0,
                        help="MiB that a process may take in addition to the text of one line")
    parser.add_argument("--sizes", default="8 64")
    parser.add_argument("--newer", action="store_true",
                        help="of `limits`: the baseline goes by its newer solver, as nllc does")
    parser.add_argument("--parts", default="read problem check values",
                        help="what is measured of whole bodies, `bases` among it")
    args = parser.parse_args()
    end(lambda: WHAT[args.what](args))


if __name__ == "__main__":
    main()
