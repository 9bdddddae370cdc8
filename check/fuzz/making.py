"""The command line of a script that makes texts: a function for each command, of which some write many texts."""

import argparse
import inspect
import pathlib
import sys


def add_function(parser, function, choices):
    """The arguments of a function: numbers or one of some words; flags and options where they have defaults."""
    for name, one in inspect.signature(function).parameters.items():
        if one.default is one.empty:
            parser.add_argument(name, type=str if name in choices else int, choices=choices.get(name))
        elif one.default is False:
            parser.add_argument(f"--{name}", action="store_true")
        else:
            parser.add_argument(f"--{name}", type=type(one.default), default=one.default, choices=choices.get(name))


def save(folder, name, text):
    path = pathlib.Path(folder)
    path.mkdir(parents=True, exist_ok=True)
    (path / name).write_bytes(text)


def main(doc, ending, single, folders, mutations, **choices):
    """Makes what the words of the command line ask for: one text on standard output, or texts in a folder."""
    parser = argparse.ArgumentParser(description=doc.split("\n", maxsplit=1)[0])
    commands = parser.add_subparsers(dest="command", required=True)
    for name, function in single.items():
        add_function(commands.add_parser(name), function, choices)
    changes = commands.add_parser("mutations")
    changes.add_argument("file")
    for command in [changes, *map(commands.add_parser, folders)]:
        command.add_argument("--into", required=True)
        command.add_argument("names", nargs="*", metavar="NAME", help="make only these texts")
    args = vars(parser.parse_args())
    command = args.pop("command")
    if command in single:
        sys.stdout.buffer.write(single[command](**args))
        return
    texts = folders[command]() if command in folders else (
        (f"{number:06}", text) for number, text in enumerate(mutations(pathlib.Path(args["file"]).read_bytes())))
    for name, text, *_ in texts:
        if not args["names"] or name in args["names"]:
            save(args["into"], name + ending, text)
