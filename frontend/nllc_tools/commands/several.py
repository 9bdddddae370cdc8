"""`check`, `values` and `replay` where their words aren't one text and options: several texts, a Rust file, wrong words."""

import contextlib
import re
import subprocess
import sys
from io import FileIO
from typing import ContextManager, NamedTuple, Optional, Sequence

from nllc_tools.base import nllc
from nllc_tools.base.command_line import called
from nllc_tools.base.streams import guarded, tell

OPTIONS = ("--owners", "--deal", "--cut", "--mail", "--schedule")
CHOICES = {"--deal": ("round", "blocks"), "--mail": ("queue", "ring")}
MOST_OWNERS = 64
STANDARD_INPUT = "/dev/stdin"    # nllc.sh writes it for a hyphen


class Option(NamedTuple):
    """An option with its value, if it has one."""

    name: str
    value: Optional[str]


class Words(NamedTuple):
    """The words of a command: options, files, and the first word that is neither."""

    options: list[Option]
    files: list[str]
    strange: str


def main(words: Sequence[str]) -> int:
    """Answers a command and its words; the status is the highest of its calls."""
    return guarded(words[0], lambda: run(words[0], words[1:]))


def run(command: str, arguments: Sequence[str]) -> int:
    words = read_words(arguments)
    program, wrong = nllc.program().path, advice(command, words)
    if len(words.files) > 1 and command != "replay" and not wrong:
        return several(program, command, words)
    if any(map(is_rust, words.files)):
        return tell_rust(words.files[0])
    status = subprocess.run([program, command, *arguments], check=False).returncode
    return tell(f"{called(command)}: {wrong}", status) if status == 2 and wrong else status


def read_words(arguments: Sequence[str]) -> Words:
    found, is_ended = Words([], [], ""), False
    left = [*arguments]
    while left:
        word = left.pop(0)
        name, equals, value = word.partition("=")
        if word == "--" and not is_ended:
            is_ended = True
        elif is_ended or not word.startswith("-"):
            found.files.append(word)
        elif name in OPTIONS:
            found.options.append(Option(name, value if equals else left.pop(0) if left else None))
        else:
            found = found._replace(strange=found.strange or word)
    return found


def advice(command: str, words: Words) -> str:
    """What is wrong with the words, as far as the documents say it; the program judges them by itself."""
    names = [option.name for option in words.options]
    twice = [name for name in names if names.count(name) > 1]
    if words.strange:
        return f"there is no option {words.strange}; {called('help', command)} names those there are"
    if twice:
        return f"{twice[0]} is given twice"
    for name, value in words.options:
        if value is None:
            return f"{name} needs a value"
        if name == "--owners" and not (re.fullmatch("[1-9][0-9]?", value) and int(value) <= MOST_OWNERS):
            return f"--owners takes a number from 1 to {MOST_OWNERS}, not {value}"
        if value not in CHOICES.get(name, (value,)):
            return f"{name} takes {' or '.join(CHOICES[name])}, not {value}"
    if {"--deal", "--cut"} <= {*names}:
        return "--deal and --cut don't go together"
    if command == "replay":
        return "replay has no --mail" if "--mail" in names else \
            "" if "--schedule" in names and len(words.files) == 1 else "replay needs one FILE, and --schedule FILE"
    if "--schedule" in names:
        return f"{command} has no --schedule"
    return "" if words.files else f"{command} needs a FILE; - is standard input"


def is_rust(path: str) -> bool:
    """Whether a file seems to be Rust: by its name, where it doesn't begin as a text of nllc."""
    if not path.endswith(".rs"):
        return False    # a pipe isn't opened: it gives its bytes once
    try:
        with open(path, "rb") as file:
            return not file.read(16).lstrip().startswith(b"nll-")
    except OSError:
        return False


def tell_rust(path: str) -> int:
    return tell(f"{called()}: {path} is a Rust file: {called('rust', path)} answers it", 2)


def several(program: str, command: str, words: Words) -> int:
    """Has each text answered, with its name before each line; the status is the highest."""
    options = [f"{name}={value}" for name, value in words.options]
    with given_to_each(words) as given:
        return max(one_of_several([program, command, *options], path, given) for path in words.files)


def given_to_each(words: Words) -> ContextManager[Optional[FileIO]]:
    """The standard input of each call: a cut file that is read from there is read once, for all texts."""
    if Option("--cut", STANDARD_INPUT) not in words.options:
        return contextlib.nullcontext()
    copy = nllc.in_memory()
    copy.write(sys.stdin.buffer.read())
    return copy


def one_of_several(words: list[str], path: str, given: Optional[FileIO]) -> int:
    if is_rust(path):
        return tell_rust(path)
    before = ["--"] if path.startswith("-") else []
    with subprocess.Popen([*words, *before, path], stdin=given, stdout=subprocess.PIPE, stderr=subprocess.PIPE) as process:
        assert process.stdout and process.stderr
        for line in process.stdout:
            sys.stdout.write(f"{path}: {line.decode(errors='replace')}")
        said = process.stderr.read().decode(errors="replace").splitlines()
    sys.stdout.flush()
    sys.stderr.writelines(f"{path}: {line}\n" for line in said)
    return process.returncode
