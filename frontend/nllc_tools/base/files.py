"""Reads and writes files whole, or says why that can't be."""

import os
import tempfile
from itertools import count
from typing import Container, Optional

from nllc_tools.base.refusal import refusing


def make_folder(folder: str, advice: str = "give another: -o FOLDER") -> None:
    with refusing(f"{folder} can't be made", advice, 3):
        os.makedirs(folder, exist_ok=True)


def free_path(folder: str, name: str, taken: Container[str]) -> str:
    """The path of a text, with a number where another function has the name already."""
    paths = (os.path.join(folder, f"{name}-{number}.facts" if number > 1 else f"{name}.facts") for number in count(1))
    return next(path for path in paths if path not in taken)


def write_whole(path: str, text: str) -> None:
    """Writes a text so that it is there whole or not at all."""
    write(path, text, 0o644, "give another folder: -o FOLDER")


def write(path: str, text: str, mode: Optional[int] = None, advice: str = "name another place by -o") -> None:
    """Writes a page, or another file, beside its place, and moves it there."""
    with refusing(f"{path} can't be written", advice, 3):
        handle, unfinished = tempfile.mkstemp(dir=os.path.dirname(path) or ".", prefix=".nllc-")
        try:
            with os.fdopen(handle, "w", encoding="utf-8", newline="\n") as file:
                file.write(text)
            os.chmod(unfinished, 0o666 & ~umask() if mode is None else mode)
            os.replace(unfinished, path)
        except BaseException:
            os.unlink(unfinished)
            raise


def text_or_nothing(path: str) -> str:
    """The text of a source; nothing where it can't be read."""
    try:
        with open(path, encoding="utf-8") as file:
            return file.read()
    except (OSError, UnicodeDecodeError):
        return ""


def read_bytes(path: str) -> bytes:
    with refusing(f"{path} can't be read"), open(path, "rb") as file:
        return file.read()


def same_file(path: str, other: str) -> bool:
    try:
        return os.path.samefile(path, other)
    except OSError:
        return False


def umask() -> int:
    mask = os.umask(0)
    os.umask(mask)
    return mask
