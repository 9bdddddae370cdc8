#!/usr/bin/env python3
"""Makes what docs/ shows of pages: the pictures of docs/FROM-RUST.md, docs/LEARNING.md's page, and the
picture of docs/MESSAGES.md.

    pictures.py [--schedule] [FOLDER]
    pictures.py --beside PAGES [FOLDER]

The pictures are of examples/three.rs in a headless Chromium, and of one of its schedules. Needs rustc,
Chromium and an `nllc`; with `--schedule` it makes the last picture alone, for which Chromium and a
`world_program` suffice. Run by hand where the page's look or an example has changed; FOLDER is docs/
otherwise. With `--beside` it makes pictures of old pages beside today's; PAGES has those that an older
commit made of examples/three.rs, loans.rs and lookup.mir.
"""

import os
import shutil
import subprocess
import sys
import tempfile

from paths import ROOT
from devtools import Browser

from nllc_tools.texts.facts.reader import read_facts

SIZE = (1440, 860)

# The example of docs/LEARNING.md.
LEARNING = "running.mir"

# A picture's name, the function, the scheme, and what is chosen: a step, or a region by its words
# and perhaps the last point with these words.
PICTURES = [
    ("longer", "longer", "light", "step=0"),
    ("news", "news", "light", "the borrow &draft"),
    ("news-point", "news", "dark", "the borrow &draft @ (*text)"),
    ("fixed", "fixed", "dark", "the type of text"),
]


# Pages that stand beside old ones, with what is chosen in both.
BESIDE = [("longer", ""), ("grow", ""), ("get_default", ""), ("lookup.mir", "#region=found")]
SHEET = """<!doctype html><style>body {{ display: flex; gap: 14px; margin: 0; padding: 8px; background: #666; }}
h1 {{ margin: 0 0 2px; font: 600 16px sans-serif; color: #fff; }} img {{ width: 1000px; display: block; }}</style>{}"""
HALF = "<div><h1>{}</h1><img src='data:image/png;base64,{}'></div>"


def fragment(text, chosen):
    """The part of a page's address that chooses this."""
    if chosen.startswith("step="):
        return f"#{chosen}"
    words, _, used = chosen.partition(" @ ")
    facts = read_facts(text, "text")
    name = next(n for n in facts.names if facts.remarks.region(n).text.startswith(words))
    point = f"&point={last_use(facts, used)}" if used else ""
    return f"#region={name}{point}"


def last_use(facts, used):
    """The last point whose statement has these words."""
    return max(p for p in range(facts.points) if used in facts.remarks.point(p).text)


def main(folder):
    for part in ("pictures", "pages"):
        os.makedirs(os.path.join(folder, part), exist_ok=True)
    with tempfile.TemporaryDirectory() as pages:
        subprocess.run(["./nllc.sh", "page", "-o", pages, f"examples/{LEARNING}"], cwd=ROOT,
                       stdout=subprocess.DEVNULL, check=True)
        shutil.copy(os.path.join(pages, f"{LEARNING}.html"), os.path.join(folder, "pages"))
    with tempfile.TemporaryDirectory() as pages, Browser() as browser:
        subprocess.run(["./nllc.sh", "rust", "examples/three.rs", "-o", pages], cwd=ROOT,
                       stdout=subprocess.DEVNULL, stderr=subprocess.DEVNULL, check=False)
        for picture in PICTURES:
            take(browser, pages, os.path.join(folder, "pictures"), *picture)


def take_schedule(folder):
    """The picture of a schedule."""
    os.makedirs(os.path.join(folder, "pictures"), exist_ok=True)
    with tempfile.TemporaryDirectory() as pages, Browser() as browser:
        path = os.path.join(pages, "schedule.html")
        subprocess.run(["./nllc.sh", "schedule", "examples/each_other.facts", "examples/each_other.schedule",
                        "-o", path], cwd=ROOT, stdout=subprocess.DEVNULL, check=True)
        page = browser.open(path, 1280, 760, "light", "#event=18")
        save(page, os.path.join(folder, "pictures", "schedule.png"))


def take_beside(old, folder):
    """Pictures of old pages, with today's to their right."""
    with tempfile.TemporaryDirectory() as pages, Browser() as browser:
        for words in (["rust", "examples/three.rs"], ["rust", "examples/loans.rs"], ["page", "examples/lookup.mir"]):
            subprocess.run(["./nllc.sh", *words, "-o", pages], cwd=ROOT, stdout=subprocess.DEVNULL,
                           stderr=subprocess.DEVNULL, check=False)
        for name, chosen in BESIDE:
            halves = ""
            for told, where in (("before", old), ("after", pages)):
                page = browser.open(os.path.join(where, f"{name}.html"), 1400, 900, "light", chosen)
                taken = page.call("Page.captureScreenshot", format="png")["data"]
                halves += HALF.format(told, taken)
            sheet = os.path.join(pages, "sheet.html")
            with open(sheet, "w", encoding="utf-8") as file:
                file.write(SHEET.format(halves))
            both = browser.open(sheet, 2030, 684)
            save(both, os.path.join(folder, "pictures", f"{name.removesuffix('.mir')}-before-after.png"))


def take(browser, pages, folder, name, function, scheme, chosen):
    """One picture."""
    with open(os.path.join(pages, f"{function}.facts"), "rb") as file:
        text = file.read()
    path = os.path.join(pages, f"{function}.html")
    page = browser.open(path, *SIZE, scheme, fragment(text, chosen))
    save(page, os.path.join(folder, f"{name}.png"))


def save(page, picture):
    """Its colours are made fewer where pngquant is there, for a third of the size."""
    page.screenshot(picture)
    if shutil.which("pngquant"):
        subprocess.run(["pngquant", "--force", "--ext", ".png", "--quality", "80-100", picture],
                       check=False)


if __name__ == "__main__":
    words = sys.argv[1:]
    kind = words.pop(0) if words[:1] in (["--schedule"], ["--beside"]) else ""
    old = os.path.abspath(words.pop(0)) if kind == "--beside" else ""
    where = os.path.abspath((words or [os.path.join(ROOT, "docs")])[0])
    if old:
        take_beside(old, where)
    else:
        if not kind:
            main(where)
        take_schedule(where)
