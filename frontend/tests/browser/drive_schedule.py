#!/usr/bin/env python3
"""Makes pages of schedules, opens them in a headless Chromium, goes through them, and says what is wrong.

    drive_schedule.py [--shots FOLDER]

The pages are those of the schedules in examples/, of the slow model's states, in both colour schemes and in
several widths. Needs Chromium (Debian: `apt-get install chromium`); it is run by hand, and the unit tests
don't need it. Status 1 where something is wrong.
"""

import argparse
import contextlib
import io
import os
import sys
import tempfile

import paths  # noqa: F401 (it puts these on the path)
from devtools import Browser
from page_support import EXAMPLES
from rooms import STATES
from schedule_support import SCHEDULES, example_content

from nllc_tools.commands.schedule import main as make_page

LEAST = 4.5     # the contrast that text must have
WIDTHS = (1920, 1280, 1000, 768, 480, 320)

# Text that has to be read, in the states in which it stands.
TEXTS = ["h1", ".about", ".where", ".now b", ".now b.new", ".events code", ".events .no", ".events .answer",
         ".events .answer.open", ".events .answer.not-now", ".events .answer.quiet",
         ".events a[aria-current] .answer", ".mark", ".mark.fresh", ".mark.owed", ".mark.left", "h2", "h3",
         ".strips .name", ".of", ".cell", ".cell.held", ".cell.held.base", ".growth code", ".growth b",
         ".growth.new code", ".growth.new b", ".growth.gone code", ".none", ".saying p", ".saying li",
         ".saying a", ".constraints li", ".constraints li.asks", ".constraints li.asked", "pre", "footer p"]


class Drive:
    """One page in one colour scheme."""

    def __init__(self, browser, path, name, scheme, shots):
        self.content = example_content(name)
        self.states = self.content.run.states
        self.scheme = scheme
        self.shots = shots
        self.name = f"{name}-{scheme}"
        self.browser = browser
        self.path = path
        self.page = browser.open(path, 1440, 900, scheme)
        self.wrong = []

    def all(self):
        """Tries everything; what is wrong, a line each."""
        self.walk()
        self.clicks()
        self.contrast()
        self.widths()
        self.address()
        complaints = self.page.complaints()
        self.expect(f"the console says {complaints[:1]}", not complaints)
        return self.wrong

    def expect(self, what, is_right):
        if not is_right:
            self.wrong.append(f"{self.name}: {what}")

    def shot(self, name):
        if self.shots:
            self.page.screenshot(os.path.join(self.shots, f"{self.name}-{name}.png"))

    # What is shown of a state

    def texts(self, selector):
        return self.page.value(f"probe.nodes({selector!r}).map((one) => one.textContent)")

    def chips(self, place):
        """The growths that stand in a list, without those that just left it, by region's name and element."""
        return self.texts(f"{place} .growth:not(.gone) code")

    def named(self, growths):
        from nllc_tools.views.schedule.event_words import growth
        return [growth(self.content.facts, one) for one in growths]

    def look(self, number):
        """The page shows this state."""
        state = self.states[number]
        self.expect(f"state {number}: another balance", self.texts(".now b") == [str(state.balance)])
        self.expect(f"state {number}: another place", self.texts("#where") == [str(number)])
        self.expect(f"state {number}: not one article", len(self.texts(".said")) == 1)
        for owner, seat in enumerate(state.seats):
            logs = self.page.value(
                f"[...byId('owner-{owner}').querySelectorAll('.growths')][0].id = 'log-{owner}'")
            self.expect(f"state {number}: another log of owner {owner}",
                        self.chips(f"#{logs}") == self.named(seat.log))
            for (to, part), growths in seat.lanes.items():
                self.expect(f"state {number}: lane {owner} to {to}, another {part}",
                            self.chips(f"#lane-{owner}-{to} .{part}") == self.named(growths))
            held = sum(map(len, seat.holds.values()))
            self.expect(f"state {number}: owner {owner} holds something else",
                        len(self.texts(f"#owner-{owner} .cell.held")) == held)

    def walk(self):
        """Forwards and backwards by the keyboard."""
        last = len(self.states) - 1
        self.look(0)
        for number in range(1, last + 1):
            self.page.key("ArrowRight")
            self.look(number)
            self.shot(f"event-{number:02}")
        self.page.key("ArrowRight")
        self.look(last)
        for number in reversed(range(last)):
            self.page.key("ArrowLeft")
            self.look(number)
        self.page.key("End")
        self.look(last)
        self.page.key("Home")
        self.look(0)

    def clicks(self):
        """Buttons, the list of events, links to constraints, the legend."""
        self.page.click("#forward")
        self.page.click("#forward")
        self.page.click("#back")
        self.look(1)
        self.page.click("#last")
        self.look(len(self.states) - 1)
        self.page.click("#events a[data-event='3']")
        self.look(3)
        take = next(n for n, s in enumerate(self.states)
                    if s.answer == "done" and s.event.word == "take" and self.content.grown(n))
        self.page.value(f"go({take})")
        self.page.click(".said a.to")
        self.expect("a link doesn't lead to its constraint", self.texts(".constraints .chosen") != [])
        self.expect("no constraint is marked", self.texts(".constraints .asks") != [])
        self.shot("take")
        self.page.key("?", shift=True)
        self.expect("? doesn't open the legend", self.page.value("byId('help').open"))
        self.shot("legend")
        self.page.key("Escape")
        self.page.value("document.activeElement.blur()")
        for scheme in ("light", "dark", "system"):
            self.page.click("#theme")
            self.expect(f"the button doesn't choose {scheme}",
                        self.texts("#theme span") == [scheme])

    def address(self):
        """The address of an event shows it in a fresh page."""
        other = self.browser.open(self.path, 1440, 900, self.scheme, "#event=5")
        self.expect("the address doesn't go to its event", other.value("now") == 5)

    def contrast(self):
        found = {}
        for number in range(len(self.states)):
            self.page.value(f"show({number})")
            for selector, ratio in self.page.probe("contrast", TEXTS):
                found[selector] = min(ratio, found.get(selector, ratio))
        for selector, ratio in found.items():
            self.expect(f"the contrast of {selector} is {ratio:.2f}", ratio >= LEAST)

    def widths(self):
        for width in WIDTHS:
            self.page.resize(width, 900)
            for number in range(len(self.states)):
                self.page.value(f"show({number})")
                over = self.page.probe("overflow")
                self.expect(f"{width} wide, event {number} is {over} too wide", over <= 0)
            self.page.value("show(13)")
            self.shot(f"width-{width}")
        self.page.resize(1440, 900)


def drive(browser, name, folder, shots):
    """Makes the page of an example and tries it in both schemes."""
    out = os.path.join(folder, f"{name}.html")
    with contextlib.redirect_stdout(io.StringIO()):
        if make_page([os.path.join(EXAMPLES, f"{name}.facts"), os.path.join(EXAMPLES, f"{name}.schedule"),
                      "-o", out]):
            return [f"{name}: no page"]
    wrong = []
    for scheme in ("light", "dark"):
        wrong += Drive(browser, out, name, scheme, shots).all()
    print(f"{name}: {len(wrong) or 'nothing'} wrong", flush=True)
    return wrong


def main():
    parser = argparse.ArgumentParser(description=__doc__,
                                     formatter_class=argparse.RawDescriptionHelpFormatter)
    parser.add_argument("--shots", metavar="FOLDER", help="keep pictures there")
    asked = parser.parse_args()
    if asked.shots:
        os.makedirs(asked.shots, exist_ok=True)
    os.environ["WORLD_PROGRAM"] = STATES
    wrong = []
    with tempfile.TemporaryDirectory() as folder, Browser() as browser:
        for name in SCHEDULES:
            wrong += drive(browser, name, folder, asked.shots)
    for line in wrong:
        print(line)
    return 1 if wrong else 0


if __name__ == "__main__":
    sys.exit(main())
