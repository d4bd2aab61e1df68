#!/usr/bin/env python3
"""Opens pages of runs in a browser, and compares what stands there with `jvm trace --json`.

    compare/pages.py [--shots FOLDER] PROGRAM

PROGRAM is the built program. Of each schedule of lessons/, and of a class whose names and texts look like markup, it
makes a page, and opens it in Chromium without a window: the packages chromium, chromium-driver and python3-selenium of
Debian. Arrow keys go through all steps, to the end and back. At five of them lanes, the event, the owners and the
waiters of monitors, and the printed text have to be those of the JSON; by default the events are those that tell of
what threads share. The console has no error, and text stands out from what is behind it by 4.5 to 1 at least, in the
light and in the dark. With --shots pictures are kept, 1280 and 400 pixels wide. The status is 0 where nothing differs.
Where there is no browser it says so, and the status is 0.
"""

import argparse
import json
import pathlib
import re
import shutil
import subprocess
import sys
import tempfile
from typing import Any, Dict, Iterator, List, NamedTuple, Optional, Sequence, Tuple

sys.dont_write_bytecode = True
sys.path.insert(0, str(pathlib.Path(__file__).resolve().parent.parent))

from tools.class_files import (
    METHODREF,
    NAME_AND_TYPE,
    class_file,
    code_attribute,
    member,
    named_class,
    pair,
    stored_utf8,
)
from tools.class_files import utf8
from tools.repository import ROOT

LESSONS = ROOT / "lessons"

COMMAND = re.compile(r"^\$ jvm (?:replay|races) --schedule (\S+)(?: --then-run)? ([^#\n]+?) #", re.M)

# Events of these words tell of what threads share, and so do those that tell of a monitor.
SHARED = set(
    "reads writes enters exits waits wakes notifies starts interrupts joins prints throws"
    " begins finds initialises fails ends".split()
)

FIELDREF, STRING = 9, 8

# What looks like markup: the end of a script, a comment, a character of two units, half of one, a line separator.
ODD_TEXT = b"</script><b>&amp;\"'<!-- ]]>%41\\ \xed\xa0\xbd\xed\xb8\x80\xed\xa0\xbd\xe2\x80\xa8|\n"
ODD_NAME = b"A<script>&\"'%3Cb>\xe2\x80\xa8"

Event = Dict[str, Any]


class Run(NamedTuple):
    """A run that has a page: what it is called by, its schedule, and its class files."""

    name: str
    schedule: str
    files: List[str]


def odd_class() -> bytes:
    """A class of an odd name that prints an odd text."""
    pool = [
        stored_utf8(ODD_NAME),
        bytes([7, 0, 1]),
        *named_class(3, "java/lang/Object"),
        *map(utf8, ("main", "([Ljava/lang/String;)V", "Code")),
        *named_class(8, "java/lang/System"),
        *named_class(10, "java/io/PrintStream"),
        *map(utf8, ("out", "Ljava/io/PrintStream;", "print", "(Ljava/lang/String;)V")),
        stored_utf8(ODD_TEXT),
        bytes([STRING, 0, 16]),
        pair(NAME_AND_TYPE, 12, 13),
        pair(FIELDREF, 9, 18),
        pair(NAME_AND_TYPE, 14, 15),
        pair(METHODREF, 11, 20),
    ]
    # getstatic System.out, ldc the text, invokevirtual print, return
    code = code_attribute(7, 2, 1, bytes.fromhex("b20013 1211 b60015 b1".replace(" ", "")), [])
    return class_file(pool, 0x20, (2, 4), [], [member(9, 5, 6, [code])])


def runs(folder: pathlib.Path) -> Iterator[Run]:
    """The runs of the pages of the lessons, and that of the odd class."""
    for page in sorted(LESSONS.glob("*/README.md")):
        seen = set()
        for schedule, files in COMMAND.findall(page.read_text()):
            if schedule not in seen:
                seen.add(schedule)
                paths = [str(page.parent / file) for file in files.split()]
                name = f"{page.parent.name}-{pathlib.Path(schedule).stem}"
                yield Run(name, str(page.parent / schedule), paths)
    (folder / "odd.class").write_bytes(odd_class())
    yield Run("odd", "0*8", [str(folder / "odd.class")])


def traced(program: pathlib.Path, run: Run) -> Tuple[List[Event], str]:
    """The events of a run, and its report."""
    words = [str(program), "trace", "--quiet", "--json", "--schedule", run.schedule, *run.files]
    lines = subprocess.run(words, stdout=subprocess.PIPE, check=False).stdout.split(b"\n")
    count = next(at for at, line in enumerate(lines) if not line.startswith(b'{"event":'))
    report = b"\n".join(lines[count:]).decode("utf-8", "replace")
    return [json.loads(line) for line in lines[:count]], report


def printed_text(report: str) -> str:
    """What the run printed, as the report has it."""
    return "" if report.startswith("thread 0 ") else report[: report.rindex("\nthread 0 ") + 1]


def units_of(text: str, count: int) -> str:
    """The first so many UTF-16 code units of a text."""
    return text.encode("utf-16-le", "surrogatepass")[: 2 * count].decode("utf-16-le", "surrogatepass")


def monitors_at(events: Sequence[Event]) -> Dict[str, Tuple[str, str, str]]:
    """Who owns and who waits on each monitor behind these events: owner, count and waiters, as texts."""
    found: Dict[str, Tuple[Optional[int], int, List[int]]] = {}
    for event in events:
        if "monitor" in event:
            waiting = [one for one in found.get(event["monitor"], (None, 0, []))[2] if one != event["thread"]]
            waiting += [event["thread"]] if event["op"] == "waits" else []
            owner = event["thread"] if event["count"] else None
            found[event["monitor"]] = (owner, event["count"], waiting)
    return {
        monitor: ("" if owner is None else str(owner), str(count), " ".join(map(str, waiting)))
        for monitor, (owner, count, waiting) in found.items()
    }


def shared(events: Sequence[Event]) -> List[Event]:
    return [event for event in events if event.get("op") in SHARED or "monitor" in event] or list(events)


# ---- what stands on a page, by a script that runs there

STATE = """
const text = (node) => node.textContent;
return {
  did: text(document.getElementById("did")),
  current: Number(document.querySelector(".row[aria-current]").dataset.event),
  printed: text(document.getElementById("printed")),
  monitors: [...document.querySelectorAll("#monitors li[data-monitor]")].map((item) =>
    [item.dataset.monitor, [item.dataset.owner, item.dataset.count, item.dataset.waiting]]),
};"""

ROWS = """
return [...document.querySelectorAll("#events .row")].map((row) =>
  [Number(row.dataset.event), Number(row.dataset.thread), row.querySelector(".did").textContent]);"""

LANES = 'return [...document.querySelectorAll("#lanes .text")].map((lane) => lane.textContent);'

# The least contrast of a text and what is behind it (WCAG 2.1, 1.4.3).
CONTRAST = """
const light = (color) => {
  const [r, g, b] = color.match(/[\\d.]+/g).map(Number).map((part) =>
    part / 255 <= 0.03928 ? part / 255 / 12.92 : Math.pow((part / 255 + 0.055) / 1.055, 2.4));
  return 0.2126 * r + 0.7152 * g + 0.0722 * b;
};
const behind = (node) => {
  for (let at = node; at; at = at.parentElement) {
    const color = getComputedStyle(at).backgroundColor;
    if (!/, 0\\)$|transparent/.test(color)) return color;
  }
  return "rgb(255, 255, 255)";
};
let least = 21;
const told = "h1, h2, p, label, output, dt, dd, li, small, pre, .did, .number, button";
for (const node of document.querySelectorAll(told)) {
  if (!node.textContent.trim() || node.disabled || !node.getClientRects().length) continue;
  const [one, other] = [light(getComputedStyle(node).color), light(behind(node))];
  least = Math.min(least, (Math.max(one, other) + 0.05) / (Math.min(one, other) + 0.05));
}
return least;"""


class Page:
    """A page that is open in a browser."""

    def __init__(self, browser: Any, path: pathlib.Path) -> None:
        self.browser, self.faults = browser, []  # type: Any, List[str]
        self.size(1280, 900)
        browser.get(path.as_uri())

    def size(self, width: int, height: int, scheme: str = "light") -> None:
        metrics = {"width": width, "height": height, "deviceScaleFactor": 1, "mobile": False}
        self.browser.execute_cdp_cmd("Emulation.setDeviceMetricsOverride", metrics)
        features = [{"name": "prefers-color-scheme", "value": scheme}]
        self.browser.execute_cdp_cmd("Emulation.setEmulatedMedia", {"features": features})

    def press(self, key: str) -> None:
        self.browser.find_element("tag name", "body").send_keys(key)

    def wants(self, what: str, wanted: Any, found: Any) -> None:
        if wanted != found:
            self.faults.append(f"{what}: {wanted!r} is wanted, and {found!r} stands there")


def compare_state(page: Page, events: Sequence[Event], event: Event, printed: str) -> None:
    """What stands on a page at an event."""
    state = page.browser.execute_script(STATE)
    so_far = [one for one in events if one["event"] <= event["event"]]
    units = max((one["printed"] for one in so_far if "printed" in one), default=0)
    at = f"event {event['event']}"
    page.wants(f"{at}, the event", event["event"], state["current"])
    page.wants(f"{at}, what was done", event.get("did") or event.get("instruction") or "begins", state["did"])
    page.wants(f"{at}, printed", units_of(printed, units), state["printed"])
    owners = {monitor: tuple(found) for monitor, found in state["monitors"]}
    page.wants(f"{at}, monitors", monitors_at(so_far), owners)


def compare(page: Page, events: List[Event], report: str) -> None:
    """What stands on a page of these events, with this report."""
    from selenium.webdriver.common.keys import Keys

    printed, told = printed_text(report), shared(events)
    threads = re.findall(r"^thread (\d+) ", report[len(printed) :], re.M)
    objects = {event["started"]: event["object"] for event in events if "started" in event}
    lanes = [f"thread {thread} {objects.get(int(thread), 'main' if thread == '0' else '')}" for thread in threads]
    page.wants("lanes", lanes, page.browser.execute_script(LANES))
    rows = [
        [event["event"], event["thread"], event.get("did") or event.get("instruction") or "begins"] for event in told
    ]
    page.wants("rows", rows, page.browser.execute_script(ROWS))
    looked = {len(told) * part // 4 for part in range(4)} | {len(told) - 1}
    for place, event in enumerate(told):
        if place in looked:
            compare_state(page, events, event, printed)
        page.press(Keys.ARROW_DOWN)
    for event in told[-2::-1]:
        page.press(Keys.ARROW_UP)
    compare_state(page, events, told[0], printed)
    page.browser.find_element("id", "everything").click()
    page.wants("all rows", [event["event"] for event in events], [row[0] for row in page.browser.execute_script(ROWS)])
    page.press(Keys.END)
    compare_state(page, events, events[-1], printed)
    for scheme in ("light", "dark"):
        page.size(1280, 900, scheme)
        least = page.browser.execute_script(CONTRAST)
        if least < 4.5:
            page.faults.append(f"in the {scheme} a text has a contrast of {least:.2f}")
    page.faults += [f"console: {entry['message']}" for entry in page.browser.get_log("browser")]


def keep_shots(page: Page, folder: pathlib.Path, name: str) -> None:
    """Pictures of a page, wide and narrow, light and dark."""
    for width, height in ((1280, 900), (400, 800)):
        for scheme in ("light", "dark"):
            page.size(width, height, scheme)
            page.browser.save_screenshot(str(folder / f"{name}-{width}-{scheme}.png"))


def opened_browser() -> Any:
    """Chromium without a window; None where it or what drives it isn't there."""
    try:
        from selenium import webdriver
        from selenium.webdriver.chrome.options import Options
        from selenium.webdriver.chrome.service import Service
    except ImportError:
        return None
    chromium, driver = shutil.which("chromium"), shutil.which("chromedriver")
    if not chromium or not driver:
        return None
    options = Options()
    options.binary_location = chromium
    for word in ("--headless=new", "--no-sandbox", "--disable-gpu"):
        options.add_argument(word)
    options.set_capability("goog:loggingPrefs", {"browser": "ALL"})
    return webdriver.Chrome(service=Service(driver), options=options)


def faults_of(
    browser: Any, program: pathlib.Path, run: Run, folder: pathlib.Path, shots: Optional[pathlib.Path]
) -> List[str]:
    """What differs on the page of a run."""
    path = folder / f"{run.name}.html"
    words = [str(program), "trace", "--quiet", "--html", str(path), "--schedule", run.schedule, *run.files]
    subprocess.run(words, stdout=subprocess.DEVNULL, check=False)
    events, report = traced(program, run)
    page = Page(browser, path)
    compare(page, events, report)
    if shots:
        keep_shots(page, shots, run.name)
    return [f"{run.name}: {fault}" for fault in page.faults]


def main() -> int:
    parser = argparse.ArgumentParser(description="Compares pages of runs with their traces, in a browser.")
    parser.add_argument("program", type=pathlib.Path, help="the built program")
    parser.add_argument("--shots", type=pathlib.Path, help="the folder that pictures are kept in")
    options = parser.parse_args()
    browser = opened_browser()
    if browser is None:
        print("pages: there is no chromium, chromedriver or selenium, and no page is opened")
        return 0
    faults: List[str] = []
    count = 0
    try:
        with tempfile.TemporaryDirectory() as folder:
            for run in runs(pathlib.Path(folder)):
                faults += faults_of(browser, options.program.resolve(), run, pathlib.Path(folder), options.shots)
                count += 1
    finally:
        browser.quit()
    print("\n".join([*faults, f"{count} pages, {len(faults)} differences"]))
    return 1 if faults else 0


if __name__ == "__main__":
    sys.exit(main())
