"""Trials of `jvm` over sets of class files that are made by chance, each from a seed of its own.

tools/random_programs.py makes the files of the sets. Each set has threads, monitors, wait sets, exceptions and
initialisers, and has to be accepted. It is run by one worker with a seed, within limits that it may meet, and recorded;
and the replay has to say what the run said. Then the schedule file is changed and replayed. At last a class file is
changed, twice, and each time the set is listed, verified, run and replayed again.
"""

import pathlib
import random
import re
import tempfile
from typing import List, Optional

from tools.cases import file_lines
from tools.form_trials import refusal_of_bytes
from tools.outcomes import Jvm, Outcome, in_words, is_replay
from tools.random_programs import CLASSES, random_set
from tools.set_counts import SetCounts

# The names of the class files of a set, and that of its schedule file.
NAMES, SCHEDULE = tuple(CLASSES), "S"

# How many times a class file of a set is changed.
CHANGES = 2

STATE = re.compile(r"thread [0-9]+ (.*)")


def changed(data: bytes, chance: random.Random) -> bytes:
    """The bytes with a change, or more of them by chance: another byte, one more, one less, or no more than a front."""
    for _ in range(3):
        data = changed_once(data, chance)
        if chance.randrange(4):
            break
    return data


def changed_once(data: bytes, chance: random.Random) -> bytes:
    """The bytes with a change, mostly in the second half, where a class file has its methods."""
    if not data:
        return data
    place = chance.randrange(0 if chance.randrange(4) == 0 else len(data) // 2, len(data))
    head, byte, tail = data[:place], data[place], data[place + 1 :]
    kind = chance.randrange(16)
    if kind < 2:
        return head if kind == 0 else head + tail
    if kind == 2:
        return head + bytes([chance.randrange(256)]) + data[place:]
    by_one = byte + 1 if kind < 9 else byte - 1
    other = byte ^ 1 << chance.randrange(8) if kind < 6 else by_one if kind < 12 else chance.randrange(256)
    return head + bytes([other % 256]) + tail


def limits(chance: random.Random) -> List[str]:
    """Limits by chance, which a run may meet: mostly roomy, and else below a number."""
    words: List[str] = []
    for name, least, tight, roomy in (
        ("objects", 0, 40, 1000),
        ("cells", 0, 80, 2000),
        ("monitors", 0, 4, 100),
        ("threads", 1, 4, 20),
        ("frames", 1, 6, 60),
    ):
        words += [f"--{name}", str(max(least, chance.randrange(tight)) if chance.randrange(6) == 0 else roomy)]
    return words


def run_options(chance: random.Random) -> List[str]:
    """How a run goes by chance: by which policy, and up to how many events."""
    words, seed = ["--budget", str(chance.randrange(6000))], ["--seed", str(chance.randrange(1 << 32))]
    kind = chance.randrange(4)
    if kind == 0:
        return [*words, "--quantum", str(1 + chance.randrange(100))]
    return [*words, *(["--policy", "random"] if kind == 1 else []), *seed]


class SetTrial:
    """A set of class files in its folder, with the options of its runs. A seed says all that is drawn."""

    def __init__(self, program: pathlib.Path, folder: pathlib.Path, seed: int, counts: SetCounts) -> None:
        self.jvm, self.folder, self.counts = Jvm(program, folder), folder, counts
        self.chance = random.Random(seed)
        for name, data in random_set(self.chance).items():
            (folder / name).write_bytes(data)
        self.options = [*run_options(self.chance), *limits(self.chance)]

    def ran(self, label: str, words: List[str]) -> Outcome:
        """What comes of these words and all class files, counted by this label."""
        outcome = self.jvm.ran([*words, *NAMES])
        self.counts.add(in_words(label, outcome))
        return outcome

    def verify(self, label: str) -> Outcome:
        return self.ran(label, ["verify", "--quiet", "--files-alone"])

    def run(self, label: str) -> Outcome:
        return self.ran(label, ["run", "--quiet", "--files-alone", "--record", SCHEDULE, *self.options])

    def replay(self, label: str) -> Outcome:
        return self.ran(label, ["replay", "--quiet", "--files-alone", "--schedule", SCHEDULE])

    def wrong(self) -> Optional[str]:
        """What is wrong with the set, as it is made and changed."""
        if self.verify("verify").status != 0:
            return "not verified"
        ran = self.run("run")
        if not ran.output:
            return "not run"
        for state in STATE.findall(ran.output.decode("latin-1")):
            self.counts.add(f"thread {state}")
        if not is_replay(ran, self.replay("replay")):
            return "replayed otherwise"
        self.change(SCHEDULE)
        self.replay("replay of a changed schedule")
        for _ in range(CHANGES):
            name = self.chance.choice(NAMES)
            self.change(name)
            wrong = self.wrong_change(name)
            if wrong:
                return wrong
        return None

    def change(self, name: str) -> None:
        path = self.folder / name
        path.write_bytes(changed(path.read_bytes(), self.chance))

    def wrong_change(self, name: str) -> Optional[str]:
        """What is wrong with the set behind a change of this file."""
        listing, verified = self.jvm.ran(["disasm", "--quiet", name]), self.verify("changed: verify")
        if (listing.status != 0) != bool(listing.error):
            return "listed and refused"
        if listing.error and refusal_of_bytes(verified) is None:
            return "not listed, and decoded"
        ran = self.run("changed: run")
        if ran.error != verified.error:
            return "run otherwise than verified"
        is_same = not ran.output or is_replay(ran, self.replay("changed: replay"))
        return None if is_same else "replayed otherwise"

    def lines(self, seed: int, wrong: str) -> List[str]:
        """What is wrong, and the files as a text of cases has them."""
        lines = [f"# seed {seed}: {wrong}"]
        for name in (*NAMES, SCHEDULE):
            path = self.folder / name
            lines += file_lines(name, path.read_bytes() if path.exists() else b"")
        return [*lines, f"case {seed}", "  " + " ".join(["run", "--record", SCHEDULE, *self.options, *NAMES])]


def tried(program: pathlib.Path, seed: int) -> List[str]:
    """What is said of the set of a seed, which is made in a folder that is made for it."""
    counts = SetCounts()
    with tempfile.TemporaryDirectory(prefix="jvm-sets-") as folder:
        trial = SetTrial(program, pathlib.Path(folder), seed, counts)
        wrong = trial.wrong()
        counts.add_set(wrong is not None)
        told = trial.lines(seed, wrong) if wrong else []
    return [*told, *counts.lines()]
