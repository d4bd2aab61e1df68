"""What a build shows as it goes: a line for each crate on a pipe, one line that is rewritten on a terminal."""

import shutil
import sys
import time
from typing import Mapping, Optional

from tools.build_plan import Begun, Below, Seconds, time_left

# What takes less of the usual seconds was proved before, and says nothing of how fast this machine is.
LEAST_SHARE = 0.1

# How much of the plan has to be done before its pace says something.
LEAST_SECONDS = 20.0


class Pace:
    """How long the rest takes: by the usual seconds of crates, and by what this build has taken for what is done."""

    def __init__(self, crates: Below, seconds: Seconds, processes: int) -> None:
        self.crates, self.seconds, self.processes = crates, dict(seconds), processes
        self.begun = time.monotonic()
        self.usual = dict(seconds)

    def is_anew(self, crate: str, taken: float) -> bool:
        """Notes that a crate is proved; answers whether so many seconds of a processor say that it wasn't before."""
        if taken < self.usual[crate] * LEAST_SHARE:
            self.seconds[crate] = 0.0
            return False
        return True

    def scale(self, planned: float, left: float) -> float:
        """How many times as long as planned the build takes."""
        done = planned - left
        return (time.monotonic() - self.begun) / done if done > LEAST_SECONDS else 1.0

    def left(self, done: Mapping[str, float], begun: Mapping[str, Begun]) -> float:
        """The seconds that the rest takes."""
        planned = time_left(self.crates, self.seconds, set(), {}, self.processes)
        left = time_left(self.crates, self.seconds, set(done), begun, self.processes)
        return left * self.scale(planned, left)


def minutes(seconds: float) -> str:
    """A time as a reader wants it told: about so many minutes."""
    whole = round(seconds / 60)
    return "less than a minute" if whole < 1 else "about a minute" if whole == 1 else f"about {whole} minutes"


class Report:
    """Where the build's lines go."""

    def __init__(self, crates: int) -> None:
        self.crates = crates
        self.is_terminal = sys.stdout.isatty()
        self.shown = 0.0

    def state(self, done: int, running: Mapping[str, float], left: float) -> str:
        """What is proved, what is being proved, each with its seconds so far, and how long the rest takes."""
        now = ", ".join(f"{crate} {seconds:.0f} s" for crate, seconds in running.items()) or "none"
        return f"{done} of {self.crates} crates are proved, {minutes(left)} left; now {now}"

    def tell(self, proved: str, done: int, running: Mapping[str, float], left: float) -> None:
        """Tells that a crate is proved."""
        if not self.is_terminal:
            print(f"{proved}: {self.state(done, running, left)}", flush=True)

    def is_due(self) -> bool:
        """Whether a terminal wants the line anew: once a second."""
        return self.is_terminal and time.monotonic() - self.shown >= 1

    def rewrite(self, done: int, running: Mapping[str, float], left: float) -> None:
        """On a terminal tells where the build stands."""
        if self.is_terminal:
            self.shown = time.monotonic()
            width = shutil.get_terminal_size().columns - 1
            print(f"\r\x1b[K{self.state(done, running, left)[:width]}", end="", flush=True)

    def end(self, line: Optional[str] = None) -> None:
        """Leaves the line that is rewritten, and prints a last one."""
        if self.is_terminal:
            print("\r\x1b[K", end="", flush=True)
        if line is not None:
            print(line, flush=True)
