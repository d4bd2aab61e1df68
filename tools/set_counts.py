"""What `tools/fuzz` says of sets of class files that are made by chance, counted."""

import collections
import re
from typing import Counter, List

COUNT = re.compile(r"  ([0-9]+) (.*)")
TOLD = re.compile(r"([0-9]+) sets of class files, ([0-9]+) wrong")


class SetCounts:
    """What came of the sets so far."""

    def __init__(self) -> None:
        self.counts: Counter[str] = collections.Counter()
        self.sets = self.wrong = 0

    def add(self, what: str) -> None:
        self.counts[what] += 1

    def add_set(self, is_wrong: bool) -> None:
        self.sets += 1
        self.wrong += is_wrong

    def take(self, said: str) -> List[str]:
        """Takes what was said of some sets, and answers the lines of those that are wrong."""
        others: List[str] = []
        for line in said.splitlines():
            count, told = COUNT.fullmatch(line), TOLD.fullmatch(line)
            if told:
                self.sets, self.wrong = self.sets + int(told[1]), self.wrong + int(told[2])
            elif count:
                self.counts[count[2]] += int(count[1])
            else:
                others.append(line)
        return others

    def lines(self) -> List[str]:
        """What came of all of them."""
        counted = [f"  {count} {what}" for what, count in sorted(self.counts.items())]
        return [f"{self.sets} sets of class files, {self.wrong} wrong", *counted]
