"""The order in which crates are proved side by side: what is next, and how long all of it takes."""

import heapq
from typing import Dict, List, Mapping, NamedTuple, Sequence, Set, Tuple

# The crates that each one stands on.
Below = Mapping[str, Sequence[str]]

# The seconds of a processor that each one takes.
Seconds = Mapping[str, float]

# What each process beyond the first adds to the speed of a proof: four are some three times as fast as one.
SHARE_OF_A_FURTHER_PROCESS = 0.7


class Begun(NamedTuple):
    """A proof that has begun: by how many processes, and how many seconds ago."""

    processes: int
    since: float = 0.0


def all_below(crates: Below, name: str) -> Set[str]:
    """All that a crate stands on."""
    found: Set[str] = set()
    left = list(crates[name])
    while left:
        one = left.pop()
        if one not in found:
            found.add(one)
            left.extend(crates[one])
    return found


def chains(crates: Below, seconds: Seconds) -> Dict[str, float]:
    """For each crate the seconds of the longest chain of crates above it, its own included."""
    longest: Dict[str, float] = {}
    above: Dict[str, List[str]] = {name: [] for name in crates}
    for name, below in crates.items():
        for one in below:
            above[one].append(name)

    def chain(name: str) -> float:
        if name not in longest:
            longest[name] = seconds[name] + max(map(chain, above[name]), default=0)
        return longest[name]

    for name in crates:
        chain(name)
    return longest


def ready(crates: Below, seconds: Seconds, done: Set[str], begun: Set[str]) -> List[str]:
    """The crates that may begin, the one with the longest chain above it first."""
    longest = chains(crates, seconds)
    free = [name for name, below in crates.items() if name not in done | begun and done.issuperset(below)]
    return sorted(free, key=lambda name: (-longest[name], name))


def next_ones(
    crates: Below, seconds: Seconds, done: Set[str], begun: Mapping[str, Begun], processes: int
) -> Dict[str, int]:
    """The crates to begin now, each with the processes that prove it; so many processes are at work then."""
    free = max(processes - sum(proof.processes for proof in begun.values()), 0)
    names = ready(crates, seconds, done, set(begun))[:free]
    return {name: free // len(names) + (at < free % len(names)) for at, name in enumerate(names)}


def by_the_clock(seconds: float, processes: int) -> float:
    """How long a proof takes that takes so many seconds of one processor."""
    return seconds / (1 + SHARE_OF_A_FURTHER_PROCESS * (processes - 1))


def time_left(crates: Below, seconds: Seconds, done: Set[str], begun: Mapping[str, Begun], processes: int) -> float:
    """The seconds until all are proved by so many processes."""
    now, finished, at_work = 0.0, set(done), dict(begun)
    ends: List[Tuple[float, str]] = []
    for name, (shared, since) in begun.items():
        ends.append((max(by_the_clock(seconds[name], shared) - since, 0), name))
    heapq.heapify(ends)
    while True:
        for name, shared in next_ones(crates, seconds, finished, at_work, processes).items():
            at_work[name] = Begun(shared)
            heapq.heappush(ends, (now + by_the_clock(seconds[name], shared), name))
        if not ends:
            return now
        now, name = heapq.heappop(ends)
        finished.add(name)
        del at_work[name]
