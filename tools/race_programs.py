"""Java programs of three threads that are made by chance, with and without data races.

Each has fields with `volatile` and without, elements of an array, two locks, a class with an initialiser that writes a
field, waits, interrupts, and what a thread asks of another one. None has a loop, so each run ends, or waits for ever.
"""

import random
from typing import Callable, List, Sequence

FIELDS = ("a", "b", "v", "w", "cells[0]", "cells[1]", "NAMEOnce.n")

CONDITIONS = (
    "a == 0",
    "v == 1",
    "w == 0",
    "cells[0] == 0",
    "Thread.interrupted()",
    "first.isAlive()",
    "!second.isAlive()",
    "first.isInterrupted()",
    "!second.isInterrupted()",
)

PROGRAM = """class NAME extends Thread {
    static final Object ONE = new Object();
    static final Object TWO = new Object();
    static final int[] cells = new int[2];
    static int a, b;
    static volatile int v, w;
    static Thread first, second;

    public void run() {
        try {
            work();
        } catch (InterruptedException e) {
            a = 1;
        }
    }

    void work() throws InterruptedException {
        int x = 0;
        if (this == first) {
FIRST
        } else {
SECOND
        }
    }

    public static void main(String[] words) throws InterruptedException {
        int x = 0;
        first = new NAME();
        second = new NAME();
        first.start();
MAIN
    }
}

class NAMEOnce {
    static int n;

    static {
        NAME.b = 1;
    }
}
"""

Statement = Callable[[random.Random, int], List[str]]


def indented(lines: List[str]) -> List[str]:
    return ["    " + line for line in lines]


def access(chance: random.Random, _depth: int) -> List[str]:
    field = chance.choice(FIELDS)
    return [f"{field} = 1;" if chance.randrange(2) else f"x = {field};"]


def locked(chance: random.Random, depth: int) -> List[str]:
    lock, inside = chance.choice(("ONE", "TWO")), block(chance, depth - 1)
    if chance.randrange(5) == 0:
        inside.insert(chance.randrange(len(inside) + 1), f"{lock}.{chance.choice(('wait', 'notifyAll'))}();")
    return [f"synchronized ({lock}) {{", *indented(inside), "}"]


def guarded(chance: random.Random, depth: int) -> List[str]:
    return [f"if ({chance.choice(CONDITIONS)}) {{", *indented(block(chance, depth - 1)), "}"]


def of_thread(chance: random.Random, _depth: int) -> List[str]:
    return [f"{chance.choice(('first', 'second'))}.{chance.choice(('join', 'interrupt', 'interrupt'))}();"]


def statement(chance: random.Random, depth: int) -> List[str]:
    kinds: Sequence[Statement] = [access] * 5 + ([locked] * 2 + [guarded] * 2) * (depth > 0) + [of_thread]
    return chance.choice(kinds)(chance, depth)


def block(chance: random.Random, depth: int) -> List[str]:
    """One or two statements, in which others stand so deep."""
    return [line for _ in range(chance.randint(1, 2)) for line in statement(chance, depth)]


def body(lines: List[str], depth: int) -> str:
    return "\n".join("    " * depth + line for line in lines)


def source(name: str, chance: random.Random) -> str:
    """A program of this name."""
    main = block(chance, 1)
    main.insert(chance.randrange(len(main) + 1), "second.start();")
    parts = {"FIRST": body(block(chance, 2), 3), "SECOND": body(block(chance, 2), 3), "MAIN": body(main, 2)}
    text = PROGRAM
    for part, lines in parts.items():
        text = text.replace(part, lines)
    return text.replace("NAME", name)
