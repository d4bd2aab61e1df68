"""Definitions of the model as they stand in its files, and what they come to by their clauses.

What is read of a file are the clauses of its functions, over this part of the notation: numbers, texts, lists, records
and their fields, constructors, functions of all of their arguments, `length`, `∷`, `++`, `+` and `*`. A list of bytes is
`bytes`, a constructor a tuple of its name and what it has, a record a dictionary.
"""

import pathlib
import re
from typing import Any, Dict, Iterable, List, NamedTuple, Tuple

TOKEN = re.compile(r'"(?:[^"\\]|\\.)*"|\[\]|\+\+|[\w.]+|[∷+*(){};=]')

# What begins a line at the margin that is no clause.
OTHER = ("abbrev", "unfoldable", "pub", "use")

# How strongly an operator binds what stands beside it; each of them binds from the right.
OPERATORS = {"∷": 1, "++": 1, "+": 2, "*": 3}

# What stands for what in a text.
ESCAPES = {"n": "\n"}

Scope = Dict[str, Any]


class Clause(NamedTuple):
    """A clause of a function: its patterns and its value.

    A pattern is a name, `[]`, the names of the first of a list and of the others, or a constructor and names.
    """

    patterns: List[List[str]]
    value: List[str]


def chunks(text: str) -> Iterable[str]:
    """What begins at the margin, each with the lines further in behind it."""
    kept = "\n".join(line for line in text.splitlines() if not line.lstrip().startswith("--"))
    return (chunk for chunk in re.split(r"\n(?=\S)", kept) if chunk.strip())


def patterns_of(tokens: List[str]) -> List[List[str]]:
    found: List[List[str]] = []
    while tokens:
        if tokens[0] == "(":
            end = tokens.index(")")
            found.append([token for token in tokens[1:end] if token != "∷"])
            tokens = tokens[end + 1 :]
        else:
            found.append(tokens[:1])
            tokens = tokens[1:]
    return found


def clauses_of(text: str) -> Dict[str, List[Clause]]:
    """The clauses of a file's functions, by their names."""
    found: Dict[str, List[Clause]] = {}
    for chunk in chunks(text):
        tokens = TOKEN.findall(chunk)
        if tokens[0] in OTHER or "=" not in tokens:
            continue
        at = tokens.index("=")
        found.setdefault(tokens[0], []).append(Clause(patterns_of(tokens[1:at]), tokens[at + 1 :]))
    return found


def is_constructor(name: str) -> bool:
    return name[0].isupper()


class Expression:
    """An expression that is read token by token, with what it comes to."""

    def __init__(self, definitions: "Definitions", tokens: List[str], scope: Scope) -> None:
        self.definitions, self.tokens, self.scope, self.at = definitions, tokens, scope, 0

    def next(self) -> str:
        return self.tokens[self.at] if self.at < len(self.tokens) else ""

    def take(self, wanted: str = "") -> str:
        token = self.next()
        if not token or wanted and token != wanted:
            raise ValueError(f"{token!r} stands where {wanted or 'a value'} is to stand")
        self.at += 1
        return token

    def value(self, binding: int = 1) -> Any:
        """What stands here, up to an operator that binds less."""
        left = self.applied()
        while OPERATORS.get(self.next(), 0) >= binding:
            operator = self.take()
            right = self.value(OPERATORS[operator])
            left = [left, *right] if operator == "∷" else left * right if operator == "*" else left + right
        return left

    def applied(self) -> Any:
        """A function or a constructor with its arguments, or a value."""
        name = self.next()
        if name[0].isalpha() and name != "record" and name.partition(".")[0] not in self.scope:
            self.take()
            count = self.definitions.arity(name)
            arguments: List[Any] = []
            while len(arguments) != count and self.begins_value():
                arguments.append(self.atom())
            return self.definitions.applied(name, arguments)
        return self.atom()

    def begins_value(self) -> bool:
        token = self.next()
        return bool(token) and (token in ("(", "[]") or token[0] == '"' or token[0].isalnum())

    def atom(self) -> Any:
        token = self.take()
        if token == "(":
            value = self.value()
            self.take(")")
            return value
        if token == "[]":
            return []
        if token == "record":
            return self.record()
        if token[0] == '"':
            return re.sub(r"\\(.)", lambda found: ESCAPES.get(found[1], found[1]), token[1:-1]).encode("ascii")
        if token[0].isdigit():
            return int(token, 0)
        return self.named(token)

    def named(self, token: str) -> Any:
        first, *fields = token.split(".")
        value = self.scope[first] if first in self.scope else self.definitions.applied(first, [])
        for field in fields:
            value = value[field]
        return value

    def record(self) -> Dict[str, Any]:
        self.take("{")
        found = {}
        while self.next() != "}":
            name = self.take()
            self.take("=")
            found[name] = self.value()
            if self.next() == ";":
                self.take()
        self.take("}")
        return found


class Definitions:
    """The definitions of some files."""

    def __init__(self, paths: Iterable[pathlib.Path]) -> None:
        self.functions: Dict[str, List[Clause]] = {}
        for path in paths:
            self.functions.update(clauses_of(path.read_text(encoding="utf-8")))

    def arity(self, name: str) -> int:
        """How many arguments a function takes; -1 where as many as stand there."""
        if is_constructor(name) or name in ("codes", "length"):
            return -1
        return len(self.functions[name][0].patterns)

    def applied(self, name: str, arguments: List[Any]) -> Any:
        if is_constructor(name):
            return (name, *arguments)
        if name == "codes":
            return arguments[0]
        if name == "length":
            return len(arguments[0])
        for clause in self.functions[name]:
            is_met, scope = matched(clause.patterns, arguments)
            if is_met:
                return Expression(self, clause.value, scope).value()
        raise ValueError(f"no clause of {name} takes its arguments")

    def value(self, name: str) -> Any:
        return self.applied(name, [])


def matched(patterns: List[List[str]], arguments: List[Any]) -> Tuple[bool, Scope]:
    """Whether arguments have the forms of patterns, and what their names stand for."""
    scope: Scope = {}
    for pattern, argument in zip(patterns, arguments):
        if pattern == ["[]"]:
            if argument:
                return False, {}
        elif is_constructor(pattern[0]):
            if argument[0] != pattern[0]:
                return False, {}
            scope.update(zip(pattern[1:], argument[1:]))
        elif len(pattern) == 2:
            if not argument:
                return False, {}
            scope[pattern[0]], scope[pattern[1]] = argument[0], argument[1:]
        else:
            scope[pattern[0]] = argument
    return len(patterns) == len(arguments), scope
