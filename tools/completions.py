"""Completions of a program's command line, for bash, zsh and fish, by what its help tells."""

import re
from typing import Dict, List, NamedTuple, Optional, Sequence, Tuple

# A line of an option: `  -h, --help     Print help`, `      --seed <NUMBER>   The seed of the policy`.
OPTION = re.compile(r" +(?:-(?P<short>\w), )?--(?P<name>[\w-]+)(?: <(?P<value>[^>]+)>)?  +(?P<summary>\S.*)")

# A line of a command: `  run       Runs class files`.
COMMAND = re.compile(r"  (?P<name>\w+)  +(?P<summary>\S.*)")

# What a summary lists as values: `The outcome: deadlock, uncaught or output=NUMBERS`.
VALUES = re.compile(r": ((?:[\w=]+, )*[\w=]+ or [\w=]+)")

DEFAULT = re.compile(r" \[default: [^]]*\]")

FILES = "FILE"


class Option(NamedTuple):
    """An option, and the name of its value where it takes one."""

    name: str
    short: Optional[str]
    value: Optional[str]
    summary: str

    def takes_files(self) -> bool:
        return self.value == FILES

    def choices(self) -> List[str]:
        """The values that the summary lists; behind one that ends with `=` a text has to stand."""
        found = VALUES.search(self.summary) if self.value else None
        listed = re.split(r", | or ", found.group(1)) if found else []
        return [re.sub("=.*", "=", word) for word in listed]

    def words(self) -> List[str]:
        return ([f"-{self.short}"] if self.short else []) + [f"--{self.name}"]

    def summary_alone(self) -> str:
        """The summary without the default."""
        return DEFAULT.sub("", self.summary)


class Command(NamedTuple):
    """A command of a program."""

    name: str
    summary: str
    options: List[Option]


def section(text: str, title: str) -> List[str]:
    """The lines below a title of a help, up to the next empty one."""
    return text.partition(f"\n{title}:\n")[2].partition("\n\n")[0].splitlines()


def listed_commands(text: str) -> List[Tuple[str, str]]:
    """The names and summaries of the commands that the help of a program lists, but for `help`."""
    found = [match for match in map(COMMAND.fullmatch, section(text, "Commands")) if match]
    return [(match["name"], match["summary"]) for match in found if match["name"] != "help"]


def listed_options(text: str) -> List[Option]:
    found = [match for match in map(OPTION.fullmatch, section(text, "Options")) if match]
    return [Option(match["name"], match["short"], match["value"], match["summary"]) for match in found]


def bash_words(words: Sequence[str]) -> str:
    return f'COMPREPLY=($(compgen -W "{" ".join(words)}" -- "$word"))'


def bash_value(option: Option) -> List[str]:
    """What completes the word behind an option that takes a value."""
    if option.choices():
        return [bash_words(option.choices()), "[[ ${COMPREPLY-} == *= ]] && compopt -o nospace"]
    return ["compopt -o default"] if option.takes_files() else []


def bash_values(commands: Sequence[Command]) -> List[str]:
    """The arms for words behind options that take a value, one for all options that are completed alike."""
    arms: Dict[str, List[str]] = {}
    for command in commands:
        for option in command.options:
            if option.value:
                body = "".join(f"        {line}\n" for line in bash_value(option))
                arms.setdefault(body, []).append(f"{command.name}:--{option.name}")
    return [f"    {' | '.join(words)})\n{body}        return\n        ;;" for body, words in arms.items()]


def bash(program: str, commands: Sequence[Command]) -> str:
    """The completions for bash, which want nothing but bash."""
    names = [command.name for command in commands]
    lines = [
        f"# Completions of {program} for bash.",
        f"_{program}() {{",
        "    local word=${COMP_WORDS[COMP_CWORD]} before=${COMP_WORDS[COMP_CWORD - 1]}",
        "    COMPREPLY=()",
        "    if ((COMP_CWORD == 1)); then",
        f"        {bash_words([*names, 'help', '--help', '--version'])}",
        "        return",
        "    fi",
        "    case ${COMP_WORDS[1]}:$before in",
    ]
    lines += [*bash_values(commands), "    esac", "    case ${COMP_WORDS[1]}:$word in"]
    for command in commands:
        words = [word for option in command.options for word in option.words()]
        lines.append(f"    {command.name}:-*) {bash_words(words)} ;;")
    lines.append(f"    help:*) {bash_words(names)} ;;")
    lines += ["    *) compopt -o default ;;", "    esac", "}", f"complete -F _{program} {program}"]
    return "\n".join(lines) + "\n"


def zsh_text(text: str) -> str:
    """A text within single quotes and brackets of zsh's `_arguments`."""
    return re.sub(r"([\[\]:\\])", r"\\\1", text).replace("'", "'\\''")


def zsh_option(option: Option) -> List[str]:
    action = ""
    if option.value:
        choices = " ".join(option.choices())
        values = f"({choices})" if choices else "_files" if option.takes_files() else " "
        action = f":{zsh_text(option.value)}:{values}"
    return [f"                '{word}[{zsh_text(option.summary_alone())}]{action}' \\" for word in option.words()]


def zsh(program: str, commands: Sequence[Command]) -> str:
    """The completions for zsh, as a file of its path of functions."""
    lines = [f"#compdef {program}", "", f"_{program}() {{", "    local -a commands=("]
    lines += [f"        '{command.name}:{zsh_text(command.summary)}'" for command in commands]
    lines += [
        "        'help:Prints the help of a command'",
        "    )",
        "    if ((CURRENT == 2)); then",
        "        _describe command commands",
        "        return",
        "    fi",
        "    local command=${words[2]}",
        "    shift words",
        "    ((CURRENT--))",
        "    case $command in",
    ]
    for command in commands:
        lines += [f"        {command.name})", "            _arguments \\"]
        for option in command.options:
            lines += zsh_option(option)
        lines += ["                '*:file:_files'", "            ;;"]
    lines += ["        help) _describe command commands ;;", "    esac", "}", "", f'_{program} "$@"']
    return "\n".join(lines) + "\n"


def fish_text(text: str) -> str:
    return "'" + text.replace("\\", "\\\\").replace("'", "\\'") + "'"


def fish_option(program: str, command: Command, option: Option) -> str:
    words = [f"complete -c {program} -n '__fish_seen_subcommand_from {command.name}'"]
    words += [f"-s {option.short}"] if option.short else []
    words.append(f"-l {option.name}")
    choices = " ".join(option.choices())
    if choices:
        words.append(f"-x -a {fish_text(choices)}")
    elif option.takes_files():
        words.append("-r -F")
    elif option.value:
        words.append("-x")
    return " ".join([*words, "-d", fish_text(option.summary_alone())])


def fish(program: str, commands: Sequence[Command]) -> str:
    """The completions for fish."""
    lines = [f"# Completions of {program} for fish."]
    for command in commands:
        named = f"complete -c {program} -n __fish_use_subcommand -f -a {command.name}"
        lines.append(f"{named} -d {fish_text(command.summary)}")
        lines += [fish_option(program, command, option) for option in command.options]
    return "\n".join(lines) + "\n"
