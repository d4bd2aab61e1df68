"""What is installed of `jvm` below a folder: the program, its manual pages, completions, documents and tools."""

import os
import pathlib
import shutil
import signal
import subprocess
import sys
from typing import List, Sequence

from tools.completions import Command, bash, fish, listed_commands, listed_options, zsh
from tools.manual import USER_COMMANDS, manual_page
from tools.repository import JVM, ROOT

PROGRAM = "jvm"
DOCUMENTS = ["README.md", "docs", "lessons", "library", "programs", "cluster/README.md"]
SCRIPTS = ["java-classes", "jvm-java", "class-file", "jvm-cluster"]

# What the scripts stand on, by folders.
MODULES = {
    "tools": ["__init__.py", "class_files.py", "repository.py", "set_counts.py"],
    "cluster": ["*.py"],
    "oracle": [
        *("__init__.py", "calls.py", "classes.py", "frames.py", "machine.py", "objects.py"),
        *("opcodes.py", "schedules.py", "seeds.py", "state.py", "strings.py", "texts.py", "texts_made.py"),
    ],
}


class Fault(Exception):
    """Why nothing, or not all, is installed."""


def prove_and_build(is_built: bool = False) -> None:
    """Proves and builds the program; one that is built already is taken as it stands."""
    if is_built:
        if not JVM.is_file():
            raise Fault(f"{JVM.relative_to(ROOT)} isn't there: tools/build makes it")
        return
    # An interrupt is the build's, which ends what it began.
    before = signal.signal(signal.SIGINT, signal.SIG_IGN)
    done = subprocess.run([sys.executable, "-B", str(ROOT / "tools/build")])
    signal.signal(signal.SIGINT, before)
    if done.returncode != 0:
        raise Fault("the program isn't proved, and nothing is installed")


def make_folder(path: str) -> str:
    os.makedirs(path, exist_ok=True)
    return path


def install_program(path: str) -> None:
    """Puts the program there at once, also where an older one is running."""
    made = path + ".new"
    shutil.copyfile(JVM, made)
    os.chmod(made, 0o755)
    os.replace(made, path)


def install_documents(folder: str) -> None:
    for name in DOCUMENTS:
        source, to = ROOT / name, os.path.join(folder, name)
        if source.is_dir():
            shutil.rmtree(to, ignore_errors=True)
            shutil.copytree(source, to)
        else:
            make_folder(os.path.dirname(to))
            shutil.copyfile(source, to)


def make_link(path: str, to: str) -> None:
    """Puts a link there, in place of one or of a file that is there."""
    made = path + ".new"
    if os.path.lexists(made):
        os.remove(made)
    os.symlink(to, made)
    os.replace(made, path)


def install_scripts(prefix: str) -> None:
    share = os.path.join(prefix, "share", PROGRAM)
    for folder, patterns in {**MODULES, "tools": [*SCRIPTS, *MODULES["tools"]]}.items():
        to = make_folder(os.path.join(share, folder))
        for path in (path for pattern in patterns for path in sorted((ROOT / folder).glob(pattern))):
            shutil.copy(path, os.path.join(to, path.name))
    for name in SCRIPTS:
        make_link(os.path.join(prefix, "bin", name), os.path.join("..", "share", PROGRAM, "tools", name))
    make_link(os.path.join(prefix, "share", "doc", PROGRAM, "tools"), os.path.join("..", "..", PROGRAM, "tools"))


def help_text(program: str, words: Sequence[str]) -> str:
    done = subprocess.run([program, "help", *words], stdout=subprocess.PIPE)
    if done.returncode != 0:
        raise Fault(f"{program} help {' '.join(words)}: status {done.returncode}")
    return done.stdout.decode()


def commands_of(program: str) -> List[Command]:
    """The commands that the help of the program lists, without `help` itself."""
    listed = listed_commands(help_text(program, []))
    if not listed:
        raise Fault(f"{program} help lists no commands")
    return [Command(name, summary, listed_options(help_text(program, [name]))) for name, summary in listed]


def write_text(folder: str, name: str, text: str) -> None:
    with open(os.path.join(make_folder(folder), name), "w", encoding="utf-8") as file:
        file.write(text)


def install_manual(program: str, commands: Sequence[Command], share: str) -> None:
    pages: List[List[str]] = [[], *([command.name] for command in commands)]
    for words in pages:
        title = "-".join([PROGRAM, *words])
        page = manual_page(title, help_text(program, words))
        write_text(os.path.join(share, "man", "man1"), f"{title}.{USER_COMMANDS}", page)


def install_completions(commands: Sequence[Command], share: str) -> None:
    """Where bash-completion, zsh and fish look for them."""
    write_text(os.path.join(share, "bash-completion", "completions"), PROGRAM, bash(PROGRAM, commands))
    write_text(os.path.join(share, "zsh", "site-functions"), f"_{PROGRAM}", zsh(PROGRAM, commands))
    write_text(os.path.join(share, "fish", "vendor_completions.d"), f"{PROGRAM}.fish", fish(PROGRAM, commands))


def install(prefix: str) -> pathlib.Path:
    """Puts all there, and answers where the program stands."""
    program = os.path.join(make_folder(os.path.join(prefix, "bin")), PROGRAM)
    install_program(program)
    share = os.path.join(prefix, "share")
    commands = commands_of(program)
    install_manual(program, commands, share)
    install_completions(commands, share)
    install_documents(make_folder(os.path.join(share, "doc", PROGRAM)))
    install_scripts(prefix)
    return pathlib.Path(program)
