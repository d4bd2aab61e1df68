"""Completions, of the help of a small program."""

import subprocess
import unittest

from tools.completions import Command, Option, bash, fish, listed_commands, listed_options, zsh

HELP = """Plays games

Usage: play <COMMAND>

Commands:
  chess  Plays chess
  help   Print this message

Options:
  -h, --help  Print help
"""

HELP_OF_CHESS = """Plays chess

Usage: play chess [OPTIONS] <FILE>...

Options:
      --side <SIDE>    Who begins: white, black or drawn=SEED [default: white]
      --moves <FILE>   The moves: it's a file
      --clock <TIME>   Minutes for each
      --blind          Shows no board
  -h, --help           Print help

Statuses:
  0  it is played
"""

CHESS = Command("chess", "Plays chess", listed_options(HELP_OF_CHESS))


def completed(*words: str) -> str:
    """What bash answers for the last of the words of a line, a word a line."""
    line = " ".join(f"'{word}'" for word in words)
    script = f"{bash('play', [CHESS])}\nCOMP_WORDS=({line}) COMP_CWORD={len(words) - 1}\n_play 2>&1\n"
    script += "printf '%s\\n' \"${COMPREPLY[@]}\""
    # Outside of a completion compopt only says that there is none.
    ran = subprocess.run(["bash", "-c", f"compopt() {{ echo \"compopt $*\"; }}\n{script}"], stdout=subprocess.PIPE)
    return ran.stdout.decode()


class Completions(unittest.TestCase):
    def test_commands_are_read_without_help(self) -> None:
        self.assertEqual(listed_commands(HELP), [("chess", "Plays chess")])

    def test_options_are_read(self) -> None:
        self.assertEqual([option.name for option in CHESS.options], ["side", "moves", "clock", "blind", "help"])
        self.assertEqual(CHESS.options[-1], Option("help", "h", None, "Print help"))
        self.assertEqual(CHESS.options[0].choices(), ["white", "black", "drawn="])
        self.assertEqual(CHESS.options[1].choices(), [])

    def test_bash_completes_commands(self) -> None:
        self.assertEqual(completed("play", "c"), "chess\n")

    def test_bash_completes_options(self) -> None:
        self.assertEqual(completed("play", "chess", "--b"), "--blind\n")

    def test_bash_completes_values(self) -> None:
        self.assertEqual(completed("play", "chess", "--side", "bl"), "black\n")
        self.assertEqual(completed("play", "chess", "--side", "d"), "compopt -o nospace\ndrawn=\n")

    def test_bash_completes_files(self) -> None:
        self.assertEqual(completed("play", "chess", "--moves", "x"), "compopt -o default\n\n")
        self.assertEqual(completed("play", "chess", "--clock", "x"), "\n")
        self.assertEqual(completed("play", "chess", "x"), "compopt -o default\n\n")

    def test_zsh_quotes(self) -> None:
        made = zsh("play", [CHESS])
        self.assertIn("'--moves[The moves\\: it'\\''s a file]:FILE:_files'", made)
        self.assertIn("'--side[Who begins\\: white, black or drawn=SEED]:SIDE:(white black drawn=)'", made)

    def test_fish_quotes(self) -> None:
        self.assertIn("-l moves -r -F -d 'The moves: it\\'s a file'", fish("play", [CHESS]))
        self.assertIn("-s h -l help -d 'Print help'", fish("play", [CHESS]))


if __name__ == "__main__":
    unittest.main()
