"""Manual pages, of the help of a small program."""

import unittest

from tools.manual import manual_page

HELP = """Plays chess

Usage: play chess [OPTIONS] <FILE>...

Options:
      --side <SIDE>  Who begins
  -h, --help         Print help

What it does:
  Plays a game of chess,
  as long as it takes.
    white   begins
  Then it ends.

Statuses:
  0  it is played; or
     nobody wants to
  1  .. it isn't

Example:
  play chess 'a b'
"""

PAGE = """.TH "PLAY-CHESS" "1"
.SH NAME
play-chess \\- Plays chess
.SH SYNOPSIS
play chess [OPTIONS] <FILE>...
.SH OPTIONS
.TP
\\fB\\-\\-side <SIDE>\\fR
Who begins
.TP
\\fB\\-h, \\-\\-help\\fR
Print help
.SH DESCRIPTION
Plays a game of chess,
as long as it takes.
.TP
\\fBwhite\\fR
begins
.PP
Then it ends.
.SH EXIT STATUS
.TP
\\fB0\\fR
it is played; or
nobody wants to
.TP
\\fB1\\fR
\\&.. it isn't
.SH EXAMPLE
.nf
play chess 'a b'
.fi
"""


class Pages(unittest.TestCase):
    def test_a_page(self) -> None:
        self.assertEqual(manual_page("play-chess", HELP), PAGE)


if __name__ == "__main__":
    unittest.main()
