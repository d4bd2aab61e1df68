"""The screens of documents."""

import unittest

from tools.screens import MARK, compared, script_and_screens

TEXT = """
```sh
cd lessons
```

  ```text
  before
  $ jvm verify A.class
  verified
  $ true
  ```

```sh
#!/bin/sh
exit 0
```
"""


class Screens(unittest.TestCase):
    def setUp(self) -> None:
        self.script, self.screens = script_and_screens(TEXT)

    def test_script(self) -> None:
        lines = self.script.splitlines()
        self.assertEqual(lines[:4], ["exec 2>&1", "cd lessons", f"echo '{MARK}'", "jvm verify A.class"])
        self.assertEqual(lines[4:6], [f"echo '{MARK}'", "true"])
        self.assertEqual(lines[6:], ["cat > test.sh <<'END OF THE FILE'", "#!/bin/sh", "exit 0", "END OF THE FILE"])

    def test_screens(self) -> None:
        self.assertEqual(self.screens, [("$ jvm verify A.class", ["verified"]), ("$ true", [])])

    def test_the_same(self) -> None:
        self.assertEqual(list(compared(self.screens, f"{MARK}\nverified\n{MARK}\n")), [])

    def test_another_line(self) -> None:
        found = dict(compared(self.screens, f"{MARK}\nrefused\n{MARK}\n"))
        self.assertEqual(list(found), ["$ jvm verify A.class"])
        self.assertIn("-verified", found["$ jvm verify A.class"])
        self.assertIn("+refused", found["$ jvm verify A.class"])

    def test_a_command_that_was_not_run(self) -> None:
        self.assertEqual([command for command, _ in compared(self.screens, f"{MARK}\nverified\n")], ["$ true"])


if __name__ == "__main__":
    unittest.main()
