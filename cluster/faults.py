"""What stops a command, as it is told on standard error."""

# The statuses, as `jvm` has them: what is handed in is refused, a run came to nothing, the command is wrong.
REFUSED, FAILED, USAGE = 2, 3, 6


class Fault(Exception):
    """A fault: the status, the line that names it with its place, and the reason for people."""

    def __init__(self, status: int, line: str, reason: str = "") -> None:
        super().__init__(status, line, reason)
        self.status, self.line, self.reason = status, line, reason

    def told(self) -> str:
        """Its lines: the second one is indented, as `jvm` does it."""
        reason = [f"  {line.strip()}" for line in self.reason.splitlines() if line.strip()]
        return "".join(f"{line}\n" for line in [self.line, *reason])
