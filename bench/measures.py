"""What one process takes: seconds of the processor, seconds by the clock, and memory."""

import os
import subprocess
import tempfile
import time
from typing import IO, BinaryIO, NamedTuple, Optional, Sequence

from tools.repository import PathLike

# So often is the memory of a process looked at.
STEP = 0.002


class Measured(NamedTuple):
    """A process that came to its end: its status, what it wrote, the seconds, and its peak resident memory."""

    status: int
    written: str
    error: str
    processor: float
    clock: float
    kilobytes: int


def peak_kilobytes(process: int) -> int:
    """The peak resident memory of a process so far, or 0 where it is gone."""
    try:
        with open(f"/proc/{process}/status", encoding="utf-8") as status:
            for line in status:
                if line.startswith("VmHWM:"):
                    return int(line.split()[1])
    except OSError:
        pass
    return 0


def text_of(file: IO[bytes]) -> str:
    file.seek(0)
    return file.read().decode("utf-8", "replace")


def measured(
    command: Sequence[object], folder: Optional[PathLike] = None, output: Optional[BinaryIO] = None
) -> Measured:
    """Runs a command. What it writes goes to the output, where one is given, and else it is kept."""
    with tempfile.TemporaryFile() as written, tempfile.TemporaryFile() as error:
        begin, peak = time.monotonic(), 0
        process = subprocess.Popen([str(word) for word in command], cwd=folder, stdout=output or written, stderr=error)
        while True:
            ended, status, usage = os.wait4(process.pid, os.WNOHANG)
            if ended:
                break
            peak = max(peak, peak_kilobytes(process.pid))
            time.sleep(STEP)
        clock = time.monotonic() - begin
        process.returncode = os.waitstatus_to_exitcode(status)
        used = usage.ru_utime + usage.ru_stime
        return Measured(process.returncode, text_of(written), text_of(error), used, clock, peak)
