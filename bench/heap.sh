#!/bin/sh
# Times a million objects with a field each and a monitor entered once, with waiters on 65,536 of them, and reads the
# peak resident memory. Prints one line.
set -e
cd "$(dirname "$0")/../crates/bench"
rt run -- objects 1000 100 > /dev/null 2>&1
exec python3 - <<'END'
import resource
import subprocess
import time

start = time.time()
subprocess.run(["./out/bench", "objects", "1000000", "65536"], check=True, stdout=subprocess.DEVNULL)
seconds = time.time() - start
peak = resource.getrusage(resource.RUSAGE_CHILDREN).ru_maxrss
print(f"1000000 objects, 65536 waiters: {seconds * 1000:.0f} ms, peak {peak / 1024:.0f} MiB")
END
