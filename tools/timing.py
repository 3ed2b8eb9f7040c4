"""What the benchmarks of reading and compiling share."""

import json
import subprocess
import time

# the most bytes of a file that is read
MAX_FILE_BYTES = 1_048_576


def compact(tree):
    return json.dumps(tree, separators=(",", ":"))


def timed(program, words, repeats):
    """The times of so many runs in milliseconds, least first, the status, and the line that was written last."""
    times = []
    for _ in range(repeats):
        begun = time.perf_counter()
        ran = subprocess.run([program, *words], capture_output=True)
        times.append((time.perf_counter() - begun) * 1000)
    lines = ran.stdout.decode(errors="replace").splitlines()
    return sorted(times), ran.returncode, lines[-1] if lines else ""
