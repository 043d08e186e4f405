"""Runs a command of the program three times on a file, and prints the best time, that time for each call or byte, and the
peak memory of the program. The words are PROGRAM INPUT OUTPUT NAME COUNT UNIT, and then those of the command."""

import resource
import subprocess
import sys
import time

program, source, sink, name, count, unit = sys.argv[1:7]
best = None
for _ in range(3):
    with open(source, "rb") as reads, open(sink, "wb") as writes:
        begun = time.monotonic()
        ran = subprocess.run([program, *sys.argv[7:]], stdin=reads, stdout=writes)
        took = time.monotonic() - begun
    if ran.returncode:
        sys.exit(f"{name}: the program ended with status {ran.returncode}")
    best = took if best is None else min(best, took)
peak = resource.getrusage(resource.RUSAGE_CHILDREN).ru_maxrss / 1024
print(f"{name}: {best:.2f} s, {best * 1e9 / int(count):.1f} ns per {unit}, peak {peak:.0f} MiB")
