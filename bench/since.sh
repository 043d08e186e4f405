#!/usr/bin/env bash
# Times two builds of the program in turn, an older one and a newer one, on the same inputs, and prints for each input the least
# processor time of either, the peak memory of either, and the ratios, newer to older. The words are OLD NEW, two builds of the program,
# and then, if threads are wanted, two builds of `call_times`: of these come the times that they tell of the calls alone. ROUNDS says how
# many rounds, five where it is not set. Both builds are to be made in the same way. It is no test. The inputs are made in a temporary
# folder, which is removed at the end.
set -eu

[ $# = 2 ] || [ $# = 4 ] || { echo "usage: since.sh OLD NEW [OLD_CALL_TIMES NEW_CALL_TIMES]" >&2; exit 1; }
top=$(dirname -- "$(dirname -- "$(readlink -f -- "${BASH_SOURCE[0]}")")")
room=$(mktemp -d)
trap 'rm -rf -- "$room"' EXIT

. "$top/bench/traces.sh"
unfit 1000000 240 >"$room/sparse"
unfit 300000 24 >"$room/search"
slabs >"$room/slabs"
echo "pool 16 1024" >"$room/empty"
pool_of_full_slabs >"$room/full"
blocks 20 16385 23616 >"$room/rolls"
blocks 600 16385 23616 >"$room/rewrites"
blocks 4000 1 2048 >"$room/small"
refused 1000000 1 >"$room/refused"
words >"$room/words"

# A command of both builds on an input.
both() {
    python3 - "${ROUNDS:-5}" "$1" "$2" "$old" "$new" "$room/$3" <<'PYTHON'
import os, subprocess, sys

rounds, name, command, old, new, source = sys.argv[1:]

def run(program):
    with open(source, "rb") as reads, open(os.devnull, "wb") as writes:
        child = subprocess.Popen([program, command], stdin=reads, stdout=writes)
        _, status, use = os.wait4(child.pid, 0)
        child.returncode = status
    if status:
        sys.exit(f"{program} failed at {name}")
    return use.ru_utime + use.ru_stime, use.ru_maxrss / 1024

then, now = zip(*((run(old), run(new)) for _ in range(int(rounds))))
times = [min(time for time, _ in runs) for runs in (then, now)]
peaks = [min(peak for _, peak in runs) for runs in (then, now)]
print(f"{command} of {name}: {times[0]:.2f} s, {times[1]:.2f} s, ratio {times[1] / times[0]:.2f};"
      f" peak {peaks[0]:.0f} MiB, {peaks[1]:.0f} MiB, ratio {peaks[1] / peaks[0]:.2f}")
PYTHON
}

old=$1 new=$2
both "requests that no slab is fit for, after 240 sparse slabs were made" image sparse
both "the same on 24 slabs, nearly all calls" image search
both "slabs that come and go" image slabs
both "an empty pool of 256 MiB" image empty
both "a full pool of 256 MiB" image full
for trace in small rolls rewrites refused; do both "$trace" replay "$trace"; done
both "words written and read" replay words

[ $# = 4 ] || exit 0

# The calls alone of a trace, by both builds: the least of the rounds.
alone() {
    for program in "$3" "$4"; do
        for ((round = 0; round < ${ROUNDS:-5}; round++)); do "$program" workers <"$room/trace" 2>&1 >/dev/null; done | sort -n | head -n 1
    done | paste -s -d '|' | sed "s/^/$1 ($2 calls): /; s/|/; /"
}

calls 1000000 4 1 >"$room/trace"
alone "four arenas, one thread" 1000000 "$3" "$4"
calls 1000000 4 4 >"$room/trace"
alone "four arenas, four threads" 1000000 "$3" "$4"
for threads in 1 4 64; do
    calls 100000 1 "$threads" >"$room/trace"
    alone "one arena, threads: $threads" 100000 "$3" "$4"
done
