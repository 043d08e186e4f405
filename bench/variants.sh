#!/usr/bin/env bash
# Times the same work on arenas of the LOG variant and of the GC variant, in one run and in turn, so that both have the same
# neighbours. For each of ten traces without moves it prints how many stores, flushes and fences the calls have on either; how long a call
# takes alone, by the program `variant_times`, where of each stretch of 4096 calls the shortest time of so many rounds counts; and the
# processor time of the whole commands `image`, `replay` and `gc`, the least of as many. Then come recoveries of an arena of 16 MiB
# whose slabs are all full. Five rounds are made, or as many as ROUNDS says. With two words it times those builds of `variant_times`
# and of the program, and else the proved ones. It is no test. The traces are made in a temporary folder, which is removed at the end.
set -eu

top=$(dirname -- "$(dirname -- "$(readlink -f -- "${BASH_SOURCE[0]}")")")
room=$(mktemp -d)
trap 'rm -rf -- "$room"' EXIT
rounds=${ROUNDS-5}

if [ $# = 2 ]; then
    timer=$1 program=$2
else
    # The proved programs are built where they are not there.
    NVHEAP=proved "$top/nvheap" replay <"$top/examples/large.trace" >"$room/out"
    program=$top/crates/program/out/program
    timer=$top/crates/variant_times/out/variant_times
    (cd -- "$top/crates/variant_times" && rt run -- calls <stdin) >"$room/log" 2>&1 || { cat -- "$room/log" >&2; exit 1; }
fi

. "$top/bench/traces.sh"

# The name of a trace, and what writes it.
both() {
    local name=$1
    shift
    "$@" >"$room/trace"
    echo "== $name"
    "$timer" calls "$rounds" <"$room/trace" 2>&1
    python3 - "$program" "$room/trace" "$rounds" <<'PYTHON'
import resource, subprocess, sys

program, trace, rounds = sys.argv[1:]

def spent(command):
    before = resource.getrusage(resource.RUSAGE_CHILDREN)
    with open(trace, "rb") as reads:
        if subprocess.run([program, command], stdin=reads, stdout=subprocess.DEVNULL).returncode:
            sys.exit(f"{command} failed")
    after = resource.getrusage(resource.RUSAGE_CHILDREN)
    return after.ru_utime + after.ru_stime - before.ru_utime - before.ru_stime

commands = "image", "replay", "gc"
least = [min(times) for times in zip(*(map(spent, commands) for _ in range(int(rounds))))]
print("whole commands: " + ", ".join(f"{command} {time:.2f} s" for command, time in zip(commands, least)))
PYTHON
}

both "small blocks over 4000 roots" blocks 4000 1 2048
both "large blocks over 20 roots: the log rolls" blocks 20 16385 23616
both "large blocks over 600 roots: the log is written anew" blocks 600 16385 23616
both "blocks from other seats' stacks" stolen
both "a slab that takes a class all the time" morphs
both "words written and read" words
both "one class, 250 full slabs" full 250
both "requests for which no slab is fit, beside 24 sparse slabs" unfit 300000 24
both "the same requests, beside no other slab" unfit 300000 1
both "slabs that come and go" slabs

echo "== an arena of 16 MiB, 255 full slabs"
"$timer" recover "$rounds" 2>&1
