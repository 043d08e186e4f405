#!/usr/bin/env bash
# Times the same million calls in an arena of version 1 with 1024 granules and in one of version 2 with 4096, one after the
# other, five rounds: small blocks over 4000 roots, large ones over 20 roots, whose log rolls, and large ones over 500, whose log
# is written anew. Each line has the best processor time of a run on either, and their ratio. With the words OLD NEW, two builds of the
# program, it times both of them on version 1 in the same way. It is no test. The traces are made in a temporary folder,
# which is removed at the end.
set -eu

top=$(dirname -- "$(dirname -- "$(readlink -f -- "${BASH_SOURCE[0]}")")")
room=$(mktemp -d)
trap 'rm -rf -- "$room"' EXIT

if [ $# = 2 ]; then
    old=$1 new=$2
else
    # The launcher builds the proved program where it is not there; that is timed by itself.
    NVHEAP=proved "$top/nvheap" replay <"$top/examples/large.trace" >"$room/out"
    old=$top/crates/program/out/program new=$old
fi

# A million calls at random roots, each a malloc of the drawn bytes where the root names no block, and else a free: the words
# are POOL ROOTS LEAST MOST.
calls() {
    awk -v pool="$1" -v roots="$2" -v least="$3" -v most="$4" 'BEGIN {
        srand(7)
        print pool
        for (i = 0; i < 1000000; i++) {
            root = int(rand() * roots)
            if (held[root]) print "0 0 f " root
            else print "0 0 m " root " " least + int(rand() * (most - least + 1))
            held[root] = 1 - held[root]
        }
    }'
}

for pool in "pool 1 1024" "pool2 1 4096"; do
    calls "$pool" 4000 1 2048 >"$room/${pool%% *}.small"
    calls "$pool" 20 16385 65536 >"$room/${pool%% *}.rolls"
    calls "$pool" 500 16385 20000 >"$room/${pool%% *}.rewrites"
done

second=pool2
[ $# = 2 ] && second=pool
for kind in small rolls rewrites; do
    python3 - "$old" "$room/pool.$kind" "$new" "$room/$second.$kind" "$kind" <<'PYTHON'
import resource, subprocess, sys

def spent(program, trace):
    before = resource.getrusage(resource.RUSAGE_CHILDREN)
    with open(trace, "rb") as reads:
        if subprocess.run([program, "replay"], stdin=reads, stdout=subprocess.DEVNULL).returncode:
            sys.exit(f"{program} failed")
    after = resource.getrusage(resource.RUSAGE_CHILDREN)
    return after.ru_utime + after.ru_stime - before.ru_utime - before.ru_stime

one, trace, other, second, kind = sys.argv[1:]
first, then = zip(*((spent(one, trace), spent(other, second)) for _ in range(5)))
print(f"{kind}: {min(first):.2f} s, {min(then):.2f} s, ratio {min(then) / min(first):.2f}")
PYTHON
done
