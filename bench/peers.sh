#!/usr/bin/env bash
# Times this allocator beside libpmemobj, the object store of PMDK, on the same trace: a million mallocs and frees of 1 to 2048
# bytes over 4000 roots of one arena, by one thread. libpmemobj makes the calls on a pool in shared memory, told to treat it as
# persistent. Of this allocator the calls are timed alone, over simulated memory (`call_times alone`), and then their stores,
# flushes and fences, done for real on shared memory (`call_times events`, `peers.c`); the sum of the two is what stands beside.
# All are timed in turn in five rounds, or as many as ROUNDS says, and the least of each counts. With a word, that build of
# `call_times` is timed, and else the proved one. It is no test.
#
# It needs a C compiler and libpmemobj with its header, on Debian `apt-get install gcc libpmemobj-dev`. Without them it says
# so, and ends with status 0.
set -eu

top=$(dirname -- "$(dirname -- "$(readlink -f -- "${BASH_SOURCE[0]}")")")

skip() { echo "skipped: $1"; exit 0; }
compiler=$(command -v cc || command -v gcc || command -v clang) || skip "there is no C compiler"
echo '#include <libpmemobj.h>' | "$compiler" -E - >/dev/null 2>&1 ||
    skip "there is no libpmemobj.h, which is in Debian's libpmemobj-dev"

room=$(mktemp -d -p /dev/shm)
trap 'rm -rf -- "$room"' EXIT

# In the second program functions take the place of libpmem's, and count what libpmemobj asks of it.
build() { "$compiler" -O2 "$@" "$top/bench/peers.c" -lpmemobj -lpmem -ldl; }
build -o "$room/peers"
build -DCOUNTED -rdynamic -o "$room/counted"

caller=${1-}
if [ -z "$caller" ]; then
    caller=$top/crates/call_times/out/call_times
    (cd "$top/crates/call_times" && rt run -- workers <"$top/examples/small.trace" >"$room/out" 2>"$room/log") ||
        { cat -- "$room/log" >&2; exit 1; }
fi

# A call frees its root's block or gives it one; the draws are by a fixed rule.
awk 'BEGIN {
    print "pool 1 1024"
    state = 1
    for (i = 0; i < 1000000; i++) {
        state = state * 16807 % 2147483647
        root = state % 4000
        if (held[root]) { print "0 0 f " root; held[root] = 0 }
        else { print "0 0 m " root " " (1 + state % 2048); held[root] = 1 }
    }
}' >"$room/trace"
"$caller" events <"$room/trace" >"$room/events"

# The calls in a fresh pool, by libpmemobj.
peer() {
    PMEM_IS_PMEM_FORCE=1 "$room/$1" peer "$room/pool" <"$room/trace"
    rm -- "$room/pool"
}

# The events in a fresh file, in a way of peers.c.
events() {
    "$room/peers" "$1" "$room/arena" <"$room/events"
    rm -- "$room/arena"
}

for ((round = 0; round < ${ROUNDS:-5}; round++)); do
    peer peers >>"$room/theirs"
    PMEM_NO_FLUSH=1 peer peers >>"$room/unflushed"
    "$caller" alone <"$room/trace" 2>&1 >"$room/out" | sed 's/.* ms, //' >>"$room/alone"
    events events >>"$room/own"
    events loads >>"$room/loads"
done

least() { sort -n -- "$room/$1" | head -n 1 | cut -d ' ' -f 1; }
theirs=$(least theirs) unflushed=$(least unflushed) alone=$(least alone) own=$(least own) loads=$(least loads)
beside() { awk -v ours="$1" -v theirs="$theirs" 'BEGIN { printf "%d ns a call, %.2f of libpmemobj\n", ours, ours / theirs }'; }
cat <<REPORT
libpmemobj: $theirs ns a call; $(peer counted)
libpmemobj, its flushes left out: $unflushed ns a call
this allocator, the calls alone: $alone ns a call
its events alone: $own ns a call; $(head -n 1 "$room/own" | cut -d ' ' -f 2-)
its events alone, each stored word loaded first: $loads ns a call
the calls and the events: $(beside $((alone + own)))
the same, each stored word loaded first: $(beside $((alone + loads)))
REPORT
