#!/usr/bin/env bash
# Times the built program on six made traces, and prints for each the time per call or per byte and the peak memory.
# It is no test. The inputs are made in a temporary folder, which is removed at the end.
set -eu

top=$(dirname -- "$(dirname -- "$(readlink -f -- "${BASH_SOURCE[0]}")")")
room=$(mktemp -d)
trap 'rm -rf -- "$room"' EXIT

# The launcher builds the proved program where it is not there; that is timed by itself.
NVHEAP=proved "$top/nvheap" replay <"$top/examples/large.trace" >"$room/out"
program=$top/crates/program/out/program

. "$top/bench/traces.sh"
blocks 20 16385 23616 >"$room/rolls"
blocks 600 16385 23616 >"$room/rewrites"
blocks 4000 1 2048 >"$room/small"

# 64 MiB of comments behind a pool.
awk 'BEGIN {
    printf "pool 1 16\n"
    line = "#"
    while (length(line) < 79) line = line "-"
    for (left = 67108864 - 10; left >= 80; left -= 80) print line
    for (; left > 0; left--) printf "\n"
}' >"$room/comments"

refused 1000000 1 >"$room/occupied"

# As many calls as a trace can have: the shortest lines, in 64 MiB.
awk 'BEGIN {
    print "pool 1 16"
    for (i = 0; i < 8388606; i++) print "0 0 f 5"
}' >"$room/longest"

measure() {
    python3 "$top/bench/measure.py" "$program" "$room/$1" "$room/out" "$1" "$2" "$3" replay
}

measure rolls 1000000 call
measure rewrites 1000000 call
measure small 1000000 call
measure comments 67108864 byte
measure occupied 1000000 call
measure longest 8388606 call
