#!/usr/bin/env bash
# Times the built program on made traces of a million calls that have the machine at work: seats that take blocks from each
# other's stacks, a slab that takes another class all the time, reads and writes; on mallocs and frees of one class with 10 and
# with 250 full slabs of it; and on requests that look for a slab that may take their class, where none may. `image` makes all calls on one thread, in the order of the lines, so that no time goes to
# turns at a lock. It is no test. The traces are made in a temporary folder, which is removed at the end.
set -eu

top=$(dirname -- "$(dirname -- "$(readlink -f -- "${BASH_SOURCE[0]}")")")
room=$(mktemp -d)
trap 'rm -rf -- "$room"' EXIT

# The launcher builds the proved program where it is not there; that is timed by itself.
NVHEAP=proved "$top/nvheap" replay <"$top/examples/large.trace" >"$room/out"
program=$top/crates/program/out/program

. "$top/bench/traces.sh"
stolen >"$room/stolen"
morphs >"$room/morphs"
words >"$room/words"
full 10 >"$room/ten"
full 250 >"$room/many"
unfit 1000000 240 >"$room/sparse"
unfit 300000 24 >"$room/search"
slabs >"$room/slabs"

measure() {
    python3 "$top/bench/measure.py" "$program" "$room/$1" "$room/out" "$2" "$3" call image
}

measure stolen "blocks from other seats' stacks" 1000000
measure morphs "a slab that takes a class all the time" 1000000
measure words "words written and read" 1000000
measure ten "one class, 10 full slabs" 1000000
measure many "one class, 250 full slabs" 1000000
measure sparse "requests that no slab is fit for, after 240 sparse slabs were made" 1000000
measure search "the same on 24 slabs, nearly all calls" 300000
measure slabs "slabs that come and go" 1000000
