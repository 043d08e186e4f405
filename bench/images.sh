#!/usr/bin/env bash
# Times `image`, `check`, `recover` and `migrate` of the built program, and beside them `info`, `map` and `repair` of that for operators,
# on two pools of 16 arenas of 16 MiB: one with nothing in it, and one in which each arena has 255 slabs, all full. With two words
# it times those builds of the two programs. It is no test. The files are made in a temporary folder, which is removed at the end.
set -eu

top=$(dirname -- "$(dirname -- "$(readlink -f -- "${BASH_SOURCE[0]}")")")
room=$(mktemp -d)
trap 'rm -rf -- "$room"' EXIT

# The launchers build the proved programs where they are not there; that is timed by itself.
if [ $# -eq 2 ]; then
    program=$1 operators=$2
else
    NVHEAP=proved "$top/nvheap" image <"$top/examples/large.trace" >"$room/large"
    NVPOOL=proved "$top/nvpool" info <"$room/large" >"$room/out"
    program=$top/crates/program/out/program
    operators=$top/crates/pool_program/out/pool_program
fi
bytes=268435456

# The best of three runs of a command of a program on a pool's image.
measure() {
    python3 "$top/bench/measure.py" "$1" "$room/$2.image" "$room/out" "$3 of the $2 pool" "$bytes" byte "$3"
}

echo "pool 16 1024" >"$room/empty"

. "$top/bench/traces.sh"
pool_of_full_slabs >"$room/full"

for pool in empty full; do
    python3 "$top/bench/measure.py" "$program" "$room/$pool" "$room/$pool.image" "image of the $pool pool" "$bytes" byte image
    for command in check recover migrate; do measure "$program" "$pool" "$command"; done
    for command in info map repair; do measure "$operators" "$pool" "$command"; done
done
