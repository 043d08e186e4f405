#!/usr/bin/env bash
# Times `replay` and `serve` of the built program, one behind the other, on a million mallocs and frees of small blocks over four
# arenas: all of them by one thread, then each arena's by a thread of its own; on a hundred thousand over one arena, by one
# thread, by four, by eight and by 64; and `gen` of a million calls. Of each trace the program `call_times` says how long its
# calls alone take, without text: by workers, through the locks of the pool, and where they are the calls of one thread by a
# caller without a pool too, and through the queue of a server. Calls that are refused show what the turns and the requests
# take. It is no test. The traces are made in a temporary folder, which is removed at the end.
set -eu

top=$(dirname -- "$(dirname -- "$(readlink -f -- "${BASH_SOURCE[0]}")")")
room=$(mktemp -d)
trap 'rm -rf -- "$room"' EXIT

# The launcher builds the proved program where it is not there; that is timed by itself.
NVHEAP=proved "$top/nvheap" replay <"$top/examples/large.trace" >"$room/out"
program=$top/crates/program/out/program
(cd "$top/crates/call_times" && rt run -- workers <"$top/examples/small.trace" >"$room/out" 2>"$room/log") || { cat "$room/log" >&2; exit 1; }
caller=$top/crates/call_times/out/call_times

. "$top/bench/traces.sh"

# Times `replay` and `serve` of the trace, and its calls alone: the best of five times.
measure() {
    for command in replay serve; do
        python3 "$top/bench/measure.py" "$program" "$room/trace" "$room/out" "$1, $command" "$2" call "$command"
    done
    alone "$1, the calls alone" workers
}

alone() {
    for _ in 1 2 3 4 5; do "$caller" "$2" <"$room/trace" 2>&1 >/dev/null; done | sort -n | head -n 1 | sed "s/^/$1: /"
}

calls 1000000 4 1 >"$room/trace"
measure "four arenas, one thread" 1000000
alone "four arenas, without a pool" alone
calls 1000000 4 4 >"$room/trace"
measure "four arenas, four threads" 1000000
calls 100000 1 1 >"$room/trace"
measure "one arena, one thread" 100000
alone "one arena, without a pool" alone
calls 100000 1 4 >"$room/trace"
measure "one arena, four threads" 100000
calls 100000 1 8 >"$room/trace"
measure "one arena, eight threads" 100000
calls 100000 1 64 >"$room/trace"
measure "one arena, 64 threads" 100000

# Turns at the lock are most of what refused calls take: by one caller without a pool, by one, four and eight threads in turn, and by
# one caller that sends each to the arena's queue and then has its owner serve it.
refused 1000000 1 >"$room/trace"
alone "refused calls, without a pool" alone
alone "refused calls, one thread" workers
alone "refused calls, through a queue" queue
refused 1000000 4 >"$room/trace"
alone "refused calls, four threads" workers
refused 1000000 8 >"$room/trace"
alone "refused calls, eight threads" workers

# A million generated calls, for which no input is read.
python3 "$top/bench/measure.py" "$program" /dev/null "$room/out" "generated work" 1000000 call gen 1000000 7
