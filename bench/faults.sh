#!/usr/bin/env bash
# Has the built program meet faults, one at a time, and looks at how it ends: each request for memory refused in turn, each
# read and write failing in turn, and each moving one byte where it asked for several, in `replay` and `serve` on two traces and
# in `check` and `recover` on an image; and the code and the line on standard error of each way to end. It prints a line for
# each kind of fault and ends with 0 where all was as docs/program.md says. It needs `cc` and the GNU C library. It is no
# part of the gate. With a word it looks at that program, in place of the one that the launcher builds.
set -u

top=$(dirname -- "$(dirname -- "$(readlink -f -- "${BASH_SOURCE[0]}")")")
room=$(mktemp -d)
trap 'rm -rf -- "$room"' EXIT

program=${1:-}
if [ -z "$program" ]; then
    # The launcher builds the proved program where it is not there; that is looked at by itself.
    NVHEAP=proved "$top/nvheap" replay <"$top/examples/large.trace" >"$room/out" || exit
    program=$top/crates/program/out/program
fi
"${CC:-cc}" -O2 -Wall -shared -fPIC -o "$room/faults.so" "$top/bench/faults.c" || exit

wrong=0
code=0

# Runs the program over an input, with the faults that are named (`FAIL_IO=3 SHORT_IO=2`, or none): what it writes is in
# `out` and `err`, how it ends in `code`.
meet() {
    local faults input=$2
    read -ra faults <<<"$1"
    shift 2
    code=0
    timeout 60 env LD_PRELOAD="$room/faults.so" "${faults[@]}" "$program" "$@" <"$input" >"$room/out" 2>"$room/err" || code=$?
}

# The program ended otherwise than it must.
object() {
    wrong=$((wrong + 1))
    printf 'WRONG: %s: code %s, standard error: %s, standard output: %s\n' \
        "$1" "$code" "$(head -c 200 "$room/err")" "$(head -c 200 "$room/out" | tr '\n' '/')"
}

# What it said on standard error is this one line, or nothing.
said() {
    if [ -n "$1" ]; then printf '%s\n' "$1" | cmp -s - "$room/err"; else ! [ -s "$room/err" ]; fi
}

# Nothing, or all, or a front of what is right, was written.
wrote_nothing() { ! [ -s "$room/out" ]; }
wrote_all() { cmp -s "$room/out" "$room/right"; }
wrote_front() { head -c "$(stat -c %s "$room/out")" "$room/right" | cmp -s - "$room/out"; }

is_done() { [ "$code" -eq 0 ] && said "" && wrote_all; }
is_without_memory() { [ "$code" -eq 5 ] && said "out of memory" && wrote_nothing; }
is_read_fault() { [ "$code" -eq 3 ] && said "read fault" && wrote_nothing; }
is_write_fault() { [ "$code" -eq 4 ] && said "write fault" && wrote_front; }

# All faults of the three kinds in one command.
all_faults() {
    local name=$1 input=$2 requests calls longs n ended
    shift 2
    meet "COUNTS=$room/counts" "$input" "$@"
    cp "$room/out" "$room/right"
    if [ "$code" -ne 0 ] || ! said ""; then
        object "$name"
        return
    fi
    read -r requests calls longs < <(od -An -v -t u8 "$room/counts" | tr '\n' ' ')

    local refused=0 harmless=0
    for n in $(seq 1 $((requests + 1))); do
        meet "FAIL_ALLOC=$n" "$input" "$@"
        if is_without_memory; then
            refused=$((refused + 1))
        elif is_done; then
            harmless=$((harmless + 1))
        else
            object "$name, request $n of $requests refused"
        fi
    done
    if [ "$requests" -eq 0 ]; then
        echo "$name: no request for memory was seen, as where the program has an allocator of its own"
    else
        echo "$name: $requests requests for memory refused in turn: code 5 at $refused, the right output at $harmless, which has the one past the last"
    fi

    local reads=0 writes=0
    for n in $(seq 1 "$calls"); do
        meet "FAIL_IO=$n" "$input" "$@"
        if is_read_fault; then reads=$((reads + 1)); elif is_write_fault; then writes=$((writes + 1)); else object "$name, read or write $n of $calls failing"; fi
    done
    echo "$name: $calls reads and writes failing in turn: code 3 at $reads, code 4 at $writes"

    for n in $(seq 1 "$longs"); do
        meet "SHORT_IO=$n" "$input" "$@"
        is_done || object "$name, read or write $n of $longs short"
    done
    echo "$name: $longs reads and writes moving one byte in turn: the right output"

    # The last of them is the write of the output.
    meet "SHORT_IO=$longs FAIL_IO=$((calls + 1))" "$input" "$@"
    if is_write_fault && [ "$(stat -c %s "$room/out")" -eq 1 ]; then
        echo "$name: the write moving one byte and the next one failing: code 4, and the byte"
    else
        object "$name, the write failing behind one byte"
    fi
}

# The code, the line on standard error and what is written, of each way to end.
ends() {
    local name=$1 wanted=$2 line=$3
    if [ "$code" -eq "$wanted" ] && said "$line" && { [ "$wanted" -eq 2 ] || wrote_nothing; }; then
        echo "$name: code $wanted, on standard error ${line:-nothing}"
    else
        object "$name"
    fi
}

all_ends() {
    local usage='usage: nvheap replay, image, check, recover, crash A K SEED, gen N SEED, migrate, dict, dict-crash K SEED, serve, gc, gc-crash A K SEED'
    meet "" /dev/null
    ends "no words" 1 "$usage"
    meet "" /dev/null --help
    ends "--help" 1 "$usage"
    printf 'pool 0 16\n' >"$room/bad"
    meet "" "$room/bad" replay
    ends "a refused trace" 2 ""
    meet "" "$top" replay
    ends "a folder to read" 3 "read fault"
    code=0
    "$program" replay <"$top/examples/small.trace" 2>"$room/err" >/dev/full || code=$?
    : >"$room/out"
    ends "a full device to write to" 4 "write fault"
    # The reader of the pipe has gone before the program writes.
    code=0
    { sleep 1; cat "$top/examples/small.trace"; } | { "$program" replay 2>"$room/err" || echo $? >"$room/code"; } | true
    code=$(cat "$room/code")
    ends "a pipe that nobody reads" 4 "write fault"
    head -c 67108865 /dev/zero | tr '\0' '\n' >"$room/long"
    meet "" "$room/long" replay
    ends "a trace of one byte too many" 6 "input too long"
    truncate -s 270794753 "$room/long"
    meet "" "$room/long" check
    ends "an image of one byte too many" 6 "input too long"
    rm -f -- "$room/long"
}

printf 'pool 1 16\n0 0 m 5 100\n' >"$room/one"
"$program" image <"$room/one" >"$room/image" || exit

all_faults "replay of a call" "$room/one" replay
all_faults "replay of examples/small.trace" "$top/examples/small.trace" replay
all_faults "serve of a call" "$room/one" serve
all_faults "serve of examples/small.trace" "$top/examples/small.trace" serve
all_faults "check of an image" "$room/image" check
all_faults "recover of an image" "$room/image" recover
all_ends

echo "wrong: $wrong"
[ "$wrong" -eq 0 ]
