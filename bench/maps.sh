#!/usr/bin/env bash
# Compares what `nvpool` writes of images by `map`, `text` and `info` with what `maps.py` does, a second reading of the documents. The
# images are those of the examples and of traces drawn at random, in both versions: whole, cut off at a spread of events, and repaired; those
# of version 1 migrated; and each of version 1 as one of the GC variant. It prints a line for each set, and `wrong: 0` last. With one
# word it asks those builds, a folder with nvheap and nvpool, and else the launchers. It is no part of the gate, which runs what
# crates/map_tests has. The files are made in a temporary folder, which is removed at the end.
set -eu

top=$(dirname -- "$(dirname -- "$(readlink -f -- "${BASH_SOURCE[0]}")")")
programs=${1-$top}
room=$(mktemp -d)
trap 'rm -rf -- "$room"' EXIT
wrong=0

# The launchers say at each run what they run.
ask() { "$programs/$1" "${@:2}" 2>>"$room/said"; }

# A set: its name, a trace, and in how many steps the calls of each arena are cut off.
try() {
    local name=$1 trace=$2 steps=$3 version arenas arena events event step said
    read -r version arenas _ < <(awk '/^pool/ { print $1 == "pool2" ? 2 : 1, $2; exit }' "$trace")
    rm -rf -- "$room/images"
    mkdir -- "$room/images"
    cd -- "$room/images"
    ask nvheap image <"$trace" >whole
    [ "$version" = 2 ] || ask nvheap migrate <whole >migrated
    for ((arena = 0; arena < arenas; arena++)); do
        # The line that refuses an event has how many there are.
        events=$(ask nvpool cut "$arena" 18446744073709551615 0 <"$trace" | awk '{ print $NF }')
        for ((step = 0; step < steps; step++)); do
            event=$((events * (2 * step + 1) / (2 * steps)))
            ask nvpool cut "$arena" "$event" "$step" <"$trace" >"cut-$arena-$event"
            ask nvpool repair <"cut-$arena-$event" >"mended-$arena-$event"
        done
    done
    said=$(python3 "$top/bench/maps.py" check "$programs/nvpool" *) || true
    echo "$name: $said"
    wrong=$((wrong + ${said##* }))
}

# A trace of so many calls at random roots of each arena, each a malloc of the drawn bytes where the root names no block, and else a free:
# POOL SEED ARENAS CALLS ROOTS LEAST MOST. A size is drawn so that small ones are as frequent as large ones of twice the size.
draw() {
    awk -v pool="$1" -v seed="$2" -v arenas="$3" -v calls="$4" -v roots="$5" -v least="$6" -v most="$7" 'BEGIN {
        srand(seed)
        print pool
        for (i = 0; i < calls; i++) {
            arena = int(rand() * arenas)
            root = int(rand() * roots)
            at = arena " " root
            if (held[at]) print "0 " arena " f " root
            else print "0 " arena " m " root " " int(exp(log(least) + rand() * (log(most + 1) - log(least))))
            held[at] = 1 - held[at]
        }
    }'
}

# One slab of small blocks in an arena that is full otherwise takes class after class, while some of the blocks before live on.
turns() {
    awk -v pool="$1" 'BEGIN {
        print pool
        print "0 0 m 0 131072"
        for (i = 1; i < 36; i++) {
            print "0 0 m " i " " 16 * i * i
            if (i > 2) print "0 0 f " i - 2
        }
    }'
}

for trace in "$top"/examples/*.trace; do
    try "$(basename -- "$trace")" "$trace" 8
done
for pool in "pool " "pool2 "; do
    least=16
    [ "$pool" = "pool " ] || least=25
    draw "${pool}1 $least" 1 1 200 8 16 2048 >"$room/trace"
    try "${pool}small blocks in a small arena" "$room/trace" 24
    draw "${pool}3 70" 2 3 1500 60 16 70000 >"$room/trace"
    try "${pool}blocks of all sizes in three arenas" "$room/trace" 12
    draw "${pool}1 129" 3 1 1200 100 16385 60000 >"$room/trace"
    try "${pool}large blocks" "$room/trace" 12
    draw "${pool}2 300" 4 2 4000 1500 16 16384 >"$room/trace"
    try "${pool}many small blocks" "$room/trace" 6
    turns "${pool}1 $least" >"$room/trace"
    try "${pool}a slab that takes other classes" "$room/trace" 48
done
echo "wrong: $wrong"
[ "$wrong" = 0 ]
