#!/usr/bin/env bash
# Draws the pictures in docs/pictures: the arena of cut.trace before its last call, as a power cut within that call leaves it, and as
# `repair` makes it of that; and the arena of small.trace. It prints what `text` says of each, the heap that recovery makes of the cut
# one, and of each file that it made or read the length in bytes and a sum (FNV-1a, of 32 bits).
#
# It is run from anywhere and takes no words. The gate compares the lengths and sums (crates/map_tests/src/pictures.rt). After a change
# to the page of `map` it is run again, what it wrote is looked at, and the test gets the new ones.
set -euo pipefail

top=$(dirname -- "$(dirname -- "$(readlink -f -- "${BASH_SOURCE[0]}")")")
examples=$top/examples
out=$top/docs/pictures
# The event of the arena's calls that is the last one done, and the seed by which lines persist.
event=301 seed=1

room=$(mktemp -d)
trap 'rm -rf -- "$room"' EXIT
mkdir -p -- "$out"

# The length of a file and its sum.
weigh() {
    python3 - "$1" <<'PYTHON'
import pathlib, sys

path = pathlib.Path(sys.argv[1])
content = path.read_bytes()
total = 2166136261
for byte in content:
    total = (total ^ byte) * 16777619 % 2**32
print(path.name, len(content), total)
PYTHON
}

head -n -1 -- "$examples/cut.trace" | "$top/nvheap" image >"$room/before"
"$top/nvpool" cut 0 "$event" "$seed" <"$examples/cut.trace" >"$room/cut"
"$top/nvpool" repair <"$room/cut" >"$room/recovered"
"$top/nvheap" image <"$examples/small.trace" >"$room/small"

for image in before cut recovered small; do
    "$top/nvpool" map <"$room/$image" >"$out/$image.svg"
    printf '%s\n' "$image"
    "$top/nvpool" text <"$room/$image"
done
printf 'recovered\n'
"$top/nvheap" recover <"$room/cut"
for file in "$examples"/{cut,small}.trace "$room"/{before,cut,recovered,small} "$out"/{before,cut,recovered,small}.svg; do
    weigh "$file"
done
