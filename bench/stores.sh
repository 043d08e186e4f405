#!/usr/bin/env bash
# Times calls of a dictionary beside calls of its arena that do the same work, in one run of the program `store_times`, in turn, so
# that both have the same neighbours: a `get` beside a view of the root; a put that replaces a key beside its four calls by hand;
# an opening of a full arena beside its adoption. It prints the shortest time of each in 200 rounds, or as many as the one word says,
# and how many times as long the first is. It is no test.
set -eu

top=$(dirname -- "$(dirname -- "$(readlink -f -- "${BASH_SOURCE[0]}")")")
cd -- "$top/crates/store_times"

# The proved program is built where it is not there.
log=$(mktemp)
trap 'rm -f -- "$log"' EXIT
rt run >"$log" 2>&1 || { cat -- "$log" >&2; exit 1; }
out/store_times "${1:-200}"
