#!/usr/bin/env bash
# Stops the arena of each script of `stop_runs` at every event of its calls, and recovers what each stop leaves, and what each
# stop of a recovery leaves. It builds the program, runs a script at a time on one core, and prints its line with the time
# that it took. It ends with the status of the first script that fails. It is no part of the gate, which runs a brief one.
set -eu

top=$(dirname -- "$(dirname -- "$(readlink -f -- "${BASH_SOURCE[0]}")")")
crate=$top/crates/stop_runs

# What is built is run by itself. The names of the scripts are the first words of what the gate compares.
(cd -- "$crate" && rt run -- brief ordinary-use) >/dev/null
while read -r name _; do
    begun=$(date +%s.%N)
    line=$("$crate/out/stop_runs" whole "$name")
    awk -v line="$line" -v begun="$begun" -v ended="$(date +%s.%N)" \
        'BEGIN { printf "%s, %.1f s\n", line, ended - begun }'
done <"$crate/stdout"
