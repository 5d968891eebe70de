#!/usr/bin/env bash
# A benchmark: runs plans of one client with more and more commands, and prints what a line of the log costs.
# Time and memory are those of ./afr less what it takes for a plan with no commands. It needs GNU time.
set -eu
export LC_ALL=C
cd "$(dirname "$(readlink -f "${BASH_SOURCE[0]}")")/.."
room=$(mktemp -d)
trap 'rm -rf "$room"' EXIT

# Writes of 16 bytes, each followed by a read of the same place, within the first 32,016 bytes of a file:
# so the ends of all writes stay below the limit on their sum.
plan() {
    awk -v commands="$1" 'BEGIN {
        print "afr 1\nvolume replica\nfiles 1\nturns 4000000\nclient 1"
        for (k = 0; k < commands; k++) {
            at = int(k / 2) * 4099 % 32000
            if (k % 2 == 0) printf "write /f1 %d \"16 bytes of text\"\n", at
            else printf "read /f1 %d 16\n", at
        }
        print "end"
    }'
}

# The seconds and the peak memory in KiB of one run, whose report is kept.
run_once() {
    local before=$EPOCHREALTIME
    /usr/bin/time -f %M -o "$room/peak" ./afr run <"$1" >"$room/report"
    awk -v before="$before" -v after="$EPOCHREALTIME" -v peak="$(cat "$room/peak")" \
        'BEGIN { printf "%.6f %d\n", after - before, peak }'
}

# Leaves the least time of three runs, and the memory of that one, in the file `least`.
measure() {
    for _ in 1 2 3; do run_once "$1"; done >"$room/runs"
    sort -g "$room/runs" | head -n 1 >"$room/least"
}

# The first run builds the program, and is not counted.
plan 0 >"$room/none.plan"
./afr run <"$room/none.plan" >"$room/report"
measure "$room/none.plan"
read -r start floor <"$room/least"
echo "start: $start seconds, $floor KiB"
echo

printf '%9s %9s %9s %10s %10s %11s\n' commands lines seconds 'peak KiB' 'us a line' 'bytes a line'
for commands in 1024 4096 16384; do
    plan "$commands" >"$room/some.plan"
    measure "$room/some.plan"
    read -r seconds peak <"$room/least"
    lines=$(awk '$1 == "lines" { print $2 }' "$room/report")
    awk -v commands="$commands" -v lines="$lines" -v seconds="$seconds" -v peak="$peak" -v start="$start" -v floor="$floor" \
        'BEGIN { printf "%9d %9d %9.3f %10d %10.2f %11.0f\n", commands, lines, seconds, peak, (seconds - start) * 1e6 / lines, (peak - floor) * 1024 / lines }'
done
