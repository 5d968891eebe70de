#!/usr/bin/env bash
# Hostile use: refuses the first allocation of a run, then the second alone, and so on until none is left, and then
# runs with less and less address space, and says what came. Each run has to end with status 6 and nothing written, or
# as usual, with the whole text: so it does where what was refused is asked for again (maps of the kit do that) or is
# the start of a thread. It needs cc.
#
#     bench/refused_memory.sh
#
# The program is ./afr, or the one that AFR names. The status is 0; 1 where a run ended otherwise, by a signal or
# not within a minute.
set -u
cd "$(dirname "$(readlink -f "${BASH_SOURCE[0]}")")/.." || exit 1
room=$(mktemp -d)
trap 'rm -rf "$room"' EXIT
if [ -z "${AFR-}" ]; then
    ./afr run <plans/empty.plan >/dev/null || exit 1
    AFR=crates/afr/out/afr
fi
cc -O2 -shared -fPIC -o "$room/refuse.so" bench/refuse_allocation.c || exit 1
wrong=0

# Counts a run by how it ended.
count_run() {
    if [ "$1" -eq 6 ] && [ ! -s "$room/said" ]; then
        memory=$((memory + 1))
    elif [ "$1" -eq 0 ] && cmp -s "$room/said" "$room/usual"; then
        usual=$((usual + 1))
    else
        echo "WRONG: $what, $2: status $1, $(wc -c <"$room/said") bytes written"
        wrong=$((wrong + 1))
    fi
}

# Refuses each allocation of a run in turn.
refuse_each() {
    local plan=$1 number=0 status memory=0 usual=0
    shift
    what="$* < $plan"
    "$AFR" "$@" <"$plan" >"$room/usual"
    while true; do
        number=$((number + 1))
        timeout 60 env REFUSE=$number LD_PRELOAD="$room/refuse.so" "$AFR" "$@" <"$plan" >"$room/said" 3>"$room/reached"
        status=$?
        [ -s "$room/reached" ] || break
        count_run $status "allocation $number refused"
    done
    echo "$what: $((number - 1)) allocations, each refused once: status 6 $memory times, as usual $usual times"
}

# Runs with less and less address space, from 8 MiB down to where the program isn't loaded any more.
limit() {
    local plan=$1 size status memory=0 usual=0
    shift
    what="$* < $plan"
    "$AFR" "$@" <"$plan" >"$room/usual"
    for ((size = 8192; size > 0; size -= 16)); do
        (ulimit -v "$size" && exec "$AFR" </dev/null >/dev/null 2>&1)
        [ $? -eq 2 ] || break
        (ulimit -v "$size" && exec timeout 60 "$AFR" "$@" <"$plan" >"$room/said" 2>/dev/null)
        status=$?
        count_run $status "address space of $size KiB"
    done
    echo "$what: address space from 8192 KiB down to $((size + 16)): status 6 $memory times, as usual $usual times"
}

for do in refuse_each limit; do
    for plan in write_and_read stale_heal_piece source_tree; do $do plans/$plan.plan run; done
    $do /dev/null gen 1
    $do plans/apart.plan live
    $do plans/write_and_read.plan record
    $do plans/write_and_read.image replay 100000
    $do plans/check_yes.given check
done
echo "$wrong ended otherwise"
[ "$wrong" -eq 0 ]
