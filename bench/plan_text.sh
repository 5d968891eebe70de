#!/usr/bin/env bash
# A benchmark: reads plans of a quarter of a million names, prints them, and prints the time and the peak
# memory of both together: the longest plan that a source may have, a plan of short names, and one of as
# many short names that collide under a fixed seed. It needs GNU time, and cc for the last.
set -eu
export LC_ALL=C
top=$(readlink -f "$(dirname "$(readlink -f "${BASH_SOURCE[0]}")")/..")
room=$(mktemp -d)
trap 'rm -rf "$room"' EXIT

# A program that reads a plan and writes what is printed of it. It stands beside copies of the crates.
mkdir -p "$room/crates/reprint/src"
(cd "$top" && tar -c --exclude=out --exclude=must-fail crates) | tar -x -C "$room"
cp "$top/crates.txt" "$room"
echo 'reprint: afr_text afr_base afr_plan_read afr_plan_print' >>"$room/crates.txt"
cat >"$room/crates/reprint/src/main.rt" <<'END'
//! Reads a plan, and writes what is printed of it.
#![tactic(auto)]

use afr_plan_print::print_plan;
use afr_plan_read::read_plan;
use afr_text::{StdSink, StdSource, read_all, write_all};
use std::io;
use std::process::ExitCode;

fn main(rt: HostRuntime) -> ExitCode {
    let mut source = StdSource::new(rt.reader());
    let mut sink = StdSink::new(io::writer(&rt));
    let Ok(bytes) = read_all(rt.alloc(), &mut source, 16_777_216) else {
        return ExitCode::from(4);
    };
    let Ok(plan) = read_plan(rt.alloc(), &bytes) else {
        return ExitCode::from(3);
    };
    let Ok(text) = print_plan(rt.alloc(), &plan) else {
        return ExitCode::from(6);
    };
    match write_all(&mut sink, text.as_bytes()) {
        Ok(()) => ExitCode::from(0),
        Err(_) => ExitCode::from(5),
    }
}
END
(cd "$room/crates/reprint" && rt run -- </dev/null >"$room/built" 2>&1) || true
program=$room/crates/reprint/out/reprint
if [ ! -x "$program" ]; then
    cat "$room/built" >&2
    exit 1
fi

# Commands on paths of 16 names of so many bytes after a letter, each name new.
plan() {
    awk -v digits="$1" 'BEGIN {
        print "afr 1\nvolume replica\nfiles 0\nturns 1\nclient 1"
        for (k = 0; k < 16384; k++) {
            path = ""
            for (i = 0; i < 16; i++) path = path sprintf("/n%0" digits "d", 16 * k + i)
            print "stat " path
        }
        print "end"
    }'
}

# Reads and prints a plan three times.
measure() {
    local kind=$1 plan=$2
    for _ in 1 2 3; do
        before=$EPOCHREALTIME
        /usr/bin/time -f %M -o "$room/peak" "$program" <"$plan" >"$room/text"
        after=$EPOCHREALTIME
        cmp "$plan" "$room/text"
        awk -v kind="$kind" -v bytes="$(wc -c <"$plan")" -v before="$before" -v after="$after" -v peak="$(cat "$room/peak")" \
            'BEGIN { printf "%-9s %9d %9d %9.3f %10d\n", kind, bytes, 262144, after - before, peak }'
    done
}

printf '%-9s %9s %9s %9s %10s\n' names bytes number seconds 'peak KiB'
plan 61 >"$room/long.plan"
measure long "$room/long.plan"
plan 7 >"$room/short.plan"
measure short "$room/short.plan"

# Finding the names takes a minute or more.
cc -O2 -o "$room/colliding_names" "$top/bench/colliding_names.c"
"$room/colliding_names" 262144 >"$room/colliding.plan"
measure colliding "$room/colliding.plan"
