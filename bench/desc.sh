#!/bin/sh
# Times the reading of clock lines and the rules of a description, for muxes with 64 possible parents
# each in at most 64 levels, and prints microseconds and nanoseconds a possible parent.
#
# A description has rows of 64 clocks. The clocks of the first row are fixed, and each of the others
# is a mux over all clocks of the row before it: `earlier` prints the rows in this order, `later` the
# other way round, so that each parent stands on a later line. In `cycle`, which is refused, the rows
# stand as in `later`, and all clocks lead to the last, which is its own parent. The program that
# reads them is written, proved and built in a folder of its own, which is removed at the end. Each
# line is the best of five runs.
set -eu

root=$(dirname -- "$(dirname -- "$(readlink -f -- "$0")")")
scratch=$(mktemp -d)
trap 'rm -rf "$scratch"' EXIT
mkdir -p "$scratch/crates/desc_bench/src"
for crate in clk_io reg_bank clk_base bundle_text clock_lines; do
    cp -r "$root/crates/$crate" "$scratch/crates/"
done
printf '%s\n' 'clk_io:' 'reg_bank: clk_io' 'clk_base: reg_bank clk_io bitflags indexmap' \
    'bundle_text: clk_io' 'clock_lines: bundle_text clk_base clk_io indexmap bitflags' \
    'desc_bench: clock_lines bundle_text clk_base clk_io' >"$scratch/crates.txt"
cat >"$scratch/crates/desc_bench/src/main.rt" <<'PROGRAM'
//! Reads the clock lines on standard input, and prints how many clocks they are, whether their
//! description is valid, and the nanoseconds that reading and checking took.
#![tactic(auto)]

use bundle_text::TextLines;
use clk_io::MOST_BYTES;
use clock_lines::read_clocks;
use std::io;
use std::time::Instant;

fn measure(rt: &HostRuntime, text: &str) -> io::Result<()> {
    if text.len() > MOST_BYTES {
        return println!(rt; "too long");
    }
    let start = Instant::now(rt)?;
    let Ok(lines) = TextLines::new(rt.alloc(), text.as_bytes()) else {
        return println!(rt; "no lines");
    };
    let Ok(list) = read_clocks(rt.alloc(), &lines, 0, lines.len()) else {
        return println!(rt; "no clocks");
    };
    let read = start.elapsed(rt)?.as_nanos();
    let clocks = list.desc.len();
    let start = Instant::now(rt)?;
    let valid = list.desc.check(rt.alloc(), 65536).is_ok();
    let ruled = start.elapsed(rt)?.as_nanos();
    println!(rt; "{clocks} {valid} {read} {ruled}")
}

fn main(rt: HostRuntime) -> io::Result<()> {
    let text = io::read_to_string(rt.alloc(), rt.stdin())?;
    measure(&rt, text.as_str())
}
PROGRAM

# Prints the clock lines of so many rows, in an order.
make_lines() {
    awk -v rows="$1" -v order="$2" '
    function line(row, column, k, text) {
        k = row * 64 + column
        if (row == 0 && order != "cycle")
            return sprintf("fixed c%d 24000000", k)
        if (row == 0)
            return sprintf("mux c%d %d 0 6 1 c0", k, k)
        text = sprintf("mux c%d %d 0 6 64", k, k)
        for (p = 0; p < 64; p++)
            text = text sprintf(" c%d", (row - 1) * 64 + p)
        return text
    }
    BEGIN {
        if (order == "earlier")
            for (row = 0; row < rows; row++)
                for (column = 0; column < 64; column++)
                    print line(row, column)
        else
            for (row = rows - 1; row >= 0; row--)
                for (column = 63; column >= 0; column--)
                    print line(row, column)
    }'
}

cd "$scratch/crates/desc_bench"
make_lines 2 earlier >stdin
if ! rt run <stdin >"$scratch/log" 2>&1; then
    cat "$scratch/log" >&2
    exit 1
fi

printf '%8s %6s %6s %12s %12s %16s %16s\n' order clocks valid lines-us rules-us lines-ns/parent rules-ns/parent
for order in earlier later cycle; do
    for rows in 2 16 64; do
        make_lines "$rows" "$order" >"$scratch/lines"
        for run in 1 2 3 4 5; do
            ./out/desc_bench <"$scratch/lines"
        done | awk -v order="$order" '
            NF != 4 { print "desc.sh: the program says: " $0; failed = 1; exit 1 }
            NR == 1 || $3 < read { read = $3 }
            NR == 1 || $4 < ruled { ruled = $4 }
            { clocks = $1; valid = $2 }
            END { if (!failed) { parents = (clocks - 64) * 64; printf "%8s %6d %6s %12d %12d %16.1f %16.1f\n", order, clocks, valid, read / 1000, ruled / 1000, read / parents, ruled / parents } }'
    done
done
