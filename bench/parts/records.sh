#!/bin/sh
# How many nanoseconds it takes to add a handle and to put it back and to read the boundaries of its clock, with other
# handles on the same clock and on another; and to add a notifier and to take it away and to go over a clock's chain,
# with other notifiers on the clock. Each is the mean of 100,000 calls.
#
# The program in bench/parts/records is proved and built in a folder of its own, which is removed at the end. Its files
# end in .txt, since it is no part of the gate.
set -eu
top=$(dirname -- "$(dirname -- "$(dirname -- "$(readlink -f -- "$0")")")")
scratch=$(mktemp -d)
trap 'rm -rf "$scratch"' EXIT
mkdir "$scratch/crates"
below='clk_io|reg_bank|kind_math|clk_base|clk_model|notifiers|rate_requests|bundle_text|clock_lines'
for crate in $(printf '%s' "$below" | tr '|' ' '); do
    cp -r "$top/crates/$crate" "$scratch/crates/"
done
cp -r "$top/bench/parts/records" "$scratch/crates/records_bench"
find "$scratch/crates/records_bench" -name '*.txt' | while read -r file; do mv "$file" "${file%.txt}"; done
grep -E "^($below)[: ]" "$top/crates.txt" >"$scratch/crates.txt"
printf '%s\n' 'records_bench: notifiers rate_requests clk_model clock_lines bundle_text clk_base reg_bank kind_math clk_io slab indexmap bitflags' >>"$scratch/crates.txt"
cd "$scratch/crates/records_bench"
if ! rt run >"$scratch/out" 2>"$scratch/log"; then
    cat "$scratch/log" "$scratch/out" >&2
    exit 1
fi
awk '
    $1 == "handles" { printf "%d handles on the clock, %d on another: added and put back %d ns, boundaries %d ns\n", $2, $3, $4, $5 }
    $1 == "notifiers" { printf "%d notifiers on the clock: added and taken away %d ns, the chain %d ns\n", $2, $3, $4 }
    $0 ~ /no time/ { print "records.sh: " $0 }
' "$scratch/out"
