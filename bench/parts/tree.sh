#!/bin/sh
# How many nanoseconds it takes to attach a clock and to move it to another parent, in trees of 10, 1,000 and 4,096
# clocks, and to bring the rates of a clock and of 1, 16, 256 and 4,000 clocks below it up to date. The program in
# bench/parts/tree is proved and built in a folder of its own, which is removed at the end. Its files end in .txt,
# since it is no part of the gate.
set -eu
top=$(dirname -- "$(dirname -- "$(dirname -- "$(readlink -f -- "$0")")")")
scratch=$(mktemp -d)
trap 'rm -rf "$scratch"' EXIT
mkdir "$scratch/crates"
for crate in clk_io reg_bank kind_math clk_base clk_model clk_tree; do
    cp -r "$top/crates/$crate" "$scratch/crates/"
done
cp -r "$top/bench/parts/tree" "$scratch/crates/tree_bench"
find "$scratch/crates/tree_bench" -name '*.txt' | while read -r file; do mv "$file" "${file%.txt}"; done
grep -E '^(clk_io|reg_bank|kind_math|clk_base|clk_model|clk_tree):' "$top/crates.txt" >"$scratch/crates.txt"
printf '%s\n' 'tree_bench: clk_tree clk_model clk_base reg_bank kind_math clk_io bitflags' >>"$scratch/crates.txt"
cd "$scratch/crates/tree_bench"
if ! rt run >"$scratch/out" 2>"$scratch/log"; then
    cat "$scratch/log" "$scratch/out" >&2
    exit 1
fi
grep -E '^(attach|refresh) ' "$scratch/out"
