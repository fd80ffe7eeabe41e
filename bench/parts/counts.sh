#!/bin/sh
# How many nanoseconds one more holder and one less take, of enable and of prepare holders, of the lowest clock of a
# chain of 1, 4, 16 and 64 clocks: with nobody else, so that the whole chain begins and stops, and with another holder
# of the clock. In `gated` chains each clock protects its rate while it is prepared. Each time is the best of five runs
# of 10,000 pairs; the last column is how many clocks began with nobody else.
#
# The program in bench/parts/counts is proved and built in a folder of its own, which is removed at the end. Its files
# end in .txt, since it is no part of the gate.
set -eu
top=$(dirname -- "$(dirname -- "$(dirname -- "$(readlink -f -- "$0")")")")
scratch=$(mktemp -d)
trap 'rm -rf "$scratch"' EXIT
mkdir "$scratch/crates"
below='clk_io|reg_bank|kind_math|clk_base|clk_model|clk_tree|counts_core|bundle_text|clock_lines'
for crate in $(printf '%s' "$below" | tr '|' ' '); do
    cp -r "$top/crates/$crate" "$scratch/crates/"
done
cp -r "$top/bench/parts/counts" "$scratch/crates/counts_bench"
find "$scratch/crates/counts_bench" -name '*.txt' | while read -r file; do mv "$file" "${file%.txt}"; done
grep -E "^($below)[: ]" "$top/crates.txt" >"$scratch/crates.txt"
printf '%s\n' 'counts_bench: counts_core clk_tree clk_model clock_lines bundle_text clk_base reg_bank kind_math clk_io indexmap bitflags' >>"$scratch/crates.txt"
cd "$scratch/crates/counts_bench"

# A chain of so many clocks with these flags.
chain() {
    awk -v count="$1" -v flags="$2" 'BEGIN {
        for (i = 0; i < count; i++) {
            name = i == count - 1 ? "asked" : "c" i
            if (i == 0) printf "fixed %s 24000000%s\n", name, flags
            else printf "gate %s c%d %d %d%s\n", name, i - 1, int(i / 32), i % 32, flags
        }
    }'
}

chain 4 '' >stdin
if ! rt run <stdin >"$scratch/log" 2>&1; then
    cat "$scratch/log" >&2
    exit 1
fi

printf '%-8s %6s %12s %12s %12s %12s %6s\n' chain clocks enable-off enable-held hold-off hold-held began
for kind in plain gated; do
    flags=
    if [ "$kind" = gated ]; then
        flags=' set-rate-gate'
    fi
    for count in 1 4 16 64; do
        chain "$count" "$flags" >"$scratch/lines"
        for run in 1 2 3 4 5; do
            ./out/counts_bench <"$scratch/lines"
        done | awk -v kind="$kind" -v count="$count" '
            NF != 8 { print "counts.sh: the program says: " $0; failed = 1; exit 1 }
            { for (i = 1; i <= 4; i++) if (NR == 1 || $i < best[i]) best[i] = $i; began = $5 }
            END { if (!failed) printf "%-8s %6d %12d %12d %12d %12d %6d\n", kind, count, best[1], best[2], best[3], best[4], began }'
    done
done
