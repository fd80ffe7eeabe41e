#!/bin/sh
# How many nanoseconds it takes to round a request and to plan it: of a divider that keeps its parent or asks it, over a
# fixed clock and over a PLL, of a mux over 2 and 64 clocks, of a chain of 8 gates over a divider and of 8 dividers, and
# of a divider with up to 4,000 gates below it or elsewhere. A line says what is asked, the two times, what the rounding
# gives in Hz, and how many clocks the plan's walk has; each time is the best of five runs of 1,000 calls.
#
# The program in bench/planner is proved and built in a folder of its own, which is removed at the end. Its files end in
# .txt, since it is no part of the gate. It reads clock lines, attaches each clock to its first possible parent, and asks
# the clock `asked` for 10 MHz and a bit.
set -eu
top=$(dirname -- "$(dirname -- "$(readlink -f -- "$0")")")
scratch=$(mktemp -d)
trap 'rm -rf "$scratch"' EXIT
mkdir "$scratch/crates"
below='clk_io|reg_bank|kind_math|clk_base|clk_model|clk_tree|rate_planner|bundle_text|clock_lines'
for crate in $(printf '%s' "$below" | tr '|' ' '); do
    cp -r "$top/crates/$crate" "$scratch/crates/"
done
cp "$top/HANDLES" "$scratch/"
cp -r "$top/bench/planner" "$scratch/crates/planner_bench"
find "$scratch/crates/planner_bench" -name '*.txt' | while read -r file; do mv "$file" "${file%.txt}"; done
grep -E "^($below)[: ]" "$top/crates.txt" >"$scratch/crates.txt"
printf '%s\n' 'planner_bench: rate_planner clk_tree clk_model clock_lines bundle_text clk_base reg_bank kind_math clk_io indexmap bitflags' >>"$scratch/crates.txt"
cd "$scratch/crates/planner_bench"

# So many gates over a clock, each with a bit of its own behind the first two words.
gates() {
    awk -v over="$1" -v count="$2" 'BEGIN { for (i = 0; i < count; i++) printf "gate g%d %s %d %d\n", i, over, 2 + int(i / 32), i % 32 }'
}

# A fixed clock and a PLL of 200 MHz over it.
fixed='fixed osc 24000000'
pll='pll vco osc 0 0 9 0 31 100 400 24'

# A mux over so many fixed clocks.
mux() {
    awk -v count="$1" 'BEGIN {
        for (i = 0; i < count; i++) printf "fixed c%d %d\n", i, 1000000 * (i + 1)
        printf "mux asked 1 0 6 %d", count
        for (i = 0; i < count; i++) printf " c%d", i
        print ""
    }'
}

# A chain of 8 gates that ask a divider, or of 8 dividers of one bit that ask each other.
chain() {
    awk -v kind="$1" 'BEGIN {
        print "fixed osc 24000000"
        print "divider d osc 1 0 8"
        for (i = 0; i < 8; i++) {
            name = i == 7 ? "asked" : "c" i
            over = i == 0 ? (kind == "gates" ? "d" : "osc") : "c" (i - 1)
            if (kind == "gates") printf "gate %s %s 2 %d set-rate-parent\n", name, over, i
            else printf "divider %s %s 2 %d 1 set-rate-parent\n", name, over, i
        }
    }'
}

printf '%s\ndivider asked osc 1 0 8\n' "$fixed" >stdin
if ! rt run <stdin >"$scratch/log" 2>&1; then
    cat "$scratch/log" >&2
    exit 1
fi

# Times the clock lines on standard input, and prints their line.
measure() {
    cat >"$scratch/lines"
    for run in 1 2 3 4 5; do
        ./out/planner_bench <"$scratch/lines"
    done | awk -v what="$1" '
        NF != 4 { print "planner.sh: the program says: " $0; failed = 1; exit 1 }
        NR == 1 || $1 < round { round = $1 }
        NR == 1 || $2 < plan { plan = $2 }
        { rate = $3; walk = $4 }
        END { if (!failed) printf "%-44s %10d %10d %10d %6d\n", what, round, plan, rate, walk }'
}

printf '%-44s %10s %10s %10s %6s\n' asked round-ns plan-ns rate walk
printf '%s\ndivider asked osc 1 0 8\n' "$fixed" | measure 'divider over a fixed clock'
printf '%s\n%s\ndivider asked vco 1 0 8\n' "$fixed" "$pll" | measure 'divider over a PLL'
for width in 4 8; do
    printf '%s\ndivider asked osc 1 0 %d set-rate-parent\n' "$fixed" "$width" | measure "divider of width $width that asks a fixed clock"
    printf '%s\n%s\ndivider asked vco 1 0 %d set-rate-parent\n' "$fixed" "$pll" "$width" | measure "divider of width $width that asks a PLL"
done
for count in 2 64; do
    mux "$count" | measure "mux over $count clocks"
done
chain gates | measure 'chain of 8 gates that ask a divider'
chain dividers | measure 'chain of 8 dividers that ask'
for count in 16 256 4000; do
    { printf '%s\ndivider asked osc 1 0 8\n' "$fixed"; gates asked "$count"; } | measure "divider over $count gates"
done
{ printf '%s\ndivider asked osc 1 0 8\n' "$fixed"; gates osc 4000; } | measure 'divider with 4000 gates elsewhere'
