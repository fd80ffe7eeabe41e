#!/bin/sh
# How many nanoseconds the calls of the core take, each with its steps and its journal entries, on one thread and
# without a lock:
#
# - of the lowest of 1, 4, 16 and 63 gates in a row below a fixed clock, each pair of calls together: a handle that is
#   got and put; prepare and unprepare, and enable and disable, with nobody else ("from off": all gates open and close,
#   the clock is prepared by this handle alone) and with another handle that holds the clock prepared and enabled; then
#   one question whether it runs, and one for its rate;
# - one request for 500 kHz or 250 kHz, in turn, of a divider over 1 MHz, and one rounding of them, with 0, 16, 256 and
#   4,000 factors below the divider, and with none below and 4,000 elsewhere;
# - one change of parent of a mux that nobody prepares; one request that moves a mux whose only child is held enabled,
#   and one rounding of that;
# - the registration of 4,096 clocks, gates in a binary tree: one clock, and all in milliseconds.
#
# Each time is the best of five runs, of 10,000 pairs or, where there are more than 100 clocks, of 200. It stands
# twice: over fresh memory, as a first core has it, and over memory that an earlier core in the same process has
# written to, which the allocator is told to keep (glibc's `mmap_max` and `trim_threshold`). Each entry of a journal
# is written to memory that wasn't touched before, so the first column has a page fault for each 51 entries; the
# second is the core's own work.
#
# The program in bench/core is proved and built in a folder of its own, which is removed at the end. Its files end in
# .txt, since it is no part of the gate.
set -eu
top=$(dirname -- "$(dirname -- "$(readlink -f -- "$0")")")
scratch=$(mktemp -d)
trap 'rm -rf "$scratch"' EXIT
mkdir "$scratch/crates"
below='clk_io|reg_bank|kind_math|clk_base|clk_model|clk_tree|notifiers|orphans|unused_sweep|rate_requests|counts_core|rate_planner|change_walk|bundle_text|clock_lines|clk_flight|core_parts|clk_machine'
for crate in $(printf '%s' "$below" | tr '|' ' '); do
    cp -r "$top/crates/$crate" "$scratch/crates/"
done
cp "$top/HANDLES" "$scratch/"
cp -r "$top/bench/core" "$scratch/crates/core_bench"
find "$scratch/crates/core_bench" -name '*.txt' | while read -r file; do mv "$file" "${file%.txt}"; done
grep -E "^($below)[: ]" "$top/crates.txt" >"$scratch/crates.txt"
printf '%s\n' 'core_bench: clk_machine clk_tree clk_model clock_lines bundle_text clk_base reg_bank clk_io' >>"$scratch/crates.txt"
cd "$scratch/crates/core_bench"

# So many gates in a row below a fixed clock, the lowest is asked.
chain() {
    awk -v count="$1" 'BEGIN {
        print "fixed c0 24000000"
        for (i = 1; i <= count; i++) printf "gate %s c%d %d %d\n", i == count ? "asked" : "c" i, i - 1, int((i - 1) / 32), (i - 1) % 32
    }'
}

# A divider with so many factors below it, and so many elsewhere.
spread() {
    printf '%s\n' 'fixed osc 1000000' 'divider asked osc 0 0 8'
    awk -v below="$1" -v elsewhere="$2" 'BEGIN {
        for (i = 1; i <= below; i++) printf "factor b%d asked 1 2\n", i
        for (i = 1; i <= elsewhere; i++) printf "factor e%d osc 1 2\n", i
    }'
}

# A mux over two gates, with a gate below it of the name that is given.
choice() {
    printf '%s\n' 'fixed low 250000' 'fixed high 500000' 'gate first low 0 0' 'gate second high 0 1' \
        'mux asked 1 0 1 2 first second' "gate $1 asked 0 2"
}

# So many gates in a binary tree below a fixed clock.
bush() {
    awk -v count="$1" 'BEGIN {
        print "fixed g0 24000000"
        for (i = 1; i <= count; i++) printf "gate g%d g%d %d %d\n", i, int(i / 2), int((i - 1) / 32), (i - 1) % 32
    }'
}

chain 4 >stdin
if ! rt run -- holders <stdin >"$scratch/log" 2>&1; then
    cat "$scratch/log" >&2
    exit 1
fi

# What one run prints, each line behind the word for its memory.
run_once() {
    ./out/core_bench "$1" <"$scratch/lines" | sed 's/^/fresh /'
    GLIBC_TUNABLES=glibc.malloc.mmap_max=0:glibc.malloc.trim_threshold=4294967296 \
        ./out/core_bench "$1" again <"$scratch/lines" | sed '1,/^again$/d; s/^/kept /'
}

# Measures by this word over the clock lines on standard input, and prints a line for each measure, with these words
# behind its name.
measure() {
    cat >"$scratch/lines"
    for run in 1 2 3 4 5; do
        run_once "$1"
    done | awk -v over="$2" '
        $2 !~ /^[0-9]+$/ { print "core.sh: the program says: " $0; failed = 1; exit 1 }
        {
            memory = $1
            taken = $2
            sub(/^[a-z]+ [0-9]+ /, "")
            if (!($0 in named)) { named[$0] = 1; names[count++] = $0 }
            if (!((memory, $0) in best) || taken < best[memory, $0]) best[memory, $0] = taken
        }
        END { if (!failed) for (i = 0; i < count; i++) printf "%-72s %12d %12d\n", names[i] ", " over, best["fresh", names[i]], best["kept", names[i]] }'
}

printf '%-72s %12s %12s\n' 'calls, ns' 'fresh memory' 'kept memory'
for count in 1 4 16 63; do
    chain "$count" | measure holders "$count gates in a row"
done
for count in 0 16 256 4000; do
    spread "$count" 0 | measure rates "a divider with $count clocks below"
done
spread 0 4000 | measure rates 'a divider with 4000 clocks elsewhere'
choice idle | measure parents 'a mux that nobody prepares'
choice held | measure rates 'a mux that is held enabled and moves'
bush 4095 | measure registration '4096 clocks' | awk '
    NF < 2 || $NF !~ /^[0-9]+$/ { print; next }
    {
        printf "%-72s %12d %12d\n", "registering a clock, of 4096", $(NF - 1) / 4096, $NF / 4096
        printf "%-72s %12.1f %12.1f\n", "registering 4096 clocks, in milliseconds", $(NF - 1) / 1000000, $NF / 1000000
    }'
