#!/bin/sh
# How many nanoseconds a call takes that is one entry of the enable tier, under the counted lock of each journal, with 1
# thread and with 8: a reset call (a deassert or an assert of a line that all drivers share), the setting of a phase, and
# beside them an enable or a disable of the framework. Each thread makes 500,000 calls by a seat of its own and does
# nothing between them, so the threads meet throughout; a figure is the time of all threads by the number of all calls.
# Each entry is written to memory that wasn't touched before, so a figure has its part of the page faults.
#
# One run is noisy, so the program runs ten times, and a line has the least and the mean of each. It wants a machine on
# which nothing else runs. The program in bench/journals is proved and built in a folder of its own, which is removed at
# the end; with nothing kept on this machine that takes the time of a proof of clk_framework and all below it. Its files
# end in .txt, since it is no part of the gate.
set -eu
top=$(dirname -- "$(dirname -- "$(readlink -f -- "$0")")")
scratch=$(mktemp -d)
trap 'rm -rf "$scratch"' EXIT
mkdir "$scratch/crates"
below='clk_io|reg_bank|kind_math|clk_base|clk_model|clk_tree|notifiers|orphans|unused_sweep|rate_requests|counts_core|rate_planner|change_walk|clk_flight|core_parts|clk_machine|tier_lock|clk_framework|shared_log|reset_core|clk_phase'
for crate in $(printf '%s' "$below" | tr '|' ' '); do
    mkdir "$scratch/crates/$crate"
    for part in src specs proofs; do
        [ ! -d "$top/crates/$crate/$part" ] || cp -r "$top/crates/$crate/$part" "$scratch/crates/$crate/"
    done
done
cp "$top/HANDLES" "$scratch/"
cp -r "$top/bench/journals" "$scratch/crates/journals_bench"
find "$scratch/crates/journals_bench" -name '*.txt' | while read -r file; do mv "$file" "${file%.txt}"; done
grep -E "^($below)[: ]" "$top/crates.txt" >"$scratch/crates.txt"
printf '%s\n' 'journals_bench: clk_framework reset_core clk_phase shared_log clk_machine tier_lock clk_model clk_base reg_bank kind_math clk_io atomic_table bitflags anyhow' >>"$scratch/crates.txt"
cd "$scratch/crates/journals_bench"
if ! rt run >"$scratch/log" 2>&1; then
    cat "$scratch/log" >&2
    exit 1
fi
for run in 1 2 3 4 5 6 7 8 9 10; do
    ./out/journals_bench
done | awk '
    {
        for (i = 3; i < NF; i += 2) {
            call = $i
            taken = $(i + 1)
            runs[$1, call]++
            all[$1, call] += taken
            if (!(($1, call) in least) || taken < least[$1, call]) least[$1, call] = taken
        }
    }
    END {
        for (threads = 1; threads <= 8; threads += 7)
            printf "%d threads: a reset call %d, mean %.0f; the setting of a phase %d, mean %.0f; an enable %d, mean %.0f ns\n", threads, \
                least[threads, "reset"], all[threads, "reset"] / runs[threads, "reset"], \
                least[threads, "phase"], all[threads, "phase"] / runs[threads, "phase"], \
                least[threads, "enable"], all[threads, "enable"] / runs[threads, "enable"]
    }'
