#!/bin/sh
# How many nanoseconds a turn of the counted lock takes, beside a mutex that does the same, with 1, 2, 4 and 8 threads.
# Each thread makes a million turns and does nothing between them, so the threads meet throughout. A pass leaves the lock
# to those that wait after eight turns in a row, so with more than one thread a turn has its part of a move of the lock
# to another processor; bench/wait.sh shows what that is for. One run is noisy: a
# mutex whose other thread sleeps through it looks like one that nobody else wants. So the program runs twenty times,
# and a line has the least and the mean of each, and in how many runs a turn of the lock took at most as long as one of
# the mutex. The program in bench/lock is proved and built in a folder of its own, which is removed at the end. Its
# files end in .txt, since it is no part of the gate.
set -eu
top=$(cd "$(dirname "$0")/.." && pwd)
scratch=$(mktemp -d)
trap 'rm -rf "$scratch"' EXIT
mkdir "$scratch/crates"
cp "$top/HANDLES" "$scratch/"
cp -r "$top/crates/clk_io" "$top/crates/tier_lock" "$scratch/crates/"
cp -r "$top/bench/lock" "$scratch/crates/lock_bench"
find "$scratch/crates/lock_bench" -name '*.txt' | while read -r file; do mv "$file" "${file%.txt}"; done
printf '%s\n' 'clk_io:' 'tier_lock: clk_io atomic_table crossbeam_utils' 'lock_bench: tier_lock clk_io atomic_table crossbeam_utils anyhow' > "$scratch/crates.txt"
cd "$scratch/crates/lock_bench"
if ! rt run > "$scratch/log" 2>&1; then
    cat "$scratch/log" >&2
    exit 1
fi
for run in 1 2 3 4 5 6 7 8 9 10 11 12 13 14 15 16 17 18 19 20; do
    ./out/lock_bench
done | awk '
    {
        runs[$1]++
        lock[$1] += $5
        mutex[$1] += $10
        if (!($1 in least) || $5 < least[$1]) least[$1] = $5
        if (!($1 in least_mutex) || $10 < least_mutex[$1]) least_mutex[$1] = $10
        if ($5 <= $10) within[$1]++
    }
    END {
        for (threads = 1; threads <= 8; threads *= 2)
            printf "%d threads: counted lock %d, mean %.1f; mutex %d, mean %.1f ns a turn; the lock at most the mutex in %d of %d runs\n", threads, \
                least[threads], lock[threads] / runs[threads], least_mutex[threads], mutex[threads] / runs[threads], within[threads], runs[threads]
    }'
