#!/bin/sh
# Times `clkbench sim` on generated bundles, and prints nanoseconds a command.
#
# A bundle has one fixed clock and gates in a binary tree below it, each gate with a bit of its own.
# Each driver gets and prepares some of the deepest gates, and then repeats enable, rate and prepare
# on them. Each line is the best of five runs without the journal and of five with it; the last one is
# of sixteen drivers with a million commands in all.

root=$(dirname -- "$(dirname -- "$(readlink -f -- "$0")")") || exit 1
program=$root/crates/clkbench/out/clkbench
. "$root/bench/best_of_five.sh"
bundle=$(mktemp) || exit 1
trap 'rm -f "$bundle"' EXIT

# Prints a bundle of so many clocks, with so many drivers of so many commands each.
make_bundle() {
    awk -v clocks="$1" -v commands="$2" -v drivers="$3" 'BEGIN {
        gates = clocks - 1
        print "%bundle 1"
        print "%clocks"
        print "fixed g0 24000000"
        for (i = 1; i <= gates; i++)
            printf "gate g%d g%d %d %d\n", i, int(i / 2), int((i - 1) / 32), (i - 1) % 32
        printf "%%regs %d\n", int((gates + 31) / 32)
        handles = gates < 16 ? gates : 16
        split("enable rate prepare", verbs, " ")
        for (d = 1; d <= drivers; d++) {
            printf "%%driver bench%d\n", d
            for (k = 0; k < commands; k++) {
                if (k < 2 * handles) {
                    j = int(k / 2)
                    if (k % 2 == 0)
                        printf "get v%d g%d\n", j, gates - j
                    else
                        printf "prepare v%d\n", j
                } else
                    printf "%s v%d\n", verbs[k % 3 + 1], int(k / 3) % handles
            }
        }
    }'
}

# Times one bundle, and prints its line.
measure() {
    make_bundle "$1" "$2" "$3" >"$bundle"
    if ! taken=$(best_of_five sim) || ! journaled=$(best_of_five --journal sim); then
        echo "sim.sh: the program failed on $1 clocks and $2 commands" >&2
        exit 1
    fi
    all=$(($2 * $3))
    printf '%8d %8d %10d %12d %12d %12d\n' "$1" "$3" "$2" $((taken / all)) $((journaled / all)) $((taken / ($1 + all)))
}

# The proved program is measured, so it is proved and built first.
"$root/prove" >&2 || exit 1

echo "In nanoseconds. Boot registers each clock by a command of its own: the last column counts these commands too."
printf '%8s %8s %10s %12s %12s %12s\n' clocks drivers commands a-command with-journal of-all
for clocks in 10 100 1000 4096; do
    measure "$clocks" 1000 1
done
for clocks in 100 4096; do
    measure "$clocks" 65536 1
done
measure 100 65536 16
