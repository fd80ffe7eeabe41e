#!/bin/sh
# How long drivers wait for one another: 2, 4, 8 and 64 of them, each on a thread of its own, over the framework, and
# beside it in the same run over the same core in a std Mutex, with another Mutex as its prepare lock. The first driver
# changes the rate of a divider over and over, which moves 1 clock or 1,000, and the others enable and disable a gate
# of their own each until the changes end.
#
# The first table is of drivers that don't rest. Its figures are of the journal, as long as at least two drivers have
# entries to come: the changes of driver per 1,000 entries; the longest run of entries of one driver, and how many runs
# are over 200 entries; the mean of the entries of others inside a call that goes on; and the nanoseconds an entry.
#
# The second one has the nanoseconds of an enable, two readings of the clock included, if the driver rests for some
# microseconds before each: the median, what 99 of a hundred don't exceed, and the greatest. `enables` says how many
# were timed.
#
# Each figure is the median of five runs, `lock` for the framework and `mutex` for the Mutex. It wants a processor for
# each driver and nothing else that runs. The program in bench/wait is proved and built in a folder of its own, which is
# removed at the end. Its files end in .txt, since it is no part of the gate.
set -eu
top=$(cd "$(dirname "$0")/.." && pwd)
scratch=$(mktemp -d)
trap 'rm -rf "$scratch"' EXIT
mkdir "$scratch/crates"
cp "$top/HANDLES" "$scratch/"

# The crates below the program, by the lines of crates.txt.
below=$(awk '
    { name = $1; sub(":", "", name); line[name] = $0 }
    function take(name,    words, count, i) {
        if (!(name in line) || (name in taken)) return
        taken[name] = 1
        count = split(line[name], words, " ")
        for (i = 2; i <= count; i++) take(words[i])
        print name
    }
    END { take("clk_framework"); take("clock_lines") }
' "$top/crates.txt")
for crate in $below; do
    mkdir "$scratch/crates/$crate"
    for part in src specs proofs; do
        [ ! -d "$top/crates/$crate/$part" ] || cp -r "$top/crates/$crate/$part" "$scratch/crates/$crate/"
    done
    grep -E "^$crate[: ]" "$top/crates.txt" >>"$scratch/crates.txt"
done
cp -r "$top/bench/wait" "$scratch/crates/wait_bench"
find "$scratch/crates/wait_bench" -name '*.txt' | while read -r file; do mv "$file" "${file%.txt}"; done
echo 'wait_bench: clk_framework tier_lock clk_machine clk_model clock_lines bundle_text clk_base reg_bank clk_io' >>"$scratch/crates.txt"

# The clock lines: a divider for the first driver, which moves so many clocks, and a gate for each of the others.
clock_lines() {
    awk -v drivers="$1" -v clocks="$2" 'BEGIN {
        print "fixed osc 1000000000"
        print "divider d osc 0 0 8"
        for (i = 2; i <= drivers; i++) printf "gate g%d osc %d %d\n", i, 1 + int(i / 32), i % 32
        for (i = 1; i < clocks; i++) printf "factor f%d d 1 2\n", i
    }'
}

# What one run printed, in one line: the figures of the journal, the nanoseconds an entry, and those of the enables.
figures() {
    awk '
        $1 == "took" { took = $2; next }
        $1 == "waits" { waits = $2 " " $3 " " $4 " " $5; next }
        $1 !~ /^[0-9]+$/ { print "wait.sh: the program says: " $0 > "/dev/stderr"; failed = 1; exit 1 }
        {
            driver[++rows] = $1; letter[rows] = $2; count[rows] = $3; start[rows] = entries; entries += $3
            if ($1 > 0) own += $3
            if ($1 > 0 && !($1 in first)) first[$1] = start[rows]
            last[$1] = entries - 1
        }
        END {
            if (failed) exit 1
            low = second_low = entries
            high = second_high = -1
            for (d in first) {
                if (first[d] < low) { second_low = low; low = first[d] } else if (first[d] < second_low) second_low = first[d]
                if (last[d] > high) { second_high = high; high = last[d] } else if (last[d] > second_high) second_high = last[d]
            }
            for (i = 1; i <= rows; i++) {
                from = start[i] < second_low ? second_low : start[i]
                to = start[i] + count[i] - 1 > second_high ? second_high : start[i] + count[i] - 1
                if (to < from) continue
                both += to - from + 1
                if (driver[i] != now) { changes++; now = driver[i]; if (run > 200) long++; run = 0 }
                run += to - from + 1
                if (run > longest) longest = run
                if (letter[i] == "b") { open = driver[i]; going++ }
                if (open && driver[i] != open) inside += to - from + 1
                if (letter[i] == "f") open = 0
            }
            if (run > 200) long++
            printf "%.1f %d %d %.1f %.1f %s\n", \
                both ? changes * 1000 / both : 0, longest, long, going ? inside / going : 0, took / own, waits
        }'
}

# The median of each column of five lines.
medians() {
    awk '
        { for (i = 1; i <= NF; i++) value[i, NR] = $i; columns = NF }
        END {
            if (NR != 5) exit 1
            for (i = 1; i <= columns; i++) {
                for (j = 1; j <= 5; j++)
                    for (k = j + 1; k <= 5; k++)
                        if (value[i, k] + 0 < value[i, j] + 0) { kept = value[i, j]; value[i, j] = value[i, k]; value[i, k] = kept }
                printf "%s%s", value[i, 3], i < columns ? " " : "\n"
            }
        }'
}

# The medians of five runs: `lock` or `mutex`, how many drivers, clocks, changes and pauses of a rest.
measure() {
    clock_lines "$2" "$3" >"$scratch/lines"
    for run in 1 2 3 4 5; do
        ./out/wait_bench "$1" "$2" "$4" "$5" <"$scratch/lines" | figures
    done | medians
}

cd "$scratch/crates/wait_bench"
clock_lines 2 1 >stdin
if ! rt run -- lock 2 1 0 <stdin >"$scratch/log" 2>&1; then
    cat "$scratch/log" >&2
    exit 1
fi

# Prints the line of one work in the first table.
print_turns() {
    row=$(measure "$1" "$2" "$3" $(($3 == 1 ? 10000 : 50)) 0) || exit 1
    echo "$row" | while read -r changes longest long inside ns _; do
        printf '%7d %7d %-5s %8.1f %8d %8d %8.1f %8.1f\n' "$3" "$2" "$1" "$changes" "$longest" "$long" "$inside" "$ns"
    done
}

# Prints the line of one work in the second table.
print_enables() {
    row=$(measure "$1" "$2" "$3" $(($3 == 1 ? 40000 : 200)) 100) || exit 1
    echo "$row" | while read -r _ _ _ _ _ enables median most greatest; do
        printf '%7d %7d %-5s %8d %8d %8d %10d\n' "$3" "$2" "$1" "$enables" "$median" "$most" "$greatest"
    done
}

echo "How drivers take turns"
printf '%7s %7s %-5s %8s %8s %8s %8s %8s\n' clocks drivers '' changes longest 'over 200' inside ns
for clocks in 1 1000; do
    for drivers in 2 4 8 64; do
        print_turns lock "$drivers" "$clocks"
        print_turns mutex "$drivers" "$clocks"
    done
done

echo
echo "How long an enable takes, in nanoseconds"
printf '%7s %7s %-5s %8s %8s %8s %10s\n' clocks drivers '' enables median 99th greatest
for clocks in 1 1000; do
    for drivers in 2 4; do
        print_enables lock "$drivers" "$clocks"
        print_enables mutex "$drivers" "$clocks"
    done
done
