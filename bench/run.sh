#!/bin/sh
# Times `clkbench bench` with 1 to 64 drivers, each on a thread of its own, and prints nanoseconds a
# command.
#
# The program makes the bundle itself: each driver has a PLL, a divider and a gate of its own, and
# 404 commands. `a-command` is without the journal, `with-journal` with it, written to /dev/null; both
# are of the whole process, in which the bundle is made and read, and threads are started. `reading`
# is `check` on the same text, which reads it and runs no driver, and `one-thread` is `sim` on it less
# that: the calls themselves with their entries, and the printing of their answers. Each is the best
# of five runs.
#
# The last line says how long an enable has to wait for planning: under `run` one driver asks over and
# over what a rate would round to, of a divider with 65,536 divisors. No divisor gives that rate, so each
# of them is tried, and a rounding takes more than a millisecond. Another driver has 20,000 enables
# meanwhile. It counts the roundings that stand in the journal between the first enable and the last: a
# few, if the enables go on while a rounding is worked out, and nearly all, if each waits for one.

root=$(dirname -- "$(dirname -- "$(readlink -f -- "$0")")") || exit 1
program=$root/crates/clkbench/out/clkbench
. "$root/bench/best_of_five.sh"
text=$(mktemp) || exit 1
journal=$(mktemp) || exit 1
trap 'rm -f "$text" "$journal"' EXIT

# The text of the bundle that the program makes for so many drivers.
generated() {
    awk -v drivers="$1" 'BEGIN {
        print "%bundle 1"
        print "%clocks"
        print "fixed osc 24000000"
        for (k = 1; k <= drivers; k++) {
            printf "pll p%d osc %d 0 9 %d 31 100 400 24\n", k, 2 * k - 2, 2 * k - 2
            printf "divider d%d p%d %d 0 4 set-rate-parent\n", k, k, 2 * k - 1
            printf "gate g%d d%d %d 8 set-rate-parent\n", k, k, 2 * k - 1
        }
        print "%regs " 2 * drivers
        for (k = 1; k <= drivers; k++) print 2 * k - 2 " 0x64"
        for (k = 1; k <= drivers; k++) {
            printf "%%driver w%d\nget x g%d\nprepare x\n", k, k
            for (turn = 1; turn <= 100; turn++)
                printf "set x %d\nenable x\nrunning x\ndisable x\n", turn % 2 ? 40000000 : 30000000
            print "unprepare x"
            print "put x"
        }
    }'
}

# Whether the runs of this text and of the program's own end in the same summary and registers.
is_same() {
    own=$("$program" bench "$1" </dev/null | grep -v '^drivers \|^commands \|^ok ') || return 1
    ran=$("$program" sim <"$text" | grep -v '^w[0-9]*\.[0-9]* \|^boot\.[0-9]* ') || return 1
    [ "$own" = "$ran" ]
}

# Times so many drivers, and prints their line.
measure() {
    commands=$(($1 * 404))
    generated "$1" >"$text"
    if ! is_same "$1"; then
        echo "run.sh: the text isn't that of bench $1" >&2
        exit 1
    fi
    bundle=/dev/null
    if ! plain=$(best_of_five bench "$1") || ! journal=$(best_of_five --journal bench "$1"); then
        echo "run.sh: the program failed on $1 drivers" >&2
        exit 1
    fi
    bundle=$text
    if ! reading=$(best_of_five check) || ! one_thread=$(best_of_five sim); then
        echo "run.sh: the program failed on the text of $1 drivers" >&2
        exit 1
    fi
    printf '%8d %10d %12d %14d %12d %12d\n' "$1" "$commands" $((plain / commands)) \
        $((journal / commands)) $((reading / commands)) $(((one_thread - reading) / commands))
}

# The bundle of so many roundings of one driver and so many enables of another.
rounding_beside_enables() {
    awk -v roundings="$1" -v enables="$2" 'BEGIN {
        print "%bundle 1\n%clocks\nfixed osc 24000000\ndivider d osc 0 0 16 set-rate-parent\ngate g osc 1 0\n%regs 2"
        print "%driver A\nget x d"
        while (roundings-- > 0) print "round x 999999"
        print "%driver B\nget x g\nprepare x"
        while (enables-- > 0) print "enable x\ndisable x"
    }'
}

# Prints how many roundings stand between the first and the last of the enables.
count_roundings() {
    rounding_beside_enables 2000 20000 >"$text"
    if ! "$program" run <"$text" >"$journal"; then
        echo "run.sh: the program failed on roundings beside enables" >&2
        exit 1
    fi
    awk '
        $2 == "B" && $3 == "enable" { if (!enables++) first = roundings; last = roundings }
        $2 == "A" && $4 == "round" { roundings++ }
        END { printf "%d of %d roundings of a driver stand between the first and the last of %d enables of another\n", last - first, roundings, enables }
    ' "$journal"
}

# The proved program is measured, so it is proved and built first.
"$root/prove" >&2 || exit 1

printf '%8s %10s %12s %14s %12s %12s\n' drivers commands a-command with-journal reading one-thread
for drivers in 1 2 4 8 16 32 64; do
    measure "$drivers"
done

echo
count_roundings
