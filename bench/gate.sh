#!/bin/sh
# What the gate costs, crate by crate, in processor minutes. It runs beside `rt ci` and changes
# nothing:
#
#     rt ci & bench/gate.sh watch $! > gate.times
#     bench/gate.sh table < gate.times
#
# `watch` notes each second what each run of the prover has taken that this `rt ci` started, until it
# ends. `table` prints a line a crate: its own proof, that of its tests, and its must-fail edits. What
# an earlier run has kept costs nothing and has no line; `rt ci --anew` keeps nothing. A run of less
# than a second may be missed.

case "${1:-}" in
watch)
    while kill -0 "$2" 2>/dev/null; do
        ps -eo pid=,ppid=,lstart=,cputimes=,args= | awk -v gate="$2" '
            { above[$1] = $2 }
            / --crate-name / && /rattle (build|check|verdict) / {
                kind = "proof"
                for (i = 9; i < NF; i++) {
                    if ($i == "--crate-name") crate = $(i + 1)
                    if ($i == "--test") kind = "tests"
                }
                if ($10 == "check") kind = "edits"
                told[$1] = $1 "-" $6 " " $8 " " crate " " kind
            }
            END {
                for (run in told) {
                    for (at = run; at in above && at != gate; at = above[at]) {}
                    if (at == gate) print told[run]
                }
            }'
        sleep 1
    done
    ;;
table)
    awk '
        $2 > most[$1, $3, $4] { most[$1, $3, $4] = $2 }
        END { for (run in most) { split(run, part, SUBSEP); print part[2], part[3], most[run] } }
    ' | sort | awk '
        { seconds[$1, $2] += $3; crates[$1] = 1; all[$2] += $3 }
        END {
            for (crate in crates)
                printf "%-18s %7.1f %7.1f %7.1f %7.1f\n", crate, seconds[crate, "proof"] / 60, seconds[crate, "tests"] / 60, seconds[crate, "edits"] / 60, \
                    (seconds[crate, "proof"] + seconds[crate, "tests"] + seconds[crate, "edits"]) / 60 | "sort -k5 -rn"
            close("sort -k5 -rn")
            printf "%-18s %7.1f %7.1f %7.1f %7.1f\n", "all", all["proof"] / 60, all["tests"] / 60, all["edits"] / 60, (all["proof"] + all["tests"] + all["edits"]) / 60
        }
    ' | { printf '%-18s %7s %7s %7s %7s\n' crate proof tests edits all; cat; }
    ;;
*)
    echo "usage: bench/gate.sh watch PID | bench/gate.sh table" >&2
    exit 1
    ;;
esac
