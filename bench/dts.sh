#!/bin/sh
# Times the reading of device tree sources of 1, 4 and 16 MiB, and prints nanoseconds a byte: to cut
# a source into tokens, and to read the tree that they spell.
#
# A source is a list of nodes under the root, each with a label, five properties and a reference to
# the node before it. The program that reads it is written, proved and built in a folder of its own,
# which is removed at the end. Each line is the best of five runs.
set -eu

root=$(dirname -- "$(dirname -- "$(readlink -f -- "$0")")")
scratch=$(mktemp -d)
trap 'rm -rf "$scratch"' EXIT
mkdir -p "$scratch/crates/dts_bench/src"
cp -r "$root/crates/clk_io" "$root/crates/dts_tokens" "$root/crates/dts_tree" "$scratch/crates/"
printf '%s\n' 'clk_io:' 'dts_tokens: clk_io' 'dts_tree: dts_tokens clk_io indexmap' \
    'dts_bench: dts_tree dts_tokens clk_io' >"$scratch/crates.txt"
cat >"$scratch/crates/dts_bench/src/main.rt" <<'PROGRAM'
//! Reads the source on standard input, and prints its bytes, tokens and nodes, the nanoseconds that
//! its tokens took, and those that its tree took.
#![tactic(auto)]

use clk_io::MOST_BYTES;
use dts_tokens::tokens;
use dts_tree::parse;
use std::io;
use std::time::Instant;

fn measure(rt: &HostRuntime, source: &str) -> io::Result<()> {
    if source.len() > MOST_BYTES {
        return println!(rt; "too long");
    }
    let start = Instant::now(rt)?;
    let Ok(found) = tokens(rt.alloc(), source) else {
        return println!(rt; "no tokens");
    };
    let cut = start.elapsed(rt)?.as_nanos();
    let start = Instant::now(rt)?;
    let Ok(tree) = parse(rt.alloc(), source, &found) else {
        return println!(rt; "no tree");
    };
    let read = start.elapsed(rt)?.as_nanos();
    let (bytes, words, nodes) = (source.len(), found.len(), tree.nodes.len());
    println!(rt; "{bytes} {words} {nodes} {cut} {read}")
}

fn main(rt: HostRuntime) -> io::Result<()> {
    let source = io::read_to_string(rt.alloc(), rt.stdin())?;
    measure(&rt, source.as_str())
}
PROGRAM

# Prints a source of at most so many bytes.
make_source() {
    awk -v most="$1" 'BEGIN {
        printf "/dts-v1/;\n\n/ {\n\tn0: osc {\n\t};\n"
        written = 40
        for (i = 1; ; i++) {
            node = sprintf("\tn%d: clk@%x {\n\t\tcompatible = \"bank,gate-clock\";\n\t\treg = <0x%x>;\n\t\tclocks = <&n%d>;\n\t\tlocal-mac-address = [00 11 22];\n\t\tmark;\n\t};\n", i, i, i, i - 1)
            written += length(node)
            if (written > most - 8)
                break
            printf "%s", node
        }
        printf "};\n"
    }'
}

cd "$scratch/crates/dts_bench"
make_source 4096 >stdin
if ! rt run <stdin >"$scratch/log" 2>&1; then
    cat "$scratch/log" >&2
    exit 1
fi

printf '%10s %9s %8s %14s %14s\n' bytes tokens nodes token-ns/byte tree-ns/byte
for mebibytes in 1 4 16; do
    make_source $((mebibytes * 1048576)) >"$scratch/source"
    for run in 1 2 3 4 5; do
        ./out/dts_bench <"$scratch/source"
    done | awk '
        NF != 5 { print "dts.sh: the program says: " $0; failed = 1; exit 1 }
        NR == 1 || $4 < cut { cut = $4 }
        NR == 1 || $5 < read { read = $5 }
        { bytes = $1; words = $2; nodes = $3 }
        END { if (!failed) printf "%10d %9d %8d %14.1f %14.1f\n", bytes, words, nodes, cut / bytes, read / bytes }'
done
