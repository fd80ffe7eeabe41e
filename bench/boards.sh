#!/bin/sh
# Says of how many boards `clkbench` reads the device tree: as `dtc` writes it, as `tools/board` does,
# and as `tools/board --keep-going` does. FOLDER has the boards' blobs, FILE.dtb each:
#
#     bench/boards.sh FOLDER
#
# It needs Python 3 and dtc. Boards that keep fixed clocks alone, and those that keep none, are counted apart. Each board that is
# refused with --keep-going has a line.
set -u

root=$(dirname -- "$(dirname -- "$(readlink -f -- "$0")")")
folder=${1:?usage: bench/boards.sh FOLDER}
room=$(mktemp -d) || exit 1
trap 'rm -rf "$room"' EXIT

# Whether clkbench reads a bundle.
loads() {
    "$root/clkbench" check <"$1" >"$room/text" 2>/dev/null
}

boards=0 as_it_is=0 whole=0 going=0 fixed=0 none=0
for blob in "$folder"/*.dtb; do
    [ -f "$blob" ] || continue
    boards=$((boards + 1))
    { printf '%%bundle 1\n%%dts\n'; dtc -q -I dtb -O dts "$blob" 2>/dev/null; echo '%regs 1'; } >"$room/bundle"
    loads "$room/bundle" && as_it_is=$((as_it_is + 1))
    "$root/tools/board" -o "$room/bundle" "$blob" 2>/dev/null && loads "$room/bundle" && whole=$((whole + 1))
    "$root/tools/board" --keep-going -o "$room/bundle" "$blob" 2>"$room/said"
    if loads "$room/bundle"; then
        going=$((going + 1))
        case $(tail -n 1 "$room/said") in
        *": 0 clocks kept"*) none=$((none + 1)) ;;
        *) tail -n 1 "$room/said" | grep -qE ': ([0-9]+) clocks kept \(\1 fixed\)' && fixed=$((fixed + 1)) ;;
        esac
    else
        echo "$blob: $(head -n 1 "$room/text")"
    fi
done
echo "$boards boards: $as_it_is load as dtc writes them, $whole with tools/board, $going with --keep-going"
echo "of these last, $none keep no clock, and $fixed fixed clocks alone"
