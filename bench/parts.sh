#!/bin/sh
# Times the calls of the parts of the core: runs each script of bench/parts, or those that are named, as in
# `bench/parts.sh counts`.
set -eu
parts=$(dirname -- "$(readlink -f -- "$0")")/parts
if [ $# -eq 0 ]; then
    for script in "$parts"/*.sh; do
        set -- "$@" "$(basename -- "$script" .sh)"
    done
fi
for name in "$@"; do
    echo "== $name"
    sh "$parts/$name.sh"
done
