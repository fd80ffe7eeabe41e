#!/bin/sh
# Lets each allocation of a run fail in turn, and sees that the program keeps its word: the status is
# that of the whole run, or 3, and what was written is a front of what the whole run writes.
#
# The program is the one that `./prove` builds. A small library, compiled here by `cc`, stands before
# the C library's allocation calls and lets the one of a given number fail; `LD_PRELOAD` puts it there.
# The runs are of the examples on one thread, with and without the journal, and of a bundle that is
# refused. Each line tells how many allocations a whole run makes, how many runs with one that fails
# ended in status 3, and how many as the whole run does. Of runs with a thread a driver and of `bench`,
# whose journals come in any order, the status alone is looked at.
#
# Then the allocation of each number fails with all that come after it, so that trying again is of no
# use. Such a run must end as well, in status 3 or as the whole run does, within so many seconds; the last
# column says how many ended in status 3.
set -eu

root=$(dirname -- "$(dirname -- "$(readlink -f -- "$0")")")
program=$root/crates/clkbench/out/clkbench
scratch=$(mktemp -d)
seconds=20
trap 'rm -rf "$scratch"' EXIT

# The proved program is measured, so it is proved and built first.
"$root/prove" >&2 || exit 1

cat >"$scratch/fail.c" <<'LIBRARY'
#define _GNU_SOURCE
#include <dlfcn.h>
#include <errno.h>
#include <stddef.h>
#include <stdio.h>
#include <stdlib.h>
#include <string.h>
#include <sys/syscall.h>
#include <unistd.h>

static unsigned long made, failing;
static int for_good;
static void *(*next_malloc)(size_t);
static void *(*next_calloc)(size_t, size_t);
static void *(*next_realloc)(void *, size_t);
static void *(*next_aligned)(size_t, size_t);
static int (*next_posix)(void **, size_t, size_t);

static void set_up(void) {
    if (next_malloc)
        return;
    next_malloc = dlsym(RTLD_NEXT, "malloc");
    next_calloc = dlsym(RTLD_NEXT, "calloc");
    next_realloc = dlsym(RTLD_NEXT, "realloc");
    next_aligned = dlsym(RTLD_NEXT, "aligned_alloc");
    next_posix = dlsym(RTLD_NEXT, "posix_memalign");
    const char *number = getenv("FAIL_AT");
    failing = number ? strtoul(number, NULL, 10) : 0;
    for_good = getenv("FAIL_FOR_GOOD") != NULL;
}

static int fails(void) {
    set_up();
    made++;
    return made == failing || (for_good && failing && made > failing);
}

void *malloc(size_t size) {
    if (fails()) {
        errno = ENOMEM;
        return NULL;
    }
    return next_malloc(size);
}

void *calloc(size_t count, size_t size) {
    if (fails()) {
        errno = ENOMEM;
        return NULL;
    }
    return next_calloc(count, size);
}

void *realloc(void *old, size_t size) {
    if (fails()) {
        errno = ENOMEM;
        return NULL;
    }
    return next_realloc(old, size);
}

void *aligned_alloc(size_t align, size_t size) {
    if (fails()) {
        errno = ENOMEM;
        return NULL;
    }
    return next_aligned(align, size);
}

int posix_memalign(void **place, size_t align, size_t size) {
    if (fails())
        return ENOMEM;
    set_up();
    return next_posix(place, align, size);
}

static void tell(void) {
    const char *path = getenv("FAIL_COUNT");
    char text[32];
    if (!path)
        return;
    int length = snprintf(text, sizeof text, "%lu\n", made);
    FILE *file = fopen(path, "w");
    if (!file)
        return;
    fwrite(text, 1, (size_t)length, file);
    fclose(file);
}

/* The program ends by this call, behind which no destructor runs. */
void _exit(int status) {
    tell();
    for (;;)
        syscall(SYS_exit_group, status);
}
LIBRARY
cc -O1 -shared -fPIC -o "$scratch/fail.so" "$scratch/fail.c" -ldl

# Runs the program with words on a bundle, with the allocation of a number failing. Leaves what it
# writes in `written`, how many allocations it makes in `count`, and its status in `status`.
run_failing() {
    status=0
    LD_PRELOAD=$scratch/fail.so FAIL_AT=$3 FAIL_COUNT=$scratch/count \
        "$program" $1 <"$2" >"$scratch/written" || status=$?
}

# The same with all later allocations failing too. The status is 124 where it doesn't end in time.
run_without() {
    status=0
    timeout "$seconds" env LD_PRELOAD="$scratch/fail.so" FAIL_AT="$3" FAIL_FOR_GOOD=1 \
        "$program" $1 <"$2" >"$scratch/written" || status=$?
}

# Whether what was written is a front of the whole text.
is_front() {
    head -c "$(wc -c <"$scratch/written")" "$scratch/whole" | cmp -s - "$scratch/written"
}

# Whether the text is the one that a run that stops short may write, and one that a run that doesn't
# stop may: a front of the whole text, and the whole; any where the order of the journal is free.
is_short() {
    [ "$status" -eq 3 ] && { [ "$order" = free ] || is_front; }
}
is_whole() {
    [ "$status" -eq "$wanted" ] && { [ "$order" = free ] || cmp -s "$scratch/written" "$scratch/whole"; }
}

# Runs a bundle with each allocation failing in turn, and prints its line. The text is compared where
# its order is `fixed`, and not where it is `free`.
measure() {
    order=$4
    run_failing "$2" "$3" 0
    wanted=$status
    cp "$scratch/written" "$scratch/whole"
    most=$(cat "$scratch/count")
    short=0
    same=0
    without=0
    at=1
    while [ "$at" -le "$most" ]; do
        run_failing "$2" "$3" "$at"
        if is_short; then
            short=$((short + 1))
        elif is_whole; then
            same=$((same + 1))
        else
            echo "memory.sh: $1: with allocation $at failing the status is $status" >&2
            exit 1
        fi
        run_without "$2" "$3" "$at"
        if is_short; then
            without=$((without + 1))
        elif ! is_whole; then
            echo "memory.sh: $1: without memory from allocation $at on the status is $status" >&2
            exit 1
        fi
        at=$((at + 1))
    done
    printf '%-24s %6d %8d %8d %8d %8d\n' "$1" "$wanted" "$most" "$short" "$same" "$without"
}

printf '%-24s %6s %8s %8s %8s %8s\n' run status made short same without
for example in uart kinds holders exclusive board; do
    measure "$example-sim" sim "$root/examples/$example.bundle" fixed
done
measure board-check check "$root/examples/board.bundle" fixed
for example in lock notices migration late sweep timeout; do
    measure "$example-journal" '--journal sim' "$root/examples/$example.bundle" fixed
done
printf '%%bundle 1\n%%clocks\nfixed f 5 twice twice\n%%regs 1\n' >"$scratch/refused"
measure refused-sim sim "$scratch/refused" fixed
for example in holders migration; do
    measure "$example-run" run "$root/examples/$example.bundle" free
done
measure bench-2 'bench 2' /dev/null free
