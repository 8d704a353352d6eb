#!/usr/bin/env bash
# Runs the built program on its sample with one allocation refused: the first, the second and so on up to the forty-fifth,
# which is past the last one, for `run`, `twin` and `inject`. A run must end with status 7 and nothing on standard output, or
# as it does where none is refused. Nothing is proved here. It isn't part of the gate, and needs gcc for the few lines
# that stand before the C library's calls.
# The last line is `memory: N passed, M failed`.
set -u
cd "$(dirname "$0")/../crates/ibx_cli"
program=$(../../tools/program.sh) || exit 1
work=$(mktemp -d)
trap 'rm -rf "$work"' EXIT
printf 'flip 4 main id_word 15\n' >"$work/told.plan"
cat >"$work/refuse.c" <<'SOURCE'
#define _GNU_SOURCE
#include <dlfcn.h>
#include <errno.h>
#include <stdlib.h>

static long calls = 0;

static int is_refused(void)
{
    const char *number = getenv("REFUSED_ALLOCATION");
    calls += 1;
    return number && calls == atol(number);
}

void *malloc(size_t size)
{
    void *(*next)(size_t) = dlsym(RTLD_NEXT, "malloc");
    return is_refused() ? (errno = ENOMEM, NULL) : next(size);
}

void *aligned_alloc(size_t alignment, size_t size)
{
    void *(*next)(size_t, size_t) = dlsym(RTLD_NEXT, "aligned_alloc");
    return is_refused() ? (errno = ENOMEM, NULL) : next(alignment, size);
}

int posix_memalign(void **place, size_t alignment, size_t size)
{
    int (*next)(void **, size_t, size_t) = dlsym(RTLD_NEXT, "posix_memalign");
    return is_refused() ? ENOMEM : next(place, alignment, size);
}

void *realloc(void *old, size_t size)
{
    void *(*next)(void *, size_t) = dlsym(RTLD_NEXT, "realloc");
    return is_refused() ? (errno = ENOMEM, NULL) : next(old, size);
}
SOURCE
gcc -shared -fPIC -o "$work/refuse.so" "$work/refuse.c" -ldl || exit 1
passed=0
failed=0

# Tries a command at each number: its status and its standard output where nothing is refused; then its words.
refuse() {
    local status=$1 out=$2 refused=0 number given
    shift 2
    printf '%s' "$out" >"$work/wanted"
    for number in $(seq 1 45); do
        given=0
        REFUSED_ALLOCATION=$number LD_PRELOAD=$work/refuse.so "$program" "$@" >"$work/given" 2>"$work/report" || given=$?
        if [ "$given" = 7 ] && [ ! -s "$work/given" ]; then
            passed=$((passed + 1))
            refused=$((refused + 1))
        elif [ "$given" = "$status" ] && cmp -s "$work/given" "$work/wanted"; then
            passed=$((passed + 1))
        else
            failed=$((failed + 1))
            echo "memory: $* with allocation $number refused: FAILED with status $given"
            cat "$work/given" "$work/report"
        fi
    done
    echo "memory: $1 has $refused allocations, each of which was refused"
}

refuse 0 "R 2 00100080 00020337 x06=00020000
R 3 00100084 00100393 x07=00000001
R 5 00100088 00732423 m00020008=00000001/4
E halt 6 3
" run data/store.elf
refuse 0 "same 3
" twin data/store.elf data/store.elf
refuse 8 "diff 4
alert 7 internal
" inject data/store.elf --plan "$work/told.plan" --cycles 5

echo "memory: $passed passed, $failed failed"
[ "$failed" = 0 ]
