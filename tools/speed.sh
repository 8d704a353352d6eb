#!/usr/bin/env bash
# Times three commands in this program and in another one with the same commands, whose path is the first argument: `run` on
# compiled firmware, `inject` on it with a flip in its last cycle, and `gen 1`. Each has nine runs of each program in turn, the
# best of which counts. The cycles of both systems of an injection are counted once. Not part of the gate, since times depend
# on the machine.
set -eu
if [ $# != 1 ] || [ ! -x "$1" ]; then
    echo "usage: tools/speed.sh PROGRAM"
    exit 2
fi
other=$(realpath "$1")
cd "$(dirname "$0")/.."
ours=$(tools/program.sh)
firmware=$PWD/firmware/hash_os.elf
cycles=113568
plan=$(mktemp)
trap 'rm -f "$plan"' EXIT
echo "flip $((cycles - 1)) main mscratch 0" >"$plan"

# The milliseconds of the processor and the KiB of memory that a program with these words takes.
taken() {
    python3 - "$@" <<'PYTHON'
import resource, subprocess, sys

# What started this interpreter may have had children of its own.
before = resource.getrusage(resource.RUSAGE_CHILDREN)
subprocess.run(sys.argv[1:], stdout=subprocess.DEVNULL, check=False)
used = resource.getrusage(resource.RUSAGE_CHILDREN)
time = used.ru_utime + used.ru_stime - before.ru_utime - before.ru_stime
print(round(1000 * time), used.ru_maxrss)
PYTHON
}

# Times both programs with these words: the name of what is timed, and its cycles; then the words.
compare() {
    local name=$1 cycles=$2 best_ours=0 best_other=0 time memory other_memory
    shift 2
    for _ in 1 2 3 4 5 6 7 8 9; do
        read -r time memory <<<"$(taken "$ours" "$@")"
        [ "$best_ours" != 0 ] && [ "$time" -ge "$best_ours" ] || best_ours=$time
        read -r time other_memory <<<"$(taken "$other" "$@")"
        [ "$best_other" != 0 ] && [ "$time" -ge "$best_other" ] || best_other=$time
    done
    echo "ours:  $name, $best_ours ms for $cycles cycles, $((cycles / best_ours)) cycles a millisecond, $memory KiB"
    echo "other: $name, $best_other ms for $cycles cycles, $((cycles / best_other)) cycles a millisecond, $other_memory KiB"
    echo "ratio: $name, $((100 * best_other / best_ours)) % of the other's speed"
}

compare run "$cycles" run "$firmware"
compare inject "$cycles" inject "$firmware" --plan "$plan" --cycles "$cycles"
compare "gen 1" 232764 gen 1
