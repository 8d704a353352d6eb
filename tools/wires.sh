#!/usr/bin/env bash
# Prints the requests on the bus of each program of vectors/, or of the folder that is the first argument, that has a file
# bus.txt, and compares them with it. The last line is `wires: N passed, M failed`.
set -eu
cd "$(dirname "$0")/.."
folder=$(realpath -m "${1:-vectors}")
if ! program=$(tools/program.sh ibx_wires); then
    echo "wires: 0 passed, 1 failed"
    exit 1
fi
passed=0
failed=0
for wanted in "$folder"/*/bus.txt; do
    case=$(dirname "$wanted")
    read -ra options <"$case/options.txt" || true
    if "$program" run "$case/a.elf" --plan "$case/plan.txt" "${options[@]}" | cmp -s - "$wanted"; then
        passed=$((passed + 1))
    else
        failed=$((failed + 1))
        echo "wires: $(basename "$case"): FAILED"
    fi
done
echo "wires: $passed passed, $failed failed"
[ "$failed" = 0 ]
