#!/usr/bin/env bash
# Runs compiled firmware to its halt and compares its console text with another emulator's, and its end line, which has
# the cycles and the events, with another model's: each NAME.elf beside a NAME.console and a NAME.end in firmware/, or in
# the folder that is the first argument. The last line is `firmware: N passed, M failed`.
set -eu
cd "$(dirname "$0")/.."
folder=$(realpath -m "${1:-firmware}")
if ! program=$(tools/program.sh); then
    echo "firmware: 0 passed, 1 failed"
    exit 1
fi

passed=0
failed=0
for elf in "$folder"/*.elf; do
    name=$(basename "$elf" .elf)
    trace=$(mktemp)
    status=0
    "$program" run "$elf" >"$trace" 2>/dev/null || status=$?
    if [ "$status" = 0 ] && python3 firmware/console.py <"$trace" | cmp -s - "$folder/$name.console" &&
        tail -n 1 "$trace" | cmp -s - "$folder/$name.end"; then
        echo "firmware: $name: $(tail -n 1 "$trace")"
        passed=$((passed + 1))
    else
        echo "firmware: $name: FAILED with status $status: $(tail -n 1 "$trace")"
        failed=$((failed + 1))
    fi
    rm -f "$trace"
done
echo "firmware: $passed passed, $failed failed"
[ "$failed" = 0 ]
