#!/usr/bin/env bash
# Prints the path of a built program: that of the crate ibx_cli, or of the one that is the first argument. It is the one
# that `rt ci` or `rt run` left in the crate's out/. Where there is none, or a source file is newer, `rt run` proves and
# builds it first, on its sample; where that fails, the last lines of it go to standard error and the status is 1.
set -eu
cd "$(dirname "$0")/.."
crate=${1:-ibx_cli}
program=$PWD/crates/$crate/out/$crate

# A folder counts as a file does, since one that is removed changes only the time of its folder.
is_current() {
    [ -x "$program" ] &&
        [ -z "$(find crates.txt crates/*/src crates/*/specs crates/*/proofs -newer "$program" -print -quit)" ]
}

if ! is_current; then
    if ! said=$(cd "crates/$crate" && rt run -- run data/store.elf 2>&1 >/dev/null); then
        tail -n 20 <<<"$said" >&2
        echo "program: $crate isn't built, or its sample doesn't end with status 0" >&2
        exit 1
    fi
    # What was proved just now is current, also where nothing of it had to be built again.
    touch "$program"
fi
echo "$program"
