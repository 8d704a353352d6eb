#!/usr/bin/env bash
# Runs the commands of docs/TIMING.md and of the README, the lines that begin with four spaces and `$ `, in one shell for
# each page, and compares what each prints with the lines after it. `ibex` is the built program. The last line is
# `documents: N passed, M failed`.
set -eu
cd "$(dirname "$0")/.."
if ! program=$(tools/program.sh); then
    echo "documents: 0 passed, 1 failed"
    exit 1
fi
python3 - "$PWD" "$program" <<'PYTHON'
import pathlib
import subprocess
import sys
import tempfile

root, program = pathlib.Path(sys.argv[1]), sys.argv[2]
passed = failed = 0
for page, folder in (("docs/TIMING.md", "docs"), ("README.md", ".")):
    # A command, and the lines that are to follow it.
    steps = []
    for line in (root / page).read_text().splitlines():
        if line.startswith("    $ "):
            steps.append((line[6:], []))
        elif line.startswith("    ") and steps and steps[-1] is not None:
            steps[-1][1].append(line[4:])
        else:
            steps.append(None)
    with tempfile.TemporaryDirectory() as work:
        place = f"ibex() {{ '{program}' \"$@\"; }}\n"
        for command, wanted in filter(None, steps):
            # Files of /tmp in a page stand in a folder of this run's own.
            command = command.replace("/tmp/", f"{work}/")
            done = subprocess.run(
                ["bash", "-c", place + command], cwd=root / folder, capture_output=True, text=True
            )
            if done.stdout.splitlines() == wanted and done.stderr == "":
                passed += 1
            else:
                failed += 1
                print(f"documents: {page}: {command}: FAILED: {done.stdout}{done.stderr}")
print(f"documents: {passed} passed, {failed} failed")
sys.exit(failed > 0)
PYTHON
