#!/usr/bin/env bash
# Runs `inject` over the flips of vectors/, or of the folder that is the first argument, each with its delay, and `twin`
# over the pairs there with each of the four delays, and compares the status and the output with the answers there. The
# last line is `vectors: N passed, M failed`.
set -eu
cd "$(dirname "$0")/.."
folder=$(realpath -m "${1:-vectors}")
if ! program=$(tools/program.sh); then
    echo "vectors: 0 passed, 1 failed"
    exit 1
fi
python3 - "$program" "$folder" <<'PYTHON'
import pathlib
import subprocess
import sys
import tempfile

program, folder = sys.argv[1], pathlib.Path(sys.argv[2])
passed = failed = 0


# Counts a call: its name, its words, and the status and the output that it must have.
def count(name, words, status, wanted):
    global passed, failed
    done = subprocess.run([program, *words], capture_output=True, text=True)
    if (done.returncode, done.stdout, done.stderr) == (int(status), wanted, ""):
        passed += 1
    else:
        failed += 1
        print(f"vectors: {name}: FAILED with status {done.returncode}: {done.stdout}{done.stderr}")


def flips(case, options):
    plan = (case / "plan.txt").read_text().rstrip("\n")
    for row in (case / "flips.txt").read_text().splitlines():
        delay, flip, status, lines = (part.strip() for part in row.split("|"))
        with tempfile.NamedTemporaryFile("w", suffix=".txt") as file:
            file.write(plan + "\n" + flip + "\n")
            file.flush()
            words = ["inject", case / "a.elf", "--plan", file.name, *options, "--delay", delay]
            name = f"{case.name}: {flip}, delay {delay}"
            count(name, words, status, "".join(line + "\n" for line in lines.split(", ")))


def twins(case, options):
    for delay in "1234":
        words = ["twin", case / "a.elf", case / "b.elf", "--plan", case / "plan.txt", *options, "--delay", delay]
        name = f"{case.name}, delay {delay}"
        count(name, words, (case / "status.txt").read_text(), (case / "twin.txt").read_text())


for case in sorted(path for path in folder.iterdir() if path.is_dir()):
    options = (case / "options.txt").read_text().split()
    if (case / "b.elf").exists():
        twins(case, options)
    else:
        flips(case, options)
print(f"vectors: {passed} passed, {failed} failed")
sys.exit(failed > 0)
PYTHON
