#!/usr/bin/env bash
# Prints code with `dis`, assembles the text with `asm`, and compares the files: every row of the decoder with fields at
# their ends and at random, all 49,152 halfwords that are instructions by their low bits, and a million random words.
# The last line is `round trip: N passed, M failed`.
set -eu
cd "$(dirname "$0")/.."
if ! program=$(tools/program.sh); then
    echo "round trip: 0 passed, 1 failed"
    exit 1
fi
python3 - "$program" crates/ibx_decoder/specs/Rows.antt <<'PYTHON'
import pathlib
import random
import re
import struct
import subprocess
import sys
import tempfile

program, rows = sys.argv[1], pathlib.Path(sys.argv[2]).read_text()
ENTRY = 0x00100080
random.seed(1)


# The file around code: one segment at the entry.
def wrapped(code):
    ident = b"\x7fELF\x01\x01\x01" + bytes(9)
    header = struct.pack("<HHIIIIIHHHHHH", 2, 243, 1, ENTRY, 52, 0, 0, 52, 32, 1, 0, 0, 0)
    segment = struct.pack("<8I", 1, 84, ENTRY, ENTRY, len(code), len(code), 7, 4)
    return ident + header + segment + code


# Whether the text that is printed of a file assembles to the file.
def comes_back(code):
    file = wrapped(code)
    with tempfile.NamedTemporaryFile() as elf, tempfile.NamedTemporaryFile() as text:
        elf.write(file)
        elf.flush()
        printed = subprocess.run([program, "dis", elf.name, "--ram-size", "16777216"], capture_output=True)
        text.write(printed.stdout)
        text.flush()
        done = subprocess.run([program, "asm", text.name], capture_output=True)
    return (printed.returncode, done.returncode, done.stdout) == (0, 0, file)


# A row has a mask and a match; the bits outside the mask are its fields.
pairs = [(int(mask, 16), int(match, 16)) for mask, match in re.findall(r"row 0x([0-9a-f]+) 0x([0-9a-f]+)", rows)]
by_rows = b""
for mask, match in pairs:
    for fields in [0, 0xFFFFFFFF, *(random.getrandbits(32) for _ in range(100))]:
        by_rows += struct.pack("<I", match | fields & ~mask & 0xFFFFFFFF)
halfwords = b"".join(struct.pack("<H", half) for half in range(1 << 16) if half % 4 != 3)
assert len(pairs) == 57 and len(halfwords) == 2 * 49152
passed = failed = 0
parts = [("rows", by_rows), ("halfwords", halfwords)]
for part in range(10):
    parts.append((f"words {part}", b"".join(struct.pack("<I", random.getrandbits(32) | 3) for _ in range(100_000))))
for name, code in parts:
    if comes_back(code):
        passed += 1
    else:
        failed += 1
        print(f"round trip: {name}: FAILED")
print(f"round trip: {passed} passed, {failed} failed")
sys.exit(failed > 0)
PYTHON
