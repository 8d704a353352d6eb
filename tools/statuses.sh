#!/usr/bin/env bash
# Runs the program on real files and streams, once for each status that they give, and compares its status, its
# standard output and its standard error with what they must be. The last line is `statuses: N passed, M failed`.
set -u
cd "$(dirname "$0")/../crates/ibx_cli"
if ! ibex=$(../../tools/program.sh); then
    echo "statuses: 0 passed, 1 failed"
    exit 1
fi
work=$(mktemp -d)
trap 'rm -rf "$work"' EXIT
cp data/store.elf "$work"
cd "$work"
mkdir folder

# The sample's three instructions in other files: cut.elf is cut off within its file header, odd.elf begins at an odd
# address, far.elf lies outside RAM, long.elf is one byte longer than a file may be, linked.elf is a file as a linker
# leaves it, and many.elf has as many program headers as there can be.
python3 - <<'PYTHON'
import struct

CODE = bytes.fromhex("370302009303100023247300")
BASE = 0x00100080


# Elf32_Ehdr (System V gABI, "ELF Header"): e_ident with the class, the byte order, the version, the OS ABI and its
# version, and then the fields in their order.
def file_header(entry, phnum, shoff=0, shnum=0, shstrndx=0, flags=0, os_abi=0):
    ident = bytes([0x7F, ord("E"), ord("L"), ord("F"), 1, 1, 1, os_abi, 0]) + bytes(7)
    return ident + struct.pack(
        "<HHIIIIIHHHHHH", 2, 243, 1, entry, 52, shoff, flags, 52, 32, phnum, 40 if shnum else 0, shnum, shstrndx
    )


# Elf32_Phdr ("Program Header"): type, offset, virtual and physical address, bytes in the file and in memory, flags
# (4 for reading, 2 for writing, 1 for execution) and alignment.
def program_header(kind, offset, addr, file_bytes, memory_bytes, flags, align):
    return struct.pack("<8I", kind, offset, addr, addr, file_bytes, memory_bytes, flags, align)


# Elf32_Shdr ("Section Header"): name, type, flags, address, offset, size, link, info, alignment and entry size.
def section_header(name, kind, flags, addr, offset, size, align):
    return struct.pack("<10I", name, kind, flags, addr, offset, size, 0, 0, align, 0)


def write(name, content):
    with open(name, "wb") as file:
        file.write(content)


def one(entry, addr):
    return file_header(entry, 1) + program_header(1, 84, addr, len(CODE), len(CODE), 7, 4) + CODE


# Plans of a flip in the stage that is told, of one that isn't read, and of none.
write("told.plan", b"flip 4 main id_word 15\n")
write("unread.plan", b"flip 3 reg 31 0\n")
write("none.plan", b"iwait 1 0\n")



# A file of these words.
def made_of(words):
    code = struct.pack(f"<{len(words)}I", *words)
    return file_header(BASE, 1) + program_header(1, 84, BASE, len(code), len(code), 7, 4) + code


# A jump to itself.
write("loop.elf", made_of([0x0000006F]))


# A division by a secret, the last word, after a word that makes times equal (csrrsi x0, cpuctrl, 2) or an idle one.
def dividing(first, by):
    return made_of([first, 0x00100537, 0x0A052403, 0x028544B3, 0x00020337, 0x00100393, 0x00732423, 0, by])


write("even7.elf", dividing(0x7C016073, 7))
write("even0.elf", dividing(0x7C016073, 0))
write("uneven7.elf", dividing(0x00000013, 7))
write("uneven0.elf", dividing(0x00000013, 0))
write("cut.elf", one(BASE, BASE)[:51])
write("odd.elf", one(BASE + 1, BASE))
write("far.elf", one(BASE, 0x00200000))
with open("long.elf", "wb") as file:
    file.truncate(32 * 1024 * 1024 + 1)

# A PT_LOAD for the text with its stack reserved after it, a PT_NOTE (4) for the section .note.model, and a
# PT_GNU_STACK (0x6474e551); e_flags 5 is RVC with the single-float ABI, and the OS ABI 3 is that of Linux.
NOTE = struct.pack("<III", 4, 4, 1) + b"ibx\0" + struct.pack("<I", 7)
NAMES = b"\0.text\0.note.model\0.shstrtab\0"
text = 52 + 3 * 32
note = text + len(CODE)
names = note + len(NOTE)
sections = (names + len(NAMES) + 3) // 4 * 4
content = (
    file_header(BASE, 3, sections, 4, 3, 5, 3)
    + program_header(1, text, BASE, len(CODE), 4096, 5, 4)
    + program_header(4, note, 0, len(NOTE), len(NOTE), 4, 4)
    + program_header(0x6474E551, 0, 0, 0, 0, 6, 16)
    + CODE
    + NOTE
    + NAMES
)
content += bytes(sections - len(content))
content += section_header(0, 0, 0, 0, 0, 0, 0)
content += section_header(NAMES.index(b".text"), 1, 6, BASE, text, len(CODE), 4)
content += section_header(NAMES.index(b".note"), 7, 2, 0, note, len(NOTE), 4)
content += section_header(NAMES.index(b".shstrtab"), 3, 0, 0, names, len(NAMES), 1)
write("linked.elf", content)

# 65,534 headers: the text, then one of memory alone and one of four file bytes in turn.
COUNT = 65534
end = 52 + 32 * COUNT
headers = [program_header(1, end, BASE, len(CODE), len(CODE), 7, 4)]
for i in range(1, COUNT):
    headers.append(program_header(1, end, 0x00200000 + 4 * i, 4 * (i % 2), 4, 6, 4))
write("many.elf", file_header(BASE, COUNT) + b"".join(headers) + CODE)
PYTHON

first="R 2 00100080 00020337 x06=00020000
"
steps="${first}R 3 00100084 00100393 x07=00000001
R 5 00100088 00732423 m00020008=00000001/4
"
passed=0
failed=0

# Counts a row: its name, and the status, standard output and standard error that it must have; then the command.
row() {
    local name=$1 status=$2 out=$3 err=$4
    shift 4
    printf '%s' "$out" >wanted.out
    printf '%s' "$err" >wanted.err
    : >given.out
    local given=0
    "$@" >given.out 2>given.err || given=$?
    if [ "$given" = "$status" ] && cmp -s given.out wanted.out && cmp -s given.err wanted.err; then
        passed=$((passed + 1))
    else
        failed=$((failed + 1))
        echo "statuses: $name: FAILED with status $given in place of $status"
        diff wanted.out given.out
        diff wanted.err given.err
    fi
}

# Standard output is full, or closed.
to_full() { "$ibex" "$@" >/dev/full; }
to_closed() { "$ibex" "$@" >&-; }

row "a halt" 0 "${steps}E halt 6 3
" "" "$ibex" run store.elf
row "a spent budget" 1 "${first}E budget 3 1
" "" "$ibex" run store.elf --cycles 3
row "no words" 2 "" "ibex: bad words
" "$ibex"
row "an empty word" 2 "" "ibex: bad words
" "$ibex" ""
row "a budget of 0" 2 "" "ibex: bad words
" "$ibex" run store.elf --cycles 0
for delay in 1 2 3 4; do
    row "a halt with a delay of $delay" 0 "${steps}E halt 6 3
" "" "$ibex" run store.elf --delay "$delay"
done
row "a delay of 0" 2 "" "ibex: bad words
" "$ibex" run store.elf --delay 0
row "a delay of 5" 2 "" "ibex: bad words
" "$ibex" twin store.elf store.elf --delay 5
row "a delay of a program from a number" 2 "" "ibex: bad words
" "$ibex" gen 5 --delay 2
row "a missing file" 3 "" "ibex: cannot read missing.elf
" "$ibex" run missing.elf
row "a folder" 3 "" "ibex: cannot read folder
" "$ibex" run folder
row "a full output" 4 "" "ibex: cannot write
" to_full run store.elf
row "a closed output" 4 "" "ibex: cannot write
" to_closed run store.elf
row "a full output for more than is gathered" 4 "" "ibex: cannot write
" to_full run loop.elf --cycles 9000
row "a file cut off" 5 "" "ibex: cut.elf: elf fault 1
" "$ibex" run cut.elf
row "a file outside RAM" 5 "" "ibex: far.elf: elf fault 11 0
" "$ibex" run far.elf
row "an odd entry" 5 "" "ibex: odd.elf: elf fault 13
" "$ibex" run odd.elf
row "a long file" 5 "" "ibex: long.elf: too long
" "$ibex" run long.elf
row "a flip that is told" 8 "diff 4
alert 7 internal
" "" "$ibex" inject store.elf --plan told.plan --cycles 5
row "a flip that isn't read" 0 "diff none
alert none
" "" "$ibex" inject store.elf --plan unread.plan --cycles 10
row "a plan without a flip" 6 "" "ibex: none.plan: no flip
" "$ibex" inject store.elf --plan none.plan
row "a missing plan" 3 "" "ibex: cannot read missing.plan
" "$ibex" inject store.elf --plan missing.plan
row "a word that isn't UTF-8" 13 "" "" "$ibex" run $'store\xff.elf'
row "a linker's file" 0 "${steps}E halt 6 3
" "" "$ibex" run linked.elf
printf 'flip 4 main id_word 15\n' >noticed.plan
printf 'flip 3 reg 31 0\n' >unused.plan
printf 'flip 3 delay 2 lines 0\n' >slot.plan
printf 'iwait 1 0\n' >unflipped.plan
printf 'iwait 1 0\nflip 5 main id_word 32\n' >wide.plan
printf '# no more\nflip 1 reg 1 1\nflip 2 reg 1 1\n' >twice.plan
truncate -s $((4 * 1024 * 1024 + 1)) long.plan
row "a flip that is noticed" 8 "diff 4
alert 7 internal
" "" "$ibex" inject store.elf --plan noticed.plan --cycles 5
row "a flip that isn't used" 0 "diff none
alert none
" "" "$ibex" inject store.elf --plan unused.plan --cycles 10
row "a flip that is noticed after a delay of 1" 8 "diff 4
alert 6 internal
" "" "$ibex" inject store.elf --plan noticed.plan --cycles 5 --delay 1
row "a flip that is noticed after a delay of 4" 8 "diff 4
alert 9 internal
" "" "$ibex" inject store.elf --plan noticed.plan --cycles 5 --delay 4
row "a slot that a delay of 2 hasn't" 6 "" "ibex: slot.plan: plan line 1 range
" "$ibex" inject store.elf --plan slot.plan --cycles 10
row "a slot that a delay of 3 has" 0 "diff none
alert none
" "" "$ibex" inject store.elf --plan slot.plan --cycles 10 --delay 3
row "inject without a plan" 2 "" "ibex: bad words
" "$ibex" inject store.elf
row "a missing plan" 3 "" "ibex: cannot read missing.plan
" "$ibex" inject store.elf --plan missing.plan
row "a flip to a full output" 4 "" "ibex: cannot write
" to_full inject store.elf --plan noticed.plan
row "a refused file after its plan" 5 "" "ibex: cut.elf: elf fault 1
" "$ibex" inject cut.elf --plan noticed.plan
row "a plan without a flip" 6 "" "ibex: unflipped.plan: no flip
" "$ibex" inject store.elf --plan unflipped.plan
row "a plan's bit out of range" 6 "" "ibex: wide.plan: plan line 2 range
" "$ibex" inject cut.elf --plan wide.plan
row "a plan with two flips" 6 "" "ibex: twice.plan: plan line 3 flip
" "$ibex" inject store.elf --plan twice.plan
row "a long plan" 6 "" "ibex: long.plan: too long
" "$ibex" inject store.elf --plan long.plan
row "a division by a secret in even time" 0 "same 7
" "" "$ibex" twin even7.elf even0.elf
row "a division by a secret" 9 "differ 3
a R 0010008c 028544b3 op=00100000,00000007
b R 0010008c 028544b3 op=00100000,00000000
" "" "$ibex" twin uneven7.elf uneven0.elf
for delay in 1 2 3 4; do
    row "an even division with a delay of $delay" 0 "same 7
" "" "$ibex" twin even7.elf even0.elf --delay "$delay"
done
row "one file to compare" 2 "" "ibex: bad words
" "$ibex" twin even7.elf
row "a missing second file" 3 "" "ibex: cannot read missing.elf
" "$ibex" twin even7.elf missing.elf
row "a refused second file" 5 "" "ibex: cut.elf: elf fault 1
" "$ibex" twin even7.elf cut.elf
row "a comparison to a full output" 4 "" "ibex: cannot write
" to_full twin even7.elf even0.elf
row "a comparison with a flip" 6 "" "ibex: noticed.plan: plan line 1 flip
" "$ibex" twin even7.elf even0.elf --plan noticed.plan
row "the program of 0" 0 "gen 0 4105
sum 00130089
E halt 65624 65604
" "" "$ibex" gen 0
row "the program of 1" 0 "gen 1 4105
sum a403ec42
E halt 232764 59392
" "" "$ibex" gen 1
row "the program of the largest number" 0 "gen 4294967295 4105
sum 70014608
E halt 246792 59944
" "" "$ibex" gen 4294967295
row "a spent budget of a program" 1 "gen 5 4105
sum d575e011
E budget 100 13
" "" "$ibex" gen 5 --mul slow --cycles 100
row "a number that is too large" 2 "" "ibex: bad words
" "$ibex" gen 4294967296
row "a program with a plan" 2 "" "ibex: bad words
" "$ibex" gen 1 --plan noticed.plan
row "a program to a full output" 4 "" "ibex: cannot write
" to_full gen 5 --cycles 100
row "65,534 program headers" 0 "${steps}E halt 6 3
" "" timeout 10 "$ibex" run many.elf --ram-size 0x1000000

# The sample's text, and texts that are refused.
code="lui x6, 0x00020
addi x7, x0, 1
sw x7, 8(x6)
"
printf '%s' "$code" >store.s
printf '# no such mnemonic\nmov x1, x2\n' >word.s
printf 'addi x7, x0, 2048\n' >range.s
printf 'c.j nowhere\n' >label.s
truncate -s $((4 * 1024 * 1024 + 1)) long.s
assembles_to_sample() { "$ibex" asm store.s >made.elf && cmp made.elf store.elf; }
row "a text's file" 0 "" "" assembles_to_sample
row "a file's text" 0 "# 0x00100080
$code" "" "$ibex" dis store.elf
row "a text to a full output" 4 "" "ibex: cannot write
" to_full asm store.s
row "a file's text to a full output" 4 "" "ibex: cannot write
" to_full dis store.elf
row "a missing text" 3 "" "ibex: cannot read missing.s
" "$ibex" asm missing.s
row "a file outside the RAM of its words" 5 "" "ibex: store.elf: elf fault 11 0
" "$ibex" dis store.elf --ram-base 0x200000
row "a line that is no instruction" 12 "" "ibex: word.s: asm line 2 word
" "$ibex" asm word.s
row "an immediate out of range" 12 "" "ibex: range.s: asm line 1 range
" "$ibex" asm range.s
row "a label that is nowhere" 12 "" "ibex: label.s: asm line 1 label
" "$ibex" asm label.s
row "a long text" 12 "" "ibex: long.s: text too long
" "$ibex" asm long.s

echo "statuses: $passed passed, $failed failed"
[ "$failed" = 0 ]
