#!/bin/sh
# How fast sources are evaluated by what they mean: a CRC over 1 MiB of input and a loop within a loop, as `intermit eval`, with
# its fuel and the nodes of the typed program that it goes through per second, beside python3 running the same program,
# statement by statement. Times are the processor's, the least of three runs each. It is no part of the gate.
set -eu
top=$(CDPATH= cd -- "$(dirname -- "$0")/.." && pwd)
work=$(mktemp -d)
trap 'rm -rf "$work"' EXIT

cat > "$work/crc.c" <<'C'
int main(void)
{
    unsigned crc = 0xffffffffu;
    int byte = getchar();
    while (byte >= 0) {
        crc = crc ^ (unsigned)byte;
        for (int bit = 0; bit < 8; bit++)
            crc = (crc & 1u) != 0u ? (crc >> 1) ^ 0xedb88320u : crc >> 1;
        byte = getchar();
    }
    crc = ~crc;
    for (int shift = 28; shift >= 0; shift -= 4) {
        unsigned digit = (crc >> shift) & 15u;
        putchar(digit < 10u ? '0' + (int)digit : 'a' + (int)digit - 10);
    }
    return 0;
}
C
cat > "$work/crc.py" <<'PYTHON'
import sys
def main():
    crc = 0xffffffff
    data = sys.stdin.buffer.read()
    place = 0
    byte = data[place] if place < len(data) else -1
    while byte >= 0:
        crc = crc ^ byte
        bit = 0
        while bit < 8:
            crc = (crc >> 1) ^ 0xedb88320 if crc & 1 != 0 else crc >> 1
            bit += 1
        place += 1
        byte = data[place] if place < len(data) else -1
    print("%08x" % (crc ^ 0xffffffff), end="")
main()
PYTHON
cat > "$work/nested.c" <<'C'
int main(void)
{
    unsigned sum = 0u;
    for (unsigned i = 0u; i < 3000u; i++)
        for (unsigned j = 0u; j < 1000u; j++)
            sum = sum * 31u + (i ^ j);
    for (int shift = 28; shift >= 0; shift -= 4) {
        unsigned digit = (sum >> shift) & 15u;
        putchar(digit < 10u ? '0' + (int)digit : 'a' + (int)digit - 10);
    }
    return 0;
}
C
cat > "$work/nested.py" <<'PYTHON'
def main():
    total = 0
    i = 0
    while i < 3000:
        j = 0
        while j < 1000:
            total = (total * 31 + (i ^ j)) & 0xffffffff
            j += 1
        i += 1
    print("%08x" % total, end="")
main()
PYTHON
head -c 1048576 /dev/zero | tr '\0' 'x' > "$work/crc.in"
: > "$work/nested.in"

milliseconds() { # COMMAND..: the least processor time of three runs
    for run in 1 2 3; do
        (
            "$@" > "$work/printed" 2> "$work/told" < "$work/input"
            times
        ) | awk 'END { split($1, u, "m"); split($2, k, "m"); printf "%d\n", (u[1] * 60 + u[2] + k[1] * 60 + k[2]) * 1000 }'
    done | sort -n | head -n 1
}

program=$("$top/tools/program")
# a program, the units of fuel that it takes, and about how many nodes it goes through: 15 in a turn of the inner loop and 18 more
# for a byte, and 13 in a turn
for row in "crc 10485777 144700000" "nested 3003016 39050000"; do
    set -- $row
    cp "$work/$1.in" "$work/input"
    ours=$(milliseconds "$program" eval "$work/$1.c" --input "$work/$1.in" --fuel "$2")
    printed=$(cat "$work/printed")
    theirs=$(milliseconds python3 "$work/$1.py")
    test "$printed" = "$(cat "$work/printed")" || { echo "$1: $printed, python3: $(cat "$work/printed")"; exit 1; }
    echo "$1: $printed: $ours ms, $(($2 / (ours + 1))) thousand of fuel and $(($3 / (ours + 1))) thousand nodes per second;" \
        "python3: $theirs ms"
done
