#!/bin/sh
# How fast the machine is: instructions per second of `exec` on a loop of 100 million of them in one period
# of power, beside a plain interpreter in C that runs the same image over flat memory. Words name the
# programs that are measured, each in the place of ./intermit: one of before a change and one of after it,
# say. They take turns, and the least of five times counts. Times are the processor's, the process's start
# and its files included. Run it at the top of the repository.
set -e
[ $# -gt 0 ] || set -- ./intermit
count=$#
for program in "$@"; do
    case $program in /*) ;; *) program=$(pwd)/$program ;; esac
    set -- "$@" "$program"
done
shift "$count"
work=$(mktemp -d)
trap 'rm -rf "$work"' EXIT
cat > "$work/plain.c" <<'PLAIN'
/* The same subset of RV32IM, plainly: fetch, decode and do, with each access checked. */
#include <stdint.h>
#include <stdio.h>
#include <stdlib.h>
#include <string.h>

#define SIZE 0x500000u
static uint8_t memory[SIZE];
static uint32_t x[32], pc = 0x1000;

static int load(uint32_t at, uint32_t size, uint32_t *value)
{
    *value = 0;
    if (at % size != 0 || at > SIZE - size)
        return 0;
    memcpy(value, memory + at, size);
    return 1;
}

static int store(uint32_t at, uint32_t size, uint32_t value)
{
    if (at % size != 0 || at > SIZE - size)
        return 0;
    memcpy(memory + at, &value, size);
    return 1;
}

static uint32_t divided(uint32_t f, uint32_t a, uint32_t b)
{
    int least = a == 0x80000000u && b == 0xffffffffu;
    switch (f) {
    case 4: return b == 0 ? 0xffffffffu : least ? a : (uint32_t)((int32_t)a / (int32_t)b);
    case 5: return b == 0 ? 0xffffffffu : a / b;
    case 6: return b == 0 ? a : least ? 0 : (uint32_t)((int32_t)a % (int32_t)b);
    default: return b == 0 ? a : a % b;
    }
}

static uint32_t multiplied(uint32_t f, uint32_t a, uint32_t b)
{
    switch (f) {
    case 0: return a * b;
    case 1: return (uint32_t)(((int64_t)(int32_t)a * (int32_t)b) >> 32);
    case 2: return (uint32_t)(((int64_t)(int32_t)a * (int64_t)b) >> 32);
    default: return (uint32_t)(((uint64_t)a * b) >> 32);
    }
}

static uint32_t computed(uint32_t f, int other, uint32_t a, uint32_t b)
{
    switch (f) {
    case 0: return other ? a - b : a + b;
    case 1: return a << (b & 31);
    case 2: return (int32_t)a < (int32_t)b;
    case 3: return a < b;
    case 4: return a ^ b;
    case 5: return other ? (uint32_t)((int32_t)a >> (b & 31)) : a >> (b & 31);
    case 6: return a | b;
    default: return a & b;
    }
}

static int taken(uint32_t f, uint32_t a, uint32_t b)
{
    switch (f) {
    case 0: return a == b;
    case 1: return a != b;
    case 4: return (int32_t)a < (int32_t)b;
    case 5: return (int32_t)a >= (int32_t)b;
    case 6: return a < b;
    case 7: return a >= b;
    default: return -1;
    }
}

/* 1 where the next step may be made */
static int step(void)
{
    uint32_t w, v = 0, next = pc + 4, imm;
    if (!load(pc, 4, &w))
        return 0;
    uint32_t rd = w >> 7 & 31, f = w >> 12 & 7, a = x[w >> 15 & 31], b = x[w >> 20 & 31];
    uint32_t high = w >> 25;
    int branch;
    switch (w & 127) {
    case 0x37: v = w & 0xfffff000u; break;
    case 0x17: v = pc + (w & 0xfffff000u); break;
    case 0x6f:
        imm = (uint32_t)((int32_t)w >> 11 & ~0xfffff) | (w & 0xff000) | (w >> 9 & 0x800) | (w >> 20 & 0x7fe);
        v = next;
        next = pc + imm;
        break;
    case 0x67:
        if (f != 0)
            return 0;
        v = next;
        next = (a + (uint32_t)((int32_t)w >> 20)) & ~1u;
        break;
    case 0x63:
        branch = taken(f, a, b);
        if (branch < 0)
            return 0;
        imm = (uint32_t)((int32_t)w >> 19 & ~0xfff) | (w << 4 & 0x800) | (w >> 20 & 0x7e0) | (w >> 7 & 0x1e);
        if (branch)
            next = pc + imm;
        rd = 0;
        break;
    case 0x03:
        imm = a + (uint32_t)((int32_t)w >> 20);
        if ((f & 3) == 3 || f == 6 || !load(imm, 1u << (f & 3), &v))
            return 0;
        if (f == 0)
            v = (uint32_t)(int32_t)(int8_t)v;
        if (f == 1)
            v = (uint32_t)(int32_t)(int16_t)v;
        break;
    case 0x23:
        imm = a + ((uint32_t)((int32_t)w >> 20 & ~31) | rd);
        if (f > 2 || !store(imm, 1u << f, b))
            return 0;
        rd = 0;
        break;
    case 0x13:
        if ((f == 1 && high != 0) || (f == 5 && high != 0 && high != 32))
            return 0;
        v = computed(f, f == 5 && high == 32, a, (uint32_t)((int32_t)w >> 20));
        break;
    case 0x33:
        if (high == 1)
            v = f < 4 ? multiplied(f, a, b) : divided(f, a, b);
        else if (high == 0 || (high == 32 && (f == 0 || f == 5)))
            v = computed(f, high == 32, a, b);
        else
            return 0;
        break;
    case 0x0f: rd = 0; break;
    default: return 0;
    }
    if (rd != 0)
        x[rd] = v;
    pc = next;
    return 1;
}

int main(int count, char **words)
{
    uint32_t header[8], n = count > 1 ? (uint32_t)strtoul(words[1], 0, 10) : 0, i;
    FILE *file = fopen("loop.image", "rb");
    if (!file || fread(header, 4, 8, file) != 8 || header[2] > 261120
        || fread(memory + 0x1000, 4, header[2], file) != header[2])
        return 1;
    for (i = 0; i < n; i++)
        if (!step())
            break;
    printf("%u %u %u %u %u\n", (unsigned)i, memory[0x400000], memory[0x400001], memory[0x400002], memory[0x400003]);
    return 0;
}
PLAIN

word() { # NUMBER: its four bytes, the lowest first
    printf "$(printf '\\%03o\\%03o\\%03o\\%03o' $(($1 & 255)) $(($1 >> 8 & 255)) $(($1 >> 16 & 255)) $(($1 >> 24 & 255)))"
}
milliseconds() { # COMMAND..: the processor's time for it; what it prints goes to the file printed
    ("$@" > "$work/printed"; times) | awk 'END {
        split($1, user, "m"); split($2, kernel, "m")
        printf "%d\n", (user[1] * 60 + user[2] + kernel[1] * 60 + kernel[2]) * 1000
    }'
}

run_ours() { # PROGRAM; the run ends as its period does, with status 4
    "$1" exec loop.image --steps "$n" 2> told || [ $? -eq 4 ]
}

measure() { # NUMBER COMMAND..: puts its time into the file times
    number=$1
    shift
    echo "$number $(milliseconds "$@")" >> times
}

least() { # NUMBER: the least of its times
    awk -v number="$1" '$1 == number && (least == "" || $2 < least) { least = $2 } END { print least + 0 }' times
}

cd "$work"
{
    # magic, version, words, statics, stack, output's capacity, entry, objects
    for field in 0x56524d49 1 10 0 4096 1024 0x1000 0; do word "$field"; done
    word 0x00400493 # addi x9, x0, 4
    word 0x00902623 # sw x9, 12(x0)     OUT_LEN
    word 0x00400337 # lui x6, 0x400     the output area
    word 0x00000293 # addi x5, x0, 0
    word 0x00000413 # addi x8, x0, 0
    word 0x00128293 # addi x5, x5, 1    the loop
    word 0x00540433 # add x8, x8, x5
    word 0x00832023 # sw x8, 0(x6)
    word 0x00032403 # lw x8, 0(x6)
    word 0xfe0318e3 # bne x6, x0, -16   to the loop
} > loop.image
gcc -O2 -o plain plain.c
n=100000000
# The first run of ./intermit may build it.
for program in "$@"; do "$program" exec loop.image --steps 0 > /dev/null 2>&1 || [ $? -eq 4 ]; done
for round in 1 2 3 4 5; do
    measure 0 ./plain "$n"
    mv printed wanted
    place=0
    for program in "$@"; do
        place=$((place + 1))
        measure "$place" run_ours "$program"
        left=$(od -An -tu1 printed)
        if [ "$(echo $n $left)" != "$(cat wanted)" ] || ! grep -q "^instructions $n$" told; then
            echo "they differ: '$left' of $program and '$(cat wanted)'"
            exit 1
        fi
    done
done
plain=$(least 0)
echo "plain C: $n instructions in $plain ms, $((n / (plain + 1) * 1000)) per second"
place=0
for program in "$@"; do
    place=$((place + 1))
    ours=$(least "$place")
    echo "$program: $n instructions in $ours ms, $((n / (ours + 1) * 1000)) per second, $((ours * 100 / (plain + 1))) % of plain C's time"
done
