#!/bin/sh
# How fast sources become images, how fast they are checked alone, and how fast they become block code: bytes of source per
# second, and the exponent of the time between each two sizes (1 where twice the source takes twice the time). Images are
# made of sources of up to 525000 bytes, as larger ones have more code than a device has room for; the memory is told beside
# them: the most bytes that are allocated at once, as valgrind's massif counts them, and the most that the process holds, its
# own pages among them. What `gcc -O0 -c` and `gcc -fsyntax-only` take is told too. Block code is made of sources of up to 4
# MiB: the time up to it is that of the check and, by its share of the instructions, which valgrind counts, that of lowering,
# where the larger ones are refused for their code once it is selected. What is checked alone has a name at its end that
# nothing declares, so it is refused once all before it is read and typed. Times are the processor's, of ten runs each. It is
# no part of the gate.
set -eu
top=$(CDPATH= cd -- "$(dirname -- "$0")/.." && pwd)
work=$(mktemp -d)
trap 'rm -rf "$work"' EXIT

# code of integers alone, with names of their own in each copy
code() {
    cat <<'CODE'
static unsigned state_@ = 1;
unsigned next_@(unsigned limit)
{
    state_@ = state_@ * 1103515245u + 12345u;
    return (state_@ >> 16) % limit;
}
int digits_@(int number)
{
    int count = 0;
    if (number < 0)
        number = -number;
    do {
        number /= 10;
        count++;
    } while (number != 0);
    return count;
}
void print_@(int number)
{
    if (number < 0) {
        putchar('-');
        number = -number;
    }
    if (number > 9)
        print_@(number / 10);
    putchar('0' + number % 10);
}
int name_@(int key)
{
    switch (key % 4) {
    case 0: return digits_@(key);
    case 1: break;
    default: return key > 2 && next_@(5u) != 3u ? key : -1;
    }
    for (int i = 0; i < key; i++)
        state_@ ^= (unsigned char)i;
    return 0;
}
CODE
}
source_of() { # BYTES FILE
    { code | awk -v size="$1" '{ text = text $0 "\n" } END {
        while (bytes < size) {
            copy = text
            gsub(/@/, copies++, copy)
            bytes += length(copy)
            printf "%s", copy
        }
    }'; echo 'int main(void) { return name_0(7); }'; } > "$2"
}
milliseconds() { # COMMAND..: the processor's time for ten runs of it
    (for run in 1 2 3 4 5 6 7 8 9 10; do "$@" > "$work/printed" 2>&1 || true; done; times) | awk 'END {
        split($1, user, "m"); split($2, kernel, "m")
        printf "%d\n", (user[1] * 60 + user[2] + kernel[1] * 60 + kernel[2]) * 1000
    }'
}
kilobytes() { # COMMAND..: the most memory that it holds at once
    /usr/bin/time -f %M "$@" 2>&1 > /dev/null | tail -n 1
}

allocated() { # COMMAND..: the most bytes that it has allocated at once
    valgrind --tool=massif --peak-inaccuracy=0.0 --massif-out-file="$work/heap" "$@" > /dev/null 2>&1 || true
    awk -F= '/^mem_heap_B=/ && $2 + 0 > most { most = $2 + 0 } END { print most }' "$work/heap"
}

lowering() { # SOURCE: of the instructions of its build those of lowering, in thousandths, as callgrind counts them
    valgrind --tool=callgrind --callgrind-out-file="$work/calls" "$program" build "$1" "$work/source.img" \
        > /dev/null 2>&1 || true
    callgrind_annotate --inclusive=yes --threshold=100 "$work/calls" | awk '
        { gsub(/,/, "", $1) }
        /PROGRAM TOTALS/ { total = $1 }
        /:im_lower::/ && $1 + 0 > most { most = $1 + 0 }
        END { printf "%d\n", 1000 * most / total }'
}

program=$("$top/tools/program")
exponent() { # TIME BEFORE
    if [ "$2" -gt 0 ]; then
        awk -v t="$1" -v u="$2" -v b="$bytes" -v c="$smaller" 'BEGIN { printf ", exponent %.2f", log(t / u) / log(b / c) }'
    fi
}
per_second() { # TIME
    echo "$(($1 / 10)) ms, $((bytes * 10000 / $1)) bytes per second"
}
expect() { # TEXT: stops where it isn't in what was printed
    grep -q "$1" "$work/printed" || { echo "not answered '$1' as it should be:" && head -n 1 "$work/printed" && exit 1; }
}

echo 'images:'
before=0
for size in 65536 131072 262144 524288; do
    source_of "$size" "$work/source.c"
    bytes=$(wc -c < "$work/source.c")
    time=$(milliseconds "$program" build "$work/source.c" "$work/source.img")
    expect '^code '
    code=$(sed -n 1p "$work/printed")
    theirs=$(milliseconds gcc -O0 -w -c "$work/source.c" -o "$work/source.o")
    heap=$(allocated "$program" build "$work/source.c" "$work/source.img")
    memory=$(kilobytes "$program" build "$work/source.c" "$work/source.img")
    echo "$bytes bytes, $code words: $(per_second "$time")$(exponent "$time" "$before"), $heap bytes allocated" \
        "($((heap / bytes)) times the source), $memory KiB held; gcc -O0 -c: $((theirs / 10)) ms," \
        "$(kilobytes gcc -O0 -w -c "$work/source.c" -o "$work/source.o") KiB"
    before=$time smaller=$bytes
done

echo 'block code:'
before=0 checked_before=0 built_before=0
for size in 65536 524288 4190000; do
    source_of "$size" "$work/source.c"
    bytes=$(wc -c < "$work/source.c")
    time=$(milliseconds "$program" build "$work/source.c" "$work/source.img")
    if [ "$size" -gt 524288 ]; then expect 'code .* over 1044480'; fi
    memory=$(kilobytes "$program" build "$work/source.c" "$work/source.img")
    echo "$bytes bytes to their code with all its cuts: $(per_second "$time")$(exponent "$time" "$built_before"), $memory KiB held"
    built_before=$time
    share=$(lowering "$work/source.c")
    echo 'int last(void) { return nowhere; }' >> "$work/source.c"
    checked=$(milliseconds "$program" build "$work/source.c" "$work/source.img")
    expect ': rule '
    theirs=$(milliseconds gcc -fsyntax-only -w "$work/source.c")
    echo "$bytes bytes checked alone: $(per_second "$checked")$(exponent "$checked" "$checked_before");" \
        "gcc -fsyntax-only: $((theirs / 10)) ms"
    lowered=$((checked + time * share / 1000))
    echo "    to its block code: $(per_second "$lowered")$(exponent "$lowered" "$before")"
    before=$lowered checked_before=$checked smaller=$bytes
done
