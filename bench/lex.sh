#!/bin/sh
# How fast the lexer is: bytes per second on a source of 4 MiB and on one of twice that, beside the
# time that `gcc -fsyntax-only` takes for the same texts. Times are the processor's. Run it at the
# top of the repository.
set -e
top=$(pwd)
work=$(mktemp -d)
trap 'rm -rf "$work"' EXIT
mkdir "$work/crates"
for crate in im_num im_tok im_lex; do
    mkdir "$work/crates/$crate"
    for part in src specs proofs; do
        if [ -d "crates/$crate/$part" ]; then cp -r "crates/$crate/$part" "$work/crates/$crate"; fi
    done
done
mkdir -p "$work/crates/lex_bench/src"
grep -E '^im_(num|tok|lex):' "$top/crates.txt" > "$work/crates.txt"
echo 'lex_bench: im_lex' >> "$work/crates.txt"
cat > "$work/crates/lex_bench/src/main.rt" <<'MAIN'
// Counts the tokens of the file source.c.
#![tactic(auto)]

use im_lex::lex;
use std::fs;
use std::io;

fn main(rt: HostRuntime) -> io::Result<()> {
    let source = fs::read(&rt, "source.c")?;
    if source.len() >= 1 << 32 {
        return Ok(());
    }
    match lex(rt.alloc(), &source) {
        Ok(tokens) => println!(rt; "{} tokens", tokens.len()),
        Err(fault) => println!(rt; "{fault}"),
    }
}
MAIN

# real code, with names of their own in each copy
code() {
    cat <<'CODE'
/* the CRC of IEEE 802.3, bit by bit */
static unsigned crc_table_@[256];
static void crc_fill_@(void)
{
    unsigned n, k;
    for (n = 0; n < 256u; n++) {
        unsigned c = n;
        for (k = 0; k < 8u; k++)
            c = c & 1u ? 0xedb88320u ^ (c >> 1) : c >> 1;
        crc_table_@[n] = c;
    }
}
unsigned crc_of_@(const unsigned char *bytes, int length)
{
    unsigned c = 0xffffffffu;
    int i;
    if (crc_table_@[1] == 0)
        crc_fill_@(); // once
    for (i = 0; i < length; ++i)
        c = crc_table_@[(c ^ bytes[i]) & 0xffu] ^ (c >> 8);
    return c ^ 0xffffffffu;
}
struct point_@ { int x, y; struct point_@ *next; };
int sort_@(int *keys, int count)
{
    int i, moves = 0;
    for (i = 1; i < count; i++) {
        int key = keys[i], j = i - 1;
        while (j >= 0 && keys[j] > key) {
            keys[j + 1] = keys[j];
            j -= 1;
            moves += 1;
        }
        keys[j + 1] = key;
    }
    return moves;
}
const char *name_@(struct point_@ *p)
{
    switch (p->x % 4) {
    case 0: return "north\n";
    case 1: return "east \"of\" here\t";
    case '\x02': return p->next ? name_@(p->next) : "\141";
    default: return "";
    }
}
CODE
}
source_of() { # BYTES FILE
    code | awk -v size="$1" '{ text = text $0 "\n" } END {
        while (bytes < size) {
            copy = text
            gsub(/@/, copies++, copy)
            bytes += length(copy)
            printf "%s", copy
        }
    }' > "$2"
}
milliseconds() { # COMMAND..: the processor's time for it; what it prints goes to the file printed
    ("$@" > "$work/printed"; times) | awk 'END {
        split($1, user, "m"); split($2, kernel, "m")
        printf "%d\n", (user[1] * 60 + user[2] + kernel[1] * 60 + kernel[2]) * 1000
    }'
}

cd "$work/crates/lex_bench"
printf 'int x;\n' > source.c
rt run > "$work/build.log" 2>&1 || { tail -20 "$work/build.log"; exit 1; }
program="$work/crates/lex_bench/out/lex_bench"
cd "$work"
for size in 4194304 8388608; do
    source_of "$size" source.c
    bytes=$(wc -c < source.c)
    ours=$(milliseconds "$program")
    tokens=$(cat "$work/printed")
    theirs=$(milliseconds gcc -fsyntax-only source.c)
    echo "$bytes bytes, $tokens: $ours ms, $((bytes / (ours + 1))) bytes per ms; gcc -fsyntax-only: $theirs ms"
done
