#!/bin/sh
# How long the longest gap of a large code takes: for a quarter, a half and the whole of the most
# words that a code may have, a third of them calls and a third returns. Times are the processor's.
# Run it at the top of the repository.
set -e
top=$(pwd)
work=$(mktemp -d)
trap 'rm -rf "$work"' EXIT
mkdir "$work/crates"
for crate in im_num im_mem im_rv im_gap; do
    mkdir "$work/crates/$crate"
    for part in src specs proofs; do
        if [ -d "crates/$crate/$part" ]; then cp -r "crates/$crate/$part" "$work/crates/$crate"; fi
    done
done
mkdir -p "$work/crates/gap_bench/src"
grep -E '^im_(num|mem|rv|walk|gap):' "$top/crates.txt" > "$work/crates.txt"
echo 'gap_bench: im_num im_rv im_gap' >> "$work/crates.txt"
cat > "$work/crates/gap_bench/src/main.rt" <<'MAIN'
// The longest gap of so many calls, each with a halt and a return behind it.
#![tactic(auto)]

use im_gap::longest_gap;
use im_rv::Code;
use std::fs;
use std::io;

fn main(rt: HostRuntime) -> io::Result<()> {
    let calls = fs::read(&rt, "calls")?;
    let mut words = Vec::new(rt.alloc());
    for _call in &calls {
        words.push(0x0080_00EF)?;
        words.push(0x0010_0073)?;
        words.push(0x0000_8067)?;
    }
    if words.len() > 261120 {
        return Ok(());
    }
    let code = Code {
        words,
        entry: 4096,
        cuts: Vec::new(rt.alloc()),
    };
    match longest_gap(rt.alloc(), &code) {
        Ok(Some(gap)) => println!(rt; "{gap}"),
        Ok(None) => println!(rt; "none"),
        Err(_) => println!(rt; "no memory"),
    }
}
MAIN
milliseconds() { # COMMAND..: the processor's time for it; what it prints goes to the file printed
    ("$@" > "$work/printed"; times) | awk 'END {
        split($1, user, "m"); split($2, kernel, "m")
        printf "%d\n", (user[1] * 60 + user[2] + kernel[1] * 60 + kernel[2]) * 1000
    }'
}

cd "$work/crates/gap_bench"
printf 'call' > calls
rt run > "$work/build.log" 2>&1 || { tail -20 "$work/build.log"; exit 1; }
program="$work/crates/gap_bench/out/gap_bench"
cd "$work"
for calls in 21760 43520 87040; do
    head -c "$calls" /dev/zero > calls
    taken=$(milliseconds "$program")
    echo "$((3 * calls)) words, K $(cat "$work/printed"): $taken ms"
done
