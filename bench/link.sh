#!/bin/sh
# How long linking takes, and the longest gap of what it gives: for a quarter, a half and the whole of
# the most words that a code may have, in functions of 64 lines, each with cuts, a call, a branch and a
# dependence. The program is tried, not proved, and so runs with its accesses checked: what tells is how
# the times grow. Run it at the top of the repository.
set -e
top=$(pwd)
work=$(mktemp -d)
trap 'rm -rf "$work"' EXIT
mkdir "$work/crates"
for crate in im_num im_mem im_rv im_gap im_link; do
    mkdir "$work/crates/$crate"
    for part in src specs proofs; do
        if [ -d "crates/$crate/$part" ]; then cp -r "crates/$crate/$part" "$work/crates/$crate"; fi
    done
done
mkdir -p "$work/crates/link_bench/src"
grep -E '^im_(num|mem|rv|walk|gap|link):' "$top/crates.txt" > "$work/crates.txt"
echo 'link_bench: im_num im_rv im_gap im_link' >> "$work/crates.txt"
cat > "$work/crates/link_bench/src/main.rt" <<'MAIN'
// Links a routine and functions of 64 lines.
#![tactic(auto)]

use im_gap::longest_gap;
use im_link::link;
use im_num::Cause;
use im_rv::assembler::{addi, bne, jal, jalr, lw, sw};
use im_rv::{Instr, Line, Part, plain};
use std::alloc::Global;
use std::io;
use std::time::Instant;

const ROUTINE: u32 = 4;

fn labelled(label: u32, instr: Instr) -> Line {
    let mut line = plain(instr);
    line.label = Some(label);
    line
}

fn aimed(target: u32, instr: Instr) -> Line {
    let mut line = plain(instr);
    line.target = Some(target);
    line
}

fn numbered(access: u64, instr: Instr) -> Line {
    let mut line = plain(instr);
    line.access = Some(access);
    line
}

fn cut(cause: Cause) -> Line {
    let mut line = aimed(ROUTINE, jal(3, 0));
    line.cause = Some(cause);
    line
}

fn routine(alloc: Global) -> Option<Part> {
    let lines = [labelled(ROUTINE, sw(4, 0, 0)), plain(jalr(0, 0, 3))];
    Some(Part {
        name: String::from_str(alloc, "routine").ok()?,
        lines: Vec::from_slice(alloc, &lines).ok()?,
    })
}

// A function that calls the one before it, if there is one.
fn function(alloc: Global, number: u32, count: usize) -> Option<Part> {
    let read = u64::from(number) * 2;
    let mut lines = Vec::new(alloc);
    let mut first = cut(Cause::Entry);
    first.label = Some(64 + 2 * number);
    let store = numbered(read + 1, sw(5, 0, 2));
    let callee = if number == 0 { ROUTINE } else { 64 + 2 * (number - 1) };
    let begin = [
        first,
        aimed(callee, jal(1, 0)),
        cut(Cause::Return),
        numbered(read, lw(5, 0, 2)),
        aimed(65 + 2 * number, bne(5, 0, 0)),
        cut(Cause::Dep { read, write: read + 1 }),
        store,
        labelled(65 + 2 * number, addi(0, 0, 0)),
    ];
    lines.extend_from_slice(&begin).ok()?;
    for _ in 9..count {
        lines.push(plain(addi(6, 6, 1))).ok()?;
    }
    lines.push(plain(jalr(0, 0, 1))).ok()?;
    Some(Part {
        name: String::from_str(alloc, "function").ok()?,
        lines,
    })
}

// Parts of so many words, at least 66.
fn parts_of(alloc: Global, words: usize) -> Option<Vec<Part>> {
    let mut parts = Vec::new(alloc);
    parts.push(routine(alloc)?).ok()?;
    let mut left = words - 2;
    for number in 0..4096u32 {
        if left > 0 {
            let count = if left < 128 { left } else { 64 };
            parts.push(function(alloc, number, count)?).ok()?;
            left -= count;
        }
    }
    Some(parts)
}

fn main(rt: HostRuntime) -> io::Result<()> {
    for words in [65280usize, 130560, 261120] {
        let Some(parts) = parts_of(rt.alloc(), words) else {
            return println!(rt; "no memory");
        };
        let start = Instant::now(&rt)?;
        let Ok(code) = link(rt.alloc(), &parts) else {
            return println!(rt; "not linked");
        };
        let linked = start.elapsed(&rt)?;
        let start = Instant::now(&rt)?;
        let Ok(gap) = longest_gap(rt.alloc(), &code) else {
            return println!(rt; "no memory");
        };
        let measured = start.elapsed(&rt)?;
        println!(rt; "{} words, {} parts, {} cuts: linked in {} ms; K {} in {} ms", code.words.len(), parts.len(), code.cuts.len(), linked.as_millis(), gap.unwrap_or(0), measured.as_millis())?;
    }
    Ok(())
}
MAIN
cd "$work/crates/link_bench"
rt try --seconds 600 > "$work/said" 2>&1 || { cat "$work/said"; exit 1; }
grep 'words,' "$work/said"
