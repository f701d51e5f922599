#!/usr/bin/env python3
"""wrong_adapters.py [NAME ..]: that tests/run fails on each of five wrong bodies that no contract refuses.

They are of the code that hands on what the host's calls are asked and give, `HostShelf` and `HostSink`, and of `main`. Each stands
in a copy of the checkout, whose program is built without its proofs, in some four minutes. The first tests that fail are told. It is
no part of the gate."""
import os
import shutil
import subprocess
import sys
import tempfile

TOP = os.path.join(os.path.dirname(os.path.abspath(__file__)), "..")
SINK, SHELF, MAIN = "crates/im_io/src/host_sink.rt", "crates/im_io/src/host_shelf.rt", "crates/intermit/src/main.rt"
END = "ExitCode::from(top(rt.alloc(), words.as_slice(), &mut shelf, &mut out, &mut err))"

# a name, the file, what stands there, what stands in its place
WRONG = [
    ("short-sent", SINK, "Ok(count) => count,", "Ok(_) => bytes.len(),"),
    ("short-stored", SHELF, "Ok(count) if count > 0 || bytes.is_empty() => Ok(count),", "Ok(count) if count > 0 || bytes.is_empty() => Ok(bytes.len()),"),
    ("dropped", SHELF, "Ok(count) => Ok(count),", "Ok(count) => Ok(count.min(60_000)),"),
    ("lost-status", MAIN, END, END.replace("ExitCode::from(", "let _ = ").replace("&mut err))", "&mut err);\n    ExitCode::from(0)")),
    ("closed-stream", MAIN, "    let _output = fs::open(&rt, NOTHING);\n", ""),
]


def copied(name, file, old, new, room):
    """A copy of the checkout with that body, and its program."""
    copy = os.path.join(room, name)
    shutil.copytree(TOP, copy, ignore=shutil.ignore_patterns(".git", "out", "target"))
    path = os.path.join(copy, file)
    with open(path, encoding="utf-8") as source:
        text = source.read()
    if text.count(old) != 1:
        sys.exit(f"wrong_adapters.py: {file} has {text.count(old)} times {old!r}")
    with open(path, "w", encoding="utf-8") as source:
        source.write(text.replace(old, new))
    program = os.path.join(copy, "program")
    subprocess.run([os.path.join(copy, "tools", "build-unproved"), program], check=True)
    return copy, program


def main():
    names = sys.argv[1:] or [name for name, *_ in WRONG]
    survivors = []
    for name, file, old, new in WRONG:
        if name not in names:
            continue
        with tempfile.TemporaryDirectory() as room:
            copy, program = copied(name, file, old, new, room)
            run = subprocess.run([os.path.join(copy, "tests", "run"), program], stdout=subprocess.PIPE, stderr=subprocess.STDOUT, text=True)
            failed = [line for line in run.stdout.split("\n") if line.startswith("FAILED")]
            print(f"{name}: {'; '.join(failed[:2]) or 'not seen'}", flush=True)
            if run.returncode == 0:
                survivors.append(name)
    sys.exit(f"wrong_adapters.py: not seen: {' '.join(survivors)}" if survivors else 0)


main()
