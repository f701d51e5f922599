#!/usr/bin/env python3
"""answers.py [--places]: the answers of want of memory that are made by hand, by crate.

Each is a call of `beyond_memory` of im_num. What still names the variant for want of memory as a value, outside that function, is
printed behind the counts, and there is to be none. A refused growth that is handed on does name it: in a conversion of faults (an
`impl From`), in an arm whose pattern is another fault's want of memory, behind what puts back what was added (a `pop`), and in the
functions under HANDED_ON. Crates of trials are left out. --places prints each place too, and behind these the places of the last
two kinds."""

import argparse
import collections
import os
import re

TOP = os.path.join(os.path.dirname(os.path.abspath(__file__)), "..", "crates")
VARIANT = re.compile(r"\b(\w+)::(OutOfMemory|NoMemory|Memory)\b")
CALL = re.compile(r"\bbeyond_memory\b")
FUNCTION = re.compile(r"^\s*(?:pub(?:\([^)]*\))? )?(?:const )?fn (\w+)")
TRIALS = re.compile(r"_trials$|^im_trial(_|$)|^im_(vectors|examples)$")

# Each call that fails there can fail for want of memory alone, and the fault's type has no conversion from that of the call.
HANDED_ON = {
    ("im_check/src/limits.rt", "crowded"),
    ("im_check_externals/src/fault.rt", "large"),
    ("im_cmd/src/building.rt", "store_image"),
    ("im_cmd_words/src/words.rt", "refusal"),
    ("im_driver/src/checking.rt", "deep"),
    ("im_driver/src/checking.rt", "shallow"),
    ("im_driver/src/checking.rt", "typed_program"),
    ("im_driver/src/named.rt", "large_frame"),
    ("im_front/src/reading.rt", "read_source"),
    ("im_parse/src/text.rt", "parsed"),
}
# The one function that makes an answer.
MAKER = ("im_num/src/fault.rt", "beyond_memory")


class Source:
    """One file, its lines without comments, and what each line stands in."""

    def __init__(self, path):
        with open(path, encoding="utf-8") as file:
            self.lines = [re.sub(r"//.*", "", line.rstrip("\n")) for line in file]
        self.function, self.conversion = [], []
        name, is_inside, depth = "", False, 0
        for line in self.lines:
            if re.match(r"impl\b.*\bFrom<", line):
                is_inside, depth = True, 0
            found = FUNCTION.match(line)
            if found:
                name = found[1]
            self.function.append(name)
            self.conversion.append(is_inside)
            depth += line.count("{") - line.count("}")
            if is_inside and depth == 0 and "}" in line:
                is_inside = False

    def puts_back(self, i):
        return ".pop()" in self.lines[i - 1]

    def calls(self):
        """The number of each line that calls the one function, and the function that it stands in."""
        for i, line in enumerate(self.lines):
            if not re.match(r"\s*(pub |ghost )?use ", line) and not FUNCTION.match(line):
                for _ in CALL.findall(line):
                    yield i, self.function[i]

    def answers(self):
        """The number of each line that names the variant, its function, and whether it stands behind what puts something back."""
        for i, line in enumerate(self.lines):
            if re.match(r"\s*(pub |ghost )?use ", line) or self.conversion[i]:
                continue
            pattern, arrow, value = line.rpartition("=>")
            if arrow and (VARIANT.search(pattern) or not VARIANT.search(value)):
                continue
            found = VARIANT.search(value)
            if found and found[1] != "ErrorKind" and "==" not in line:
                yield i, self.function[i], self.puts_back(i)


def answers_of(crate):
    """The file, line and function of each answer of a crate: those made by the one function, those that name the variant, and those
    handed on."""
    made, named, handed_on = [], [], []
    for folder, _, names in sorted(os.walk(os.path.join(TOP, crate, "src"))):
        for name in sorted(names):
            if not name.endswith(".rt"):
                continue
            file = os.path.relpath(os.path.join(folder, name), TOP)
            source = Source(os.path.join(folder, name))
            made += [(file, i + 1, function) for i, function in source.calls()]
            for i, function, puts_back in source.answers():
                if (file, function) == MAKER:
                    continue
                is_handed_on = puts_back or (file, function) in HANDED_ON
                (handed_on if is_handed_on else named).append((file, i + 1, function))
    return made, named, handed_on


def main():
    words = argparse.ArgumentParser(description=__doc__, formatter_class=argparse.RawDescriptionHelpFormatter)
    words.add_argument("--places", action="store_true")
    words = words.parse_args()
    counts, made, named, others = collections.Counter(), [], [], []
    for crate in sorted(os.listdir(TOP)):
        if not TRIALS.search(crate):
            calls, values, handed_on = answers_of(crate)
            counts[crate] += len(calls)
            made += calls
            named += values
            others += handed_on
    if words.places:
        for file, line, function in made:
            print(f"{file}:{line} {function}")
        for file, line, function in others:
            print(f"handed on: {file}:{line} {function}")
    for crate, count in sorted(counts.items(), key=lambda item: (-item[1], item[0])):
        if count:
            print(f"{count:4} {crate}")
    print(f"{len(made):4} by hand, {len(others)} handed on")
    for file, line, function in named:
        print(f"names the variant: {file}:{line} {function}")


if __name__ == "__main__":
    main()
