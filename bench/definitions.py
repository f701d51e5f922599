"""definitions.py [CRATE.MODULE.NAME ..]: how many lines of definitions hang on a statement, for whoever wants to read all of it.

Counted are the lines of the definitions in specs/ that the statement names, of those that these name, and so on, each definition
once, a constructor as its whole type; blank lines, comments and imports aside. Types that the code declares and modules of the kit's
own library are told apart from that. Without words it tells them of the headline, of what is compiled and of the program's clause;
--crates adds the lines of each crate. --order prints all files of the clause in an order in which each stands behind those that it
names, those of the headline first, with the lines that count of each; --page puts that into docs/THEOREM.md."""

import os
import re
import sys

TOP = os.path.join(os.path.dirname(os.path.abspath(__file__)), "..")
NAME = r"[^\s(){}.;,=→×⊎λ:«»]+"
HEAD = re.compile(
    rf"(?:(?:pub|abbrev|unfoldable|mutual|record|data)\s+)*(?P<name>{NAME})\s*(?P<rest>.*)$"
)
STANDARD = ["im_keeps.Keeps.Keeps", "im_driver.Compiled.IsCompiled", "im_cmd.Answers.Answers"]
WORDS = {"pub", "abbrev", "unfoldable", "record", "data", "where", "module", "let", "in", "if", "then", "else", "mutual"}


class Module:
    """The definitions of one file, by name, and what it imports."""

    def __init__(self, path):
        self.path, self.names, self.modules, self.of = path, {}, {}, {}
        # definitions: a name, and its lines
        self.lines = {}
        with open(path, encoding="utf-8") as file:
            text = file.read()
        for used, braces, alias in re.findall(
            r"^(?:pub )?use ([\w.+«»-]+?)(?:\.\{([^}]*)\})?(?: as (\S+))?$", text, re.M
        ):
            if braces:
                for item in braces.split(", "):
                    name, _, other = item.partition(" as ")
                    self.names[other or name] = (used, name)
            else:
                self.modules[alias or used.split(".")[-1]] = used
        self.split(text)

    def split(self, text):
        current, is_data = None, False
        for line in text.split("\n"):
            bare = line.strip()
            if not bare or bare.startswith(("--", "use ", "pub use ", "pub mod ", "mod ")):
                continue
            depth = len(line) - len(line.lstrip(" "))
            if bare.startswith(("module _", "abbrev mutual", "mutual")) and bare.endswith(("where", "mutual")):
                current = None
                continue
            if bare.startswith("unfolding "):
                continue
            head = HEAD.match(bare)
            starts = bare.startswith(("pub ", "abbrev ", "unfoldable ")) or (head and head["rest"].startswith(": "))
            if starts and head and (current is None or depth <= self.of[current][1]):
                current = head["name"]
                kind = "data" if re.match(r"(pub )?data ", bare) else "record" if re.match(r"(pub )?record ", bare) else "word"
                self.of[current] = (kind, depth)
                self.lines.setdefault(current, [])
            elif current is not None and depth <= self.of[current][1]:
                # a clause of a definition by cases, of this name or of one of a mutual family
                name = head["name"] if head else current
                current = name if name in self.of else current
            if current is None:
                continue
            self.lines[current].append(bare)
            kind, at = self.of[current]
            if kind == "data" and depth > at and head and head["rest"].startswith(": "):
                self.names.setdefault(head["name"], (None, current))


class Definitions:
    def __init__(self):
        self.known, self.links = {}, {}

    def module(self, path):
        """The file of a module by its whole name, or None where it isn't of this repository's specs/."""
        parts = path.split(".")
        if len(parts) < 4 or parts[0] != "Rattle" or parts[2] != "specs" or parts[3] == "declared":
            return None
        crate, rest = parts[1], parts[3:]
        specs = f"{TOP}/crates/{crate}/specs"
        if not os.path.isdir(specs):
            return None
        if crate not in self.links:
            self.links[crate] = {}
            lib = f"{specs}/Lib.antt"
            if os.path.isfile(lib):
                with open(lib, encoding="utf-8") as file:
                    found = re.findall(r"^pub use ([\w.]+) as (\w+)$", file.read(), re.M)
                self.links[crate] = {alias: used for used, alias in found}
        if rest[0] in self.links[crate]:
            return self.module(".".join([self.links[crate][rest[0]], *rest[1:]]))
        file = f"{specs}/{'/'.join(rest)}.antt"
        if not os.path.isfile(file):
            return None
        if file not in self.known:
            self.known[file] = Module(file)
        return self.known[file]

    def found(self, path, name, outside):
        """Where a name that is imported from a module is defined."""
        module = self.module(path)
        if module is None:
            # a constructor that the code declares belongs to its type
            outside.add(re.sub(r"\.TheVariants$", "", path))
            return None
        if name in module.lines:
            return module, name
        if name in module.names:
            used, other = module.names[name]
            return (module, other) if used is None else self.found(used, other, outside)
        return None

    def named_in(self, module, name, outside):
        """The definitions that a definition names."""
        for line in module.lines[name]:
            for word in re.findall(r"[^\s(){};,=→×⊎λ:]+", line.split(" -- ")[0]):
                first, _, rest = word.partition(".")
                first = first.strip("«»")
                if first in WORDS:
                    continue
                if rest and first in module.modules:
                    hit = self.found(module.modules[first], rest.split(".")[0], outside)
                elif first in module.lines:
                    hit = (module, first)
                elif first in module.names:
                    used, other = module.names[first]
                    hit = (module, other) if used is None else self.found(used, other, outside)
                else:
                    hit = None
                if hit:
                    yield hit
            # operators, as ◌≤◌, are the kit's
        return

    def below(self, root):
        crate, module, name = root.rsplit(".", 2)
        start = self.module(f"Rattle.{crate}.specs.{module}")
        if start is None or name not in start.lines:
            sys.exit(f"definitions.py: no definition {root}")
        seen, left, outside = set(), [(start, name)], set()
        while left:
            module, name = left.pop()
            if (module.path, name) in seen:
                continue
            seen.add((module.path, name))
            left += list(self.named_in(module, name, outside))
        return seen, outside


# the parts of the clause, in the order in which one reads them
PARTS = [
    ("im_keeps.Keeps.Keeps", "`Keeps`, over any meaning"),
    ("im_keeps_passes.Laws.Survives", "`Survives`"),
    ("im_keeps_writes.Writes.Writes", "`Writes`"),
    ("im_driver.Compiled.IsProgramOf", "`IsProgramOf`: what a source says"),
    ("im_keeps_source.Laws.meaning_of", "`meaning_of`: what it does"),
    ("im_driver.Compiled.IsCompiled", "`IsCompiled`: what is told of an image"),
    ("im_driver.Compiled.IsRefused", "`IsRefused`: why there is none"),
    ("im_cmd.Answers.Answers", "`Answers`: words, files and lines"),
]
PAGE = os.path.join(TOP, "docs", "THEOREM.md")
BEGIN, END = "| For | Files, each behind what it names | Lines |", "\n\n"


def place(path):
    """The crate and the module of a file."""
    parts = os.path.relpath(path, TOP).split(os.sep)
    return parts[1], "/".join(parts[3:])[: -len(".antt")]


def in_order(definitions, seen):
    """The files of these definitions, each behind those that it names."""
    names, order, done = {}, [], set()
    for path, name in seen:
        names.setdefault(path, []).append(name)
    below = {}
    for path in names:
        found = {module.path for name in names[path] for module, _ in definitions.named_in(definitions.known[path], name, set())}
        below[path] = sorted(found - {path}, key=place)
    stack = [(path, False) for path in sorted(names, key=place, reverse=True)]
    while stack:
        path, is_left = stack.pop()
        if is_left:
            order.append(path)
        elif path not in done:
            done.add(path)
            stack.append((path, True))
            stack += [(other, False) for other in reversed(below[path]) if other not in done]
    return order


def reading_list(definitions):
    """The rows of a table: for each part of the clause the files that it adds, by crate, and the lines that count of them."""
    counted = {}
    for path, name in definitions.below(PARTS[-1][0])[0]:
        counted[path] = counted.get(path, 0) + len(definitions.known[path].lines[name])
    rows, listed = [BEGIN, "|---|---|---|"], set()
    for root, title in PARTS:
        crates, lines = [], 0
        for path in in_order(definitions, definitions.below(root)[0]):
            if path in listed:
                continue
            listed.add(path)
            lines += counted[path]
            crate, module = place(path)
            if not crates or crates[-1][0] != crate:
                crates.append((crate, []))
            crates[-1][1].append(module)
        told = "; ".join(f"`{crate}` {', '.join(modules)}" for crate, modules in crates)
        rows.append(f"| {title} | {told} | {lines} |")
    return "\n".join(rows)


def put_in(rows):
    with open(PAGE, encoding="utf-8") as file:
        text = file.read()
    at = text.index(BEGIN)
    with open(PAGE, "w", encoding="utf-8") as file:
        file.write(text[:at] + rows + text[text.index(END, at) :])


def main():
    definitions = Definitions()
    if "--order" in sys.argv or "--page" in sys.argv:
        rows = reading_list(definitions)
        put_in(rows) if "--page" in sys.argv else print(rows)
        return
    is_long = "--crates" in sys.argv
    for root in [it for it in sys.argv[1:] if not it.startswith("-")] or STANDARD:
        seen, outside = definitions.below(root)
        by_crate = {}
        for path, name in seen:
            crate = os.path.relpath(path, TOP).split(os.sep)[1]
            by_crate[crate] = by_crate.get(crate, 0) + len(definitions.known[path].lines[name])
        declared = {it for it in outside if ".specs.declared." in it}
        print(
            f"{root}: {sum(by_crate.values())} lines, {len(seen)} definitions in {len({path for path, _ in seen})} files of {len(by_crate)} crates; "
            f"{len(declared)} types of the code, {len(outside - declared)} modules of the kit"
        )
        if is_long:
            for crate, lines in sorted(by_crate.items(), key=lambda it: -it[1]):
                print(f"  {crate} {lines}")


main()
