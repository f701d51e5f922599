"""The pages: their commands run as pasted, with the output that stands below them; their links; the sources of docs/errors.md.

A block that begins with ```sh is run, all blocks of a page in one folder and in order; one that begins with ```output has
what the terminal then shows. `sh status=N` wants that exit status, `sh needs=WORD` is run where that command is there.
Blocks of other names aren't run."""
import glob
import os
import re
import shutil
import subprocess

from base import TOP, Failed, holds, same, test, text_of

BLOCK = re.compile(r"^```(sh|output)([^\n]*)\n(.*?)^```$", re.M | re.S)
PAGES = ["README.md", *sorted(os.path.relpath(it, TOP) for it in glob.glob(TOP + "/docs/*.md"))]


def shown(room, block, words):
    """What the terminal shows of a block's commands."""
    wanted = dict(it.split("=") for it in words.split())
    done = subprocess.run(
        ["sh", "-e", "-c", block], cwd=room.folder, stdin=subprocess.DEVNULL, stdout=subprocess.PIPE, stderr=subprocess.STDOUT, timeout=600
    )
    text = done.stdout.decode(errors="replace")
    if done.returncode != int(wanted.get("status", 0)):
        raise Failed(f"status {done.returncode} of {block!r}: {text[-500:]}")
    return text


def is_possible(words):
    needed = re.findall(r"needs=(\S+)", words)
    return all(shutil.which(it) for it in needed)


def walk(room, page):
    """Each block of output on a page: where it stands, and what the commands above it show now."""
    last = None
    for found in BLOCK.finditer(text_of(page)):
        kind, words, block = found.groups()
        if kind == "sh":
            last = shown(room, block, re.sub(r"needs=\S+", "", words)) if is_possible(words) else None
        elif last is not None:
            yield found, last if last.endswith("\n") else last + "\n"


def renewed(room, page):
    """The page with the output that its commands have now."""
    text, at = [], 0
    whole = text_of(page)
    for found, now in walk(room, page):
        text += [whole[at : found.start(3)], now]
        at = found.end(3)
    return "".join([*text, whole[at:]])


def register(page):
    @test(f"{page}: its commands print what stands below them")
    def commands(room):
        for found, now in walk(room, page):
            same(f"line {text_of(page)[: found.start()].count(chr(10)) + 1}", now, found.group(3))

    return commands


for each in PAGES:
    if "```sh" in text_of(each):
        register(each)


def anchors(page):
    """The anchors of a page's headings, as GitHub makes them."""
    titles = re.findall(r"^#+ (.*)$", re.sub(r"^```.*?^```$", "", text_of(page), flags=re.M | re.S), re.M)
    plain = [re.sub(r"\[([^\]]*)\]\([^)]*\)", r"\1", title) for title in titles]
    return {re.sub(r"[^\w\- ]", "", title.lower()).replace(" ", "-") for title in plain}


@test("no link of a page is dead")
def links(_):
    dead = []
    for page in [*PAGES, "CHANGELOG.md"]:
        text = re.sub(r"^```.*?^```$", "", text_of(page), flags=re.M | re.S)
        for link in re.findall(r"\[[^\]]*\]\(([^)\s]+)\)", text):
            if link.startswith(("http://", "https://")):
                continue
            path, _, anchor = link.partition("#")
            target = os.path.normpath(os.path.join(os.path.dirname(page), path)) if path else page
            if not os.path.exists(os.path.join(TOP, target)):
                dead.append(f"{page}: {link}")
            elif anchor and target.endswith(".md") and anchor not in anchors(target):
                dead.append(f"{page}: {link}")
    holds(f"dead: {dead}", not dead)


@test("docs/README.md leads to each page")
def index(_):
    linked = set(re.findall(r"\]\(([\w.-]+\.md)", text_of("docs/README.md")))
    pages = {os.path.basename(it) for it in glob.glob(TOP + "/docs/*.md")} - {"README.md"}
    holds(f"not linked: {sorted(pages - linked)}", not pages - linked)


@test("docs/recipes.md names files that are there")
def recipes(_):
    named = re.findall(r"`((?:im_\w+|tests)/[\w./]+\.\w+)`", text_of("docs/recipes.md"))
    holds("no files", len(named) > 50)
    places = [os.path.join(TOP, it) if it.startswith("tests/") else os.path.join(TOP, "crates", it) for it in named]
    absent = [it for it in places if not os.path.exists(it)]
    holds(f"absent: {absent}", not absent)


def code_of(cell):
    """The sources of a cell: the texts between backquotes, with \\n for an end of line."""
    return [it.replace("\\|", "|").replace("¶", "\n") for it in re.findall(r"``? ?(.+?) ?``?(?!`)", cell)]


def whole_unit(part):
    return part if re.search(r"\bmain\b", part) else part + "\nint main(void) { return 0; }\n"


def rows_of(page, name):
    """The rows of the table behind a heading."""
    part = text_of(page).split(f"## {name}\n")[1].split("\n## ")[0]
    rows = [re.split(r"(?<!\\)\|", line)[1:-1] for line in part.splitlines() if line.startswith("|")]
    return [[cell.strip() for cell in row] for row in rows[2:]]


def refused(room, source):
    """What the program says of a source, without its name."""
    room.file("s.c", whole_unit(source))
    done = room.call("build", "s.c", "s.img")
    return "built" if done.status == 0 else done.lines[-1].replace("intermit: s.c:", "").strip()


def each_row(room, name, answer_of):
    rows = rows_of("docs/errors.md", name)
    holds("no rows", rows)
    for row in rows:
        answer, breaking, mended = answer_of(row)
        for source in breaking:
            same(f"{source!r}", refused(room, source), answer)
        for source in mended:
            same(f"{source!r}", refused(room, source), "built")


@test("docs/errors.md: each rule's source breaks it, and its mend is built")
def rules(room):
    rows = rows_of("docs/errors.md", "The rules")
    same("the rules", [row[0] for row in rows], [str(it) for it in range(1, 35)])
    each_row(room, "The rules", lambda row: (f"1: rule {row[0]}", code_of(row[2]), code_of(row[3])))


@test("docs/errors.md: each text is what its source gives, and its mend is built")
def texts(room):
    each_row(room, "The texts", lambda row: (code_of(row[0])[0], code_of(row[1]), code_of(row[2])))


@test("docs/errors.md: what is left out is refused as it says, and what stands for it is built")
def left_out(room):
    each_row(room, "What C has and this language hasn't", lambda row: (code_of(row[1])[0], code_of(row[0]), code_of(row[2])))


def chain(text):
    return "int x; int main(void) { " + text + " return 0; }"


# What stands so often at most, by docs/errors.md, and is refused a little further on.
CHAINS = {
    "else if with braces": (190, lambda n: chain("if (x == 1) { x = 1; }" + " else if (x == 2 && x) { x = 2; }" * n)),
    "else if without braces": (95, lambda n: chain("if (x == 1) x = 1;" + " else if (x == 2 && x) x = 2;" * n)),
    "case labels": (190, lambda n: chain("switch (x) {" + "".join(f" case {it}:" for it in range(n)) + " x = 1; }")),
    "a sum": (198, lambda n: chain("x = " + " + ".join(["x"] * n) + ";")),
    "conditions": (198, lambda n: chain("if (" + " && ".join(["x"] * n) + ") x = 1;")),
    "a sum of products": (98, lambda n: chain("x = " + " + ".join(["x * x"] * n) + ";")),
    "comparisons": (98, lambda n: chain("if (" + " || ".join(["x == 1"] * n) + ") x = 1;")),
}


@test("docs/errors.md: as much of each chain as it says is built, and more of it is refused")
def chains(room):
    for what, (most, source_of) in CHAINS.items():
        same(f"{most} of {what}", refused(room, source_of(most)), "built")
        same(f"{most + 10} of {what}", refused(room, source_of(most + 10)), "1: nesting over 200")
    arrays = lambda n: "int a" + "[1]" * n + "; int main(void) { return 7; }"
    same("512 dimensions", refused(room, arrays(512)), "built")
    same("513 dimensions", refused(room, arrays(513)), "1: dimensions over 512")
    types = lambda n: "typedef int t0; " + "".join(f"typedef t{it} *t{it + 1}; " for it in range(n)) + "int main(void) { return 0; }"
    same("250 derivations", refused(room, types(250)), "built")
    same("251 derivations", refused(room, types(251)), "derivations 251 over 250")
    same("a long frame", refused(room, "int main(void) { char a[65530]; a[0] = 1; return a[0]; }")[:6], "frame ")
    large = "struct s { char a[%d]; } x, y; void copy(struct s *p, struct s *q) { *p = *q; } int main(void) { copy(&x, &y); return 0; }"
    same("a large struct through pointers", refused(room, large % 20000), "built")
    same("a frame", refused(room, "int main(void) { char a[65500]; a[0] = 1; return a[0]; }"), "built")


@test("docs/pitfalls.md: each program has the cause that it stands under")
def pitfalls(room):
    sections = re.findall(r"^## U(\d+):.*?^```c\n(.*?)^```", text_of("docs/pitfalls.md"), re.M | re.S)
    same("the causes", [number for number, _ in sections], [str(it) for it in range(1, 11)])
    for number, source in sections:
        room.file("u.c", source)
        room.call("eval", "u.c").wants(f"U{number}", 11, b"", f"intermit: undefined U{number}")
