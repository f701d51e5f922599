"""What `check` says of a source: where and why, its line, and a caret under the place."""
import re

from base import holds, same, test

UNKNOWN = "this name isn't declared before it, or names a function that isn't called"
BYTE = "bad byte: no token begins with it"

# a source, and what is said of it as a.c: the place, the fault, the line, and how many of its bytes stand in front of the caret
ROWS = [
    # each kind of fault
    ("int a@b;\n", "a.c:1:6", BYTE, "int a@b;", 5),
    ("int a; /* a\n", "a.c:1:8", "open comment: its */ is missing", "int a; /* a", 7),
    ("int a = 'ab';\n", "a.c:1:9", "open literal: its quotation mark is missing, or it hasn't one character", "int a = 'ab';", 8),
    ("int a = 08;\n", "a.c:1:9", "bad number: it is no integer, or no type holds it", "int a = 08;", 8),
    ("#define N 4\n", "a.c:1:1", "bad directive: only line markers begin with #", "#define N 4", 0),
    ("int main(void)\n{\n    return 1 }\n", "a.c:3:14", "syntax at '}': no unit goes on with it", "    return 1 }", 13),
    ("int main(void)\n{\n    return x;\n}\n", "a.c:3:12", f"rule 18 at 'x': {UNKNOWN}", "    return x;", 11),
    # the name of a function that isn't there, and of a member
    ("int main(void) { return twice(21); }\n", "a.c:1:25", f"rule 18 at 'twice': {UNKNOWN}", "int main(void) { return twice(21); }", 24),
    # the end of the text, behind its last line and on it
    ("int main(void) {\n", "a.c:2:1", "syntax: the text ends too early", "", 0),
    ("int main(void) {", "a.c:1:17", "syntax: the text ends too early", "int main(void) {", 16),
    # a tab stands under a tab
    ("int main(void)\n{\n\tint\ta = b;\n}\n", "a.c:3:10", f"rule 18 at 'b': {UNKNOWN}", "\tint\ta = b;", 9),
    # a line that ends with CR, and one without an end
    ("int a@b;\r\n", "a.c:1:6", BYTE, "int a@b;\r", 5),
    ("int a;\nint a@b;", "a.c:2:6", BYTE, "int a@b;", 5),
    # line markers: the last one before the line counts, one without a name keeps the name before it
    ('# 12 "my.c"\nint a@b;\n', "my.c:12:6", BYTE, "int a@b;", 5),
    ('# 1 "b.h" 1\nint x;\n# 7 "b.c" 2\n\nint a@b;\n', "b.c:8:6", BYTE, "int a@b;", 5),
    ('# 1 "b.h"\n# 40\nint a@b;\n', "b.h:40:6", BYTE, "int a@b;", 5),
    ('#\t9 "dir a/b.c"\nint a@b;\n', "dir a/b.c:9:6", BYTE, "int a@b;", 5),
    ('# 4294967295 "b.c"\n\nint a@b;\n', "b.c:4294967296:6", BYTE, "int a@b;", 5),
    ('# 4294967296 "b.c"\nint a@b;\n', "a.c:2:6", BYTE, "int a@b;", 5),
    ('# 5\nint a@b;\n# 9 "c.c"\n', "a.c:5:6", BYTE, "int a@b;", 5),
]

# a source of which a quantity is over its limit as a whole, and the one line that is said of it
LIMITS = [
    ("char a[1048576]; int main(void) { return 0; }\n", "a.c: statics 1048580 over 1048576"),
    ("char a[600000], b[600000]; int main(void) { return 0; }\n", "a.c: statics 1200008 over 1048576"),
]

# a source with a function of too many parameters: the place of its declarator, how many, its name, the line, and how many of
# its bytes stand in front of the caret
MANY = "int a, int b, int c, int d, int e, int g, int h, int i"
CROWDED = [
    (f"void f({MANY}, int j) {{}} int main(void) {{}}\n", "a.c:1:6", 9, "f", f"void f({MANY}, int j) {{}} int main(void) {{}}", 5),
    # within the limit, and over it; a prototype; a pointer is given
    (f"void f({MANY}) {{}}\nint *g({MANY}, int j, int k);\nint main(void) {{}}\n", "a.c:2:5", 10, "g", f"int *g({MANY}, int j, int k);", 4),
    # the first of two
    (f"int x;\nint one({MANY}, int j), two({MANY}, int j, int k);\nint main(void) {{}}\n", "a.c:2:5", 9, "one", f"int one({MANY}, int j), two({MANY}, int j, int k);", 4),
    # a line marker
    (f'# 7 "my.c"\n\tvoid f({MANY}, int j) {{}}\nint main(void) {{}}\n', "my.c:7:7", 9, "f", f"\tvoid f({MANY}, int j) {{}}", 6),
]

# a source with a type that is too large: where what is declared there begins, the type's size, the name, the line, and how many of
# its bytes stand in front of the caret
OBJECTS = [
    ("char a[1048577]; int main(void) { return 0; }\n", "a.c:1:6", 1048577, "a", "char a[1048577]; int main(void) { return 0; }", 5),
    # an array of arrays, the second of three declarators
    ("static int a, rows[1100][1000], c;\nint main(void) { return 0; }\n", "a.c:1:15", 4400000, "rows", "static int a, rows[1100][1000], c;", 14),
    # the innermost type that is too large
    ("int main(void);\nchar page[2][1048580];\nint main(void) { return 0; }\n", "a.c:2:6", 1048580, "page", "char page[2][1048580];", 5),
    # a declarator that begins with a star, and one in parentheses
    ("int x;\nint *list[300000];\nint main(void) { return x; }\n", "a.c:2:5", 1200000, "list", "int *list[300000];", 4),
    ("int x;\nint *(list[300000]);\nint main(void) { return x; }\n", "a.c:2:5", 1200000, "list", "int *(list[300000]);", 4),
    # the first of two
    ("char a[1048576], b[1048577], c[1048578];\nint main(void) { return 0; }\n", "a.c:1:18", 1048577, "b", "char a[1048576], b[1048577], c[1048578];", 17),
    # what only sizeof names in an initialiser
    ("int one, n = sizeof(char[1048577]);\nint main(void) { return n; }\n", "a.c:1:10", 1048577, "n", "int one, n = sizeof(char[1048577]);", 9),
    # in a block, and in a function behind others
    ("int main(void)\n{\n    char page[1048577];\n    page[0] = 1;\n    return page[0];\n}\n", "a.c:1:5", 1048577, "main", "int main(void)", 4),
    ("int f(void) { return 0; }\nint main(void) { return f(); }\nvoid g(void);\n"
     "int h(void) { int all[262145]; all[0] = 1; return all[0]; }\n", "a.c:4:5", 1048580, "h", "int h(void) { int all[262145]; all[0] = 1; return all[0]; }", 4),
    # a parameter's type, of a definition and of a prototype
    ("int f(char page[1048577]) { return page[0]; }\nint main(void) { return 0; }\n", "a.c:1:5", 1048577, "f", "int f(char page[1048577]) { return page[0]; }", 4),
    ("int f(char page[1048577]);\nint main(void) { return 0; }\n", "a.c:1:5", 1048577, "f", "int f(char page[1048577]);", 4),
    # a struct, a member of one, and a static of it
    ("struct page { char a[600000]; char b[600000]; };\nint main(void) { return 0; }\n", "a.c:1:1", 1200000, "", "struct page { char a[600000]; char b[600000]; };", 0),
    ("int x;\nstatic struct { char a[1048577]; } page;\nint main(void) { return x; }\n", "a.c:2:1", 1048577, "", "static struct { char a[1048577]; } page;", 0),
    ("struct page { char a[600000]; };\nstruct page two[2];\nint main(void) { return 0; }\n", "a.c:2:13", 1200000, "two", "struct page two[2];", 12),
    # a line marker, and a tab
    ('# 7 "my.c"\n\tchar a[1048577];\nint main(void) { return 0; }\n', "my.c:7:7", 1048577, "a", "\tchar a[1048577];", 6),
]

# a source with a function whose frame is too large: the function's name, and the bytes of its array
FRAMES = [
    ("int main(void) { char page[70000]; page[0] = 1; return page[0]; }\n", "main", 70000),
    ("int one(void) { char a[60000]; a[0] = 1; return a[0]; }\nint two(void) { char b[65537]; b[0] = 1; return b[0]; }\n"
     "int main(void) { return one() + two(); }\n", "two", 65537),
    # the first of two
    ("int two(void) { int b[100000]; b[0] = 1; return b[0]; }\nint one(void) { int a[200000]; a[0] = 1; return a[0]; }\n"
     "int main(void) { return one() + two(); }\n", "two", 400000),
]


def under(front):
    return "".join("\t" if byte == "\t" else " " for byte in front) + "^"


def says(room, what, source, lines):
    room.file("a.c", source)
    done = room.call("check", "a.c")
    same(what, (done.status, done.out, done.err.decode()), (3, b"", "".join(f"{line}\n" for line in lines)))


@test("check says where a source is at fault, and why")
def check_says_where(room):
    for source, place, fault, line, front in ROWS:
        says(room, source, source, (f"{place}: {fault}", line, under(line[:front])))


@test("check tells nesting over 200, and a line of nearly 4 MiB whole")
def check_long_lines(room):
    deep = "int a = " + "(" * 201 + "1" + ")" * 201 + ";"
    says(room, "nesting", deep + "\n", ("a.c:1:208: nesting over 200 at '(': more than 200 stand in one another", deep, under(deep[:207])))
    front = "/*" + "x" * (4 * 1024 * 1024 - 20) + "*/"
    line = front + "int a@b;"
    says(room, "a long line", line, (f"a.c:1:{len(front) + 6}: {BYTE}", line, under(line[: len(front) + 5])))


@test("check tells dimensions over 512 at the first of them, and a typedef name that stands for over 250 derivations")
def check_chains(room):
    line = "int a" + "[1]" * 514 + ";"
    told = "a.c:1:1542: dimensions over 512 at '[': more than 512 [..] stand directly behind one another"
    says(room, "dimensions", line + "\n", (told, line, under(line[:1541])))
    row = "typedef int t0;\n" + "".join(f"typedef t{it} *t{it + 1};\n" for it in range(251)) + "int main(void) { return 0; }\n"
    told = "a.c:252:14: derivations 251 over 250 in 't251': a typedef name stands for at most 250 pointers, arrays and functions"
    says(room, "derivations", row, (told, "typedef t250 *t251;", under("typedef t250 ")))


@test("check says nothing of a source that is right")
def check_says_nothing(room):
    for source in ("int main(void) { return 0; }\n", '# 1 "b.c"\nint main(void) { putchar(72); return 7; }'):
        room.file("a.c", source)
        done = room.call("check", "a.c")
        same(source, (done.status, done.out, done.err), (0, b"", b""))


@test("check tells by one line a limit of the source as a whole")
def check_tells_limits(room):
    for source, line in LIMITS:
        says(room, source, source, (line,))


@test("check tells the function that has too many parameters, its line, and a caret under its declarator")
def check_tells_crowded(room):
    for source, place, count, name, line, front in CROWDED:
        said = f"{place}: parameters {count} over 8 in '{name}': a function has at most 8 parameters"
        says(room, source, source, (said, line, under(line[:front])))


@test("check tells what is declared where a type is too large, its line, and a caret under it")
def check_tells_objects(room):
    for source, place, count, name, line, front in OBJECTS:
        within = f" in '{name}'" if name else ""
        said = f"{place}: size {count} over 1048576{within}: a type has at most 1048576 bytes"
        says(room, source, source, (said, line, under(line[:front])))


@test("check tells the function whose frame is too large")
def check_tells_frames(room):
    why = "a function's locals and temporary values have at most 65536 bytes"
    for source, name, least in FRAMES:
        room.file("a.c", source)
        done = room.call("check", "a.c")
        same(source, (done.status, done.out), (3, b""))
        told = re.fullmatch(rf"a\.c: frame ([0-9]+) over 65536 in '{name}': {why}\n", done.err.decode())
        holds(f"{source}: {done.err!r}", told)
        # no more beside the array than 64 bytes of its own
        holds(f"{source}: {told[1]} bytes", least < int(told[1]) <= least + 64)


@test("check tells code that is over its limit by one line")
def check_tells_code(room):
    body = "g = g * 3 + x; " * 400
    calls = "".join(f"s += f{k}(s); " for k in range(150))
    source = "int g;\n" + "".join(f"int f{k}(int x) {{ {body}return g; }}\n" for k in range(150))
    room.file("a.c", source + f"int main(void) {{ int s = 0; {calls}return s; }}\n")
    done = room.call("check", "a.c")
    same("the status", (done.status, done.out), (3, b""))
    told = re.fullmatch(r"a\.c: code ([0-9]+) over 1044480\n", done.err.decode())
    holds(f"{done.err!r}", told)
    holds(f"{told[1]} bytes", int(told[1]) > 1044480)


@test("check tells a file that it can't read, and one that is too long, as other commands do")
def check_tells_files(room):
    done = room.call("check", "none.c")
    same("no file", (done.status, done.out, done.err), (7, b"", b"intermit: cannot read none.c\n"))
    says(room, "a byte too many", " " * (4 * 1024 * 1024 + 1), ("intermit: a.c: source 4194305 over 4194304",))


@test("check tells by status 8 that its message can't be written")
def check_without_room(room):
    room.file("a.c", "int a@b;\n")
    with open("/dev/full", "wb") as full:
        process = room.start("check", "a.c", stderr=full)
        process.communicate()
    same("the status", process.returncode, 8)
