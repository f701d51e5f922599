"""The script ./intermit, over a kit that is made up here: what it builds, when, and which program it takes."""
import os
import shutil
import subprocess

from base import TOP, holds, same, test

RT = """#!/bin/sh
# stands for the kit's rt: hands a module to the compiler beside it
echo "$*" >> "$FAKE/calls"
sleep "${FAKE_SECONDS:-0}"
[ -z "${FAKE_BROKEN-}" ] || { echo 'error: src/main.rt:1: expected an item'; exit 1; }
[ "$1" = try ] || exit 1
head -c 5000000 /dev/zero > "$FAKE/module.bc"
cd "$FAKE"
here=$(dirname -- "$0")
exec "$here/../toolchain/bin/clang" -c module.bc
"""
CLANG = """#!/bin/sh
while [ $# -gt 1 ]; do
  [ "$1" = -o ] && : > "$2"
  shift
done
"""
LINK = """#!/bin/sh
while [ $# -gt 1 ]; do
  [ "$1" = -o ] && printf '#!/bin/sh\\necho "unproved $*"\\n' > "$2"
  shift
done
"""
NOTE = "intermit: this program isn't proved; rt ci proves it"


class House:
    """A repository of one crate with the real scripts, and a kit of three scripts."""

    def __init__(self, room):
        self.top, kit = room.path("house"), room.path("kit")
        for name, text in (("bin/rt", RT), ("bin/rattle-link", LINK), ("toolchain/bin/clang", CLANG)):
            self.script(os.path.join(kit, name), text)
        os.makedirs(os.path.join(self.top, "crates/intermit/src"))
        os.makedirs(os.path.join(self.top, "tools"))
        for name in ("intermit", "tools/program", "tools/build-unproved", "tools/sources-sum"):
            shutil.copy(os.path.join(TOP, name), os.path.join(self.top, name))
        for name in ("crates.txt", "HANDLES", "crates/intermit/src/main.rt"):
            self.write(name, "first\n")
        self.fake = room.path("fake")
        os.makedirs(self.fake)
        self.environment = {**os.environ, "FAKE": self.fake, "PATH": os.path.join(kit, "bin") + ":" + os.environ["PATH"]}

    @staticmethod
    def script(path, text):
        os.makedirs(os.path.dirname(path), exist_ok=True)
        with open(path, "w", encoding="utf-8") as file:
            file.write(text)
        os.chmod(path, 0o755)

    def write(self, name, text):
        """Writes a source, so that it is newer than all that was made before."""
        with open(os.path.join(self.top, name), "w", encoding="utf-8") as file:
            file.write(text)

    def start(self, **more):
        return subprocess.Popen(
            ["./intermit", "build", "x"], cwd=self.top, env={**self.environment, **more}, text=True,
            stdin=subprocess.DEVNULL, stdout=subprocess.PIPE, stderr=subprocess.PIPE,
        )

    def call(self, **more):
        process = self.start(**more)
        out, err = process.communicate(timeout=600)
        return process.returncode, out, err.splitlines()

    def builds(self):
        calls = os.path.join(self.fake, "calls")
        return len(open(calls, encoding="utf-8").readlines()) if os.path.exists(calls) else 0


@test("./intermit builds once for the same sources, and says that its program isn't proved")
def once(room):
    house = House(room)
    status, out, lines = house.call()
    same("the first call", (status, out, lines[-1], house.builds()), (0, "unproved build x\n", NOTE, 1))
    same("the second call", house.call(), (0, "unproved build x\n", [NOTE]))
    same("a quiet call", house.call(INTERMIT_NOTE="never"), (0, "unproved build x\n", []))
    os.makedirs(os.path.join(house.top, "docs"))
    house.write("docs/page.md", "a page\n")
    house.write("crates/intermit/src/main.rt", "first\n")
    same("a page more, a source written again", (house.call()[0], house.builds()), (0, 1))
    house.write("crates/intermit/src/main.rt", "second\n")
    same("another source", (house.call()[0], house.builds()), (0, 2))
    house.write("crates/intermit/src/main.rt", "first\n")
    same("the first source again", (house.call()[0], house.builds()), (0, 2))


@test("./intermit takes the proved program where the gate has made it, and says nothing")
def proved(room):
    house = House(room)
    house.call()
    gate = os.path.join(house.top, "crates/intermit/out/intermit")
    house.script(gate, '#!/bin/sh\necho "proved $*"\n')
    same("behind the gate", house.call(), (0, "proved build x\n", []))
    same("asked", house.call(INTERMIT_NOTE="always")[2], ["intermit: this program is proved"])
    os.remove(gate)
    same("with the gate's program gone", house.call(), (0, "proved build x\n", []))
    house.write("crates.txt", "second\n")
    same("other sources", house.call()[1], "unproved build x\n")
    house.script(gate, '#!/bin/sh\necho "proved $*"\n')
    os.utime(gate, (1, 1))
    same("an older program of the gate", house.call()[1], "unproved build x\n")


@test("two first calls of ./intermit at once build once, and both run")
def at_once(room):
    house = House(room)
    first, second = house.start(FAKE_SECONDS="1"), house.start(FAKE_SECONDS="1")
    for process in (first, second):
        same("the output", (process.communicate(timeout=600)[0], process.returncode), ("unproved build x\n", 0))
    same("builds", house.builds(), 1)


@test("./intermit says why a build failed, by status 70, and keeps what it has")
def broken(room):
    house = House(room)
    house.call()
    house.write("crates.txt", "second\n")
    status, out, lines = house.call(FAKE_BROKEN="1")
    same("the status", (status, out), (70, ""))
    holds(f"no reason in {lines}", "error: src/main.rt:1: expected an item" in lines)
    house.write("crates.txt", "first\n")
    same("the first sources", (house.call(FAKE_BROKEN="1"), house.builds()), ((0, "unproved build x\n", [NOTE]), 2))
    house.write("crates.txt", "third\n")
    path = room.path("paths")
    os.makedirs(path)
    for folder in ("/bin", "/usr/bin"):
        for name in os.listdir(folder):
            if name != "rt" and not os.path.lexists(os.path.join(path, name)):
                os.symlink(os.path.join(folder, name), os.path.join(path, name))
    status, out, lines = house.call(PATH=path)
    same("without a kit", (status, out), (70, ""))
    holds(f"no reason in {lines}", any("no command rt on the path" in line for line in lines))
