"""What the tests share: the list of tests, a room to run the program in, and what a call gave."""
import os
import random
import shlex
import shutil
import signal
import subprocess
import tempfile

TOP = os.path.dirname(os.path.dirname(os.path.abspath(__file__)))
TESTS = []
SECONDS = 600


class Failed(Exception):
    """A test has failed, and why."""


class Skipped(Exception):
    """A test can't be made here, and why."""


def test(what):
    """Registers a test under its name, what it shows."""

    def take(function):
        TESTS.append((what, function))
        return function

    return take


def same(what, found, wanted):
    if found != wanted:
        raise Failed(f"{what}: {shown(found)}, and not {shown(wanted)}")


def holds(what, is_so):
    if not is_so:
        raise Failed(what)


def shown(value):
    text = repr(value)
    return text if len(text) < 300 else f"{text[:150]} .. {text[-100:]} ({len(value)} long)"


def text_of(path):
    with open(os.path.join(TOP, path), encoding="utf-8") as file:
        return file.read()


def bytes_of(path):
    with open(path, "rb") as file:
        return file.read()


class Done:
    """What a call gave: its exit status, and what it wrote."""

    def __init__(self, status, out, err):
        self.status, self.out, self.err = status, out, err

    @property
    def lines(self):
        return self.err.decode(errors="replace").splitlines()

    def number(self, name):
        """The number behind a word at the start of a line."""
        for line in self.out.decode(errors="replace").splitlines() + self.lines:
            if line.startswith(name + " "):
                return int(line.split()[1])
        raise Failed(f"no line {name} in {shown(self.out)} or {shown(self.err)}")

    def wants(self, what, status, out=None, last=None):
        if self.status != status:
            raise Failed(f"{what}: status {self.status}, and not {status}: {shown(self.err)}")
        if out is not None:
            same(f"{what}: the output", self.out, out)
        if last is not None:
            same(f"{what}: the last line", self.lines[-1:], [last])
        return self


class Room:
    """A folder that goes again, with the program in it as ./intermit."""

    def __init__(self, program):
        self.program, self.random = program, random.Random(20161102)

    def __enter__(self):
        self.folder = tempfile.mkdtemp(prefix="intermit-test-")
        for name in ("examples", "include", "crates", "tools", "tests", "docs", "bench"):
            os.symlink(os.path.join(TOP, name), self.path(name))
        self.file("intermit", f'#!/bin/sh\nexec {shlex.quote(self.program)} "$@"\n'.encode())
        os.chmod(self.path("intermit"), 0o755)
        return self

    def __exit__(self, *_):
        shutil.rmtree(self.folder)

    def path(self, name):
        return os.path.join(self.folder, name)

    def file(self, name, text):
        """Makes a file, and gives its name."""
        with open(self.path(name), "wb") as file:
            file.write(text if isinstance(text, bytes) else text.encode())
        return name

    def read(self, name):
        return bytes_of(self.path(name))

    def start(self, *words, ready=None, is_default=False, **streams):
        """Starts the program. File size and pipe faults are told to it, and don't stop it, but where is_default says so."""

        def prepare():
            kind = signal.SIG_DFL if is_default else signal.SIG_IGN
            for name in (signal.SIGPIPE, signal.SIGXFSZ):
                signal.signal(name, kind)
            if ready:
                ready()

        streams = {"stdin": subprocess.DEVNULL, "stdout": subprocess.PIPE, "stderr": subprocess.PIPE, **streams}
        return subprocess.Popen([self.program, *words], cwd=self.folder, preexec_fn=prepare, restore_signals=False, **streams)

    def call(self, *words, given=None, **named):
        """Runs the program to its end."""
        if given is not None:
            named["stdin"] = subprocess.PIPE
        process = self.start(*words, **named)
        try:
            out, err = process.communicate(given, timeout=SECONDS)
        except subprocess.TimeoutExpired:
            process.kill()
            process.communicate()
            raise Failed(f"{' '.join(map(str, words))[:80]}: not ended after {SECONDS} seconds") from None
        return Done(process.returncode, out or b"", err or b"")

    def build(self, source, image="made.img"):
        """Builds a source, and gives what the call gave."""
        if not os.path.exists(self.path(source)):
            source = self.file("made.c", source)
        return self.call("build", source, image).wants("build", 0)
