"""Runs the curve program (cache-curve): the proved one where it is built, else that of scripts/try.sh, else `rt try` of its crate, and without `rt` plain lists
in Python, which find the same and take longer."""
import contextlib
import os
import shlex
import shutil
import subprocess
import sys
import tempfile

TOP = os.path.join(os.path.dirname(os.path.abspath(__file__)), "..", "..", "..")
CRATE = os.path.join(TOP, "crates", "tier_curve")
# Where the proved program lies, and where scripts/try.sh leaves one that wasn't proved.
PROVED, TRIED = os.path.join(CRATE, "out", "tier_curve"), os.path.join(TOP, "out", "try", "bin", "cache-curve")
LISTS = os.path.join(TOP, "tools", "reference", "plain_planner.py")


class Failed(Exception):
    """The program ended with another status than 0. That of a bad command line is the planner's too."""

    def __init__(self, why, status=1):
        super().__init__(why)
        self.status = 2 if status == 2 else 1


def built():
    """The path of the built program, or None."""
    return next((it for it in (PROVED, TRIED) if os.access(it, os.X_OK)), None)


def lists():
    """The command line of the plain lists, where nothing else can count."""
    if built() or shutil.which("rt") or not os.path.exists(LISTS):
        return None
    print("the curve program isn't built, and there is no `rt` to build it: plain lists count, some seconds for each 100,000 requests and 10 sizes", file=sys.stderr)
    return shlex.join([sys.executable, LISTS])


def is_built(named):
    """Whether the program that counts is built or named; says so where it wasn't proved."""
    if not named and built() == TRIED:
        print("the curve program is that of scripts/try.sh, which wasn't proved", file=sys.stderr)
    return bool(named or built())


class Program:
    """A run over a file of requests, or one to which requests are written as they come. What it writes is read at the end."""

    def __init__(self, named, words, file=None):
        path, room = built(), None
        if named:
            command = [*shlex.split(named), *words]
        elif path:
            command = [path, *words]
        else:
            print("the curve program isn't built: `rt try` compiles and runs it, without a proof, which takes minutes the first time", file=sys.stderr)
            command, room = ["rt", "try", "--seconds", "36000", "--", *words], CRATE
        self.out = tempfile.TemporaryFile()
        try:
            self.run = subprocess.Popen(command, stdin=file or subprocess.PIPE, stdout=self.out, cwd=room)
        except OSError as why:
            raise Failed(f"{command[0]}: {why.strerror}") from why

    def write(self, data):
        try:
            self.run.stdin.write(data)
        except BrokenPipeError:
            self.end()
            raise Failed("the curve program ended early") from None

    def end(self, tell=None):
        try:
            if self.run.stdin:
                self.run.stdin.close()
        except BrokenPipeError:
            pass
        while tell and self.run.poll() is None:
            tell()
            with contextlib.suppress(subprocess.TimeoutExpired):
                self.run.wait(1)
        if self.run.wait():
            raise Failed(f"the curve program ended with status {self.run.returncode}", self.run.returncode)

    def text(self, tell=None):
        """What it writes. While it runs `tell` is called now and then."""
        self.end(tell)
        self.out.seek(0)
        return self.out.read().decode("ascii")

    def stop(self):
        """Ends the program where nothing is wanted of it any more."""
        self.run.kill()
        self.run.wait()
