"""The kit's prover: finds the crates of the repository, and checks a crate with some of its files changed."""
import functools
import importlib.machinery
import importlib.util
import os
import shutil
import subprocess
import sys
import tempfile
import threading

GIGABYTE = 1 << 30
CHECK_NEEDS = 3 * GIGABYTE


@functools.lru_cache(maxsize=None)
def library():
    """The module rtlib, which the kit's command rt, a Python script, has beside it."""
    command = shutil.which("rt")
    if not command:
        sys.exit("there is no command rt: put the kit's on PATH")
    loader = importlib.machinery.SourceFileLoader("rtlib", os.path.join(os.path.dirname(os.path.realpath(command)), "rtlib.py"))
    spec = importlib.util.spec_from_loader("rtlib", loader)
    made = importlib.util.module_from_spec(spec)
    sys.modules["rtlib"] = made
    was, sys.dont_write_bytecode = sys.dont_write_bytecode, True
    loader.exec_module(made)
    sys.dont_write_bytecode = was
    # its first call sets a signal's handler, which only the main thread may
    made.guarded()
    made.Crate.stamp = once(made.Crate.stamp)
    return made


def once(stamp):
    """A crate's stamp that asks each crate below once in a call, and not once for each way that leads to it."""
    local = threading.local()

    def asked(crate):
        seen, is_first = getattr(local, "seen", None), not getattr(local, "seen", None)
        if is_first:
            seen = local.seen = {None: None}
        try:
            if crate.folder not in seen:
                seen[crate.folder] = stamp(crate)
            return seen[crate.folder]
        finally:
            if is_first:
                local.seen = None

    return asked


def crates_of(root):
    """The crates of the repository by name, lowest first."""
    return {it.name: it for it in library().crates_below(root)}


def work_side_by_side():
    """How many checks run side by side by default: one a core, as far as there is memory for each."""
    with open("/proc/meminfo", encoding="utf-8") as it:
        free = next(int(line.split()[1]) << 10 for line in it if line.startswith("MemAvailable:"))
    return max(1, min(len(os.sched_getaffinity(0)), free // CHECK_NEEDS))


def kept_work(crate):
    """The folder in which the crate's own checks keep their work, whether it is there or not."""
    return os.path.join(crate.folder, "out", "incremental")


def check(crate, texts, kept, *more):
    """Checks a copy of the crate that has these texts at their paths (None: no file there), over the work kept in a folder; returns the exit status and
    what was said. The crate's `seconds` are the processor seconds of its checks."""
    kit = library()
    with tempfile.TemporaryDirectory(prefix="edits-") as room:
        for part in kit.PARTS:
            if os.path.isdir(os.path.join(crate.folder, part)):
                shutil.copytree(os.path.join(crate.folder, part), os.path.join(room, part))
        for path, text in texts.items():
            if text is None:
                os.remove(os.path.join(room, path))
                continue
            with open(os.path.join(room, path), "w", encoding="utf-8") as it:
                it.write(text)
        words = [*kit.guarded(), kit.RATTLE, "check", *crate.words(["--jobs", "1"], keeps=False), "--incremental", kept, *more]
        status, said, seconds = timed(words, room)
        if status < 0:
            # it was killed, most likely for memory: once more
            status, said, seconds = timed(words, room)
    crate.seconds = getattr(crate, "seconds", 0) + seconds
    return status, said


def timed(words, folder):
    """Runs a command; returns its exit status (a signal's number below 0), what it said, and its processor seconds."""
    ran = subprocess.Popen(words, cwd=folder, stdin=subprocess.DEVNULL, stdout=subprocess.PIPE, stderr=subprocess.STDOUT)
    said = ran.stdout.read().decode(errors="replace")
    _, status, used = os.wait4(ran.pid, 0)
    ran.stdout.close()
    ran.returncode = -os.WTERMSIG(status) if os.WIFSIGNALED(status) else os.WEXITSTATUS(status)
    return ran.returncode, said, used.ru_utime + used.ru_stime


def is_proved(crate):
    """Whether the crate's library is there in its present form, as only a proved one is."""
    return left_by_gate([crate]) or crate.is_built()


def left_by_gate(crates):
    """Whether a run of rt ci left the libraries of these crates in their present form: it marks them by no stamp, and they fit each other alone."""
    for crate in crates:
        if not os.path.isdir(crate.rlib) or os.path.exists(os.path.join(os.path.dirname(crate.rlib), "stamp")):
            return False
        if any(os.path.getmtime(it) >= os.path.getmtime(crate.rlib) for it in library().files_of(crate.folder)):
            return False
    return True
