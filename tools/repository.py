"""The crates of this repository, copies of them for what is built without a proof, and runs of `rt`."""

import contextlib
import dataclasses
import os
import pathlib
import re
import shutil
import subprocess
import tempfile
import threading
import time
import typing

from bindings import unproved

TOP = pathlib.Path(__file__).resolve().parent.parent
CRATES = TOP / "crates"
# The lists of the crates, each with those that it names: what is proved, and what is only run.
PROVED, UNPROVED = TOP / "crates.txt", TOP / "tests" / "tests.txt"
# Files of tests/ that hold Rattle, which no tool is to take for Rust, nor `rt ci` for proved code.
UNPROVED_SUFFIX = ".rt.txt"
PROCESSORS = len(os.sched_getaffinity(0))
# A check takes less than this; what `rt` expects of it, by its lines, is up to three times as much.
MEMORY_OF_A_CHECK = 5 * 1024**3
START = time.monotonic()
# A program that has not ended after so many seconds hangs. The gate runs some at the lowest priority, beside proofs on all processors.
SECONDS = 1800
# After so many seconds without a line, one tells what is under way.
QUIET = 10
UNDER_WAY, last_told = [], START
# Loaded before there are threads: tools/kept.py loads the kit's `rt`, which puts a module of its own under the same name.
RTLIB = unproved.kit()

os.environ["PATH"] += os.pathsep + "/opt/rattle/bin"


def lanes():
    """Returns how many checks run side by side: one a processor, as far as there is memory."""
    memory = os.sysconf("SC_PAGE_SIZE") * os.sysconf("SC_PHYS_PAGES")
    return max(1, min(PROCESSORS, memory // MEMORY_OF_A_CHECK))


class Counts(typing.NamedTuple):
    """How much passed, failed and was skipped."""

    passed: int
    failed: int = 0
    skipped: int = 0

    def __str__(self):
        skipped = f", {self.skipped} skipped" if self.skipped else ""
        return f"{self.passed} passed, {self.failed} failed{skipped}"

    def and_more(self, others):
        return Counts(*map(sum, zip(self, *others)))


class Ended(typing.NamedTuple):
    """What a program wrote, what it wrote to standard error, and its exit status."""

    out: bytes
    errors: bytes
    status: int


class Crate:
    """A crate, the crates of the repository that it names, and whether it is proved or stands in tests/."""

    def __init__(self, name, named, is_proved, folder=None):
        self.name, self.named, self.is_proved = name, named, is_proved
        self.folder = folder or (CRATES if is_proved else TOP / "tests") / name
        sources = [path for path in self.folder.glob("src/**/*") if path.is_file()]
        self.is_program = any(path.name.startswith("main.rt") for path in sources)
        self.has_tests = any(b"#[test]" in path.read_bytes() for path in sources)
        self.has_conversations = is_proved and (self.folder / "conversations").is_dir()

    def files(self):
        """Returns what its tests and its program are built from and run on."""
        folders = [self.folder / name for name in ("src", "specs", "conversations", "data")]
        found = [path for folder in folders for path in folder.rglob("*") if path.is_file()]
        found += [path for path in self.folder.iterdir() if path.is_file()]
        return sorted(found + [TOP / path for path in borrowed(self.folder)])


def listed(path):
    """Returns the crates of a list by their names, each with the crates that it names."""
    found = {}
    for line in path.read_text().splitlines():
        head, _, rest = line.partition("#")[0].partition(":")
        if head.strip():
            found[head.split()[0]] = rest.split()
    return found


def crates():
    """Returns the crates by their names, each after those that it names."""
    proved, ordered = listed(PROVED), {}
    every = proved | listed(UNPROVED)

    def add(name):
        if name in ordered:
            return
        own = [other for other in every[name] if other in every]
        for other in own:
            add(other)
        ordered[name] = Crate(name, own, name in proved)

    for name in every:
        add(name)
    return ordered


def borrowed(folder):
    """Returns the files of other crates that a crate of tests/ is built from and run on too, as paths from the top."""
    path = folder / "borrowed.txt"
    return [pathlib.Path(line) for line in path.read_text().split()] if path.exists() else []


def below(every, name):
    """Returns the names of the crate and of all that it uses."""
    return {name}.union(*(below(every, other) for other in every[name].named))


@contextlib.contextmanager
def workspace(more=""):
    """Gives a folder with copies of all crates, those of tests/ too, for what is built without a proof.

    More is further lines of crates.txt."""
    with tempfile.TemporaryDirectory() as room:
        top = pathlib.Path(room)
        left_out = shutil.ignore_patterns("out", "must-fail", "mutants", "proofs")
        for folder in [*CRATES.iterdir(), *(TOP / "tests").iterdir()]:
            if folder.is_dir():
                copy = top / "crates" / folder.name
                shutil.copytree(folder, copy, ignore=left_out)
                for path in borrowed(folder):
                    target = copy.joinpath(*path.parts[2:])
                    target.parent.mkdir(exist_ok=True)
                    shutil.copy(TOP / path, target)
        for path in [*top.rglob(f"src/**/*{UNPROVED_SUFFIX}")]:
            path.rename(path.with_suffix(""))
        (top / "crates.txt").write_text(PROVED.read_text() + UNPROVED.read_text() + more)
        shutil.copy(TOP / "HANDLES", top)
        yield top / "crates"


def tell(text):
    global last_told
    last_told = time.monotonic()
    minutes, seconds = divmod(int(last_told - START), 60)
    print(f"{minutes:3}:{seconds:02}  {text}", flush=True)


@dataclasses.dataclass(eq=False)
class Task:
    what: str
    began: float


@contextlib.contextmanager
def task(what):
    """Counts what runs within as a task under way. Gives the task, whose text may change."""
    made = Task(what, time.monotonic())
    UNDER_WAY.append(made)
    try:
        yield made
    finally:
        UNDER_WAY.remove(made)


@contextlib.contextmanager
def watched():
    """Tells what is under way wherever so many seconds pass without a line, until what runs within has ended."""
    ended = threading.Event()

    def watch():
        while not ended.wait(1):
            now = time.monotonic()
            if UNDER_WAY and now - last_told >= QUIET:
                tell("under way: " + "; ".join(f"{it.what} ({now - it.began:.0f} s)" for it in [*UNDER_WAY]))

    watcher = threading.Thread(target=watch, daemon=True)
    watcher.start()
    try:
        yield
    finally:
        ended.set()
        watcher.join()


def run(words, folder=TOP):
    """Runs a command, with what it writes to both its streams as one text."""
    how = {"stdout": subprocess.PIPE, "stderr": subprocess.STDOUT, "errors": "replace"}
    return subprocess.run(words, cwd=folder, stdin=subprocess.DEVNULL, **how)


def told(what, counts, began, said):
    """Tells how something ended, shows what was said of it where it failed, and returns the counts."""
    text = said.rstrip() + "\n" if counts.failed and said.strip() else ""
    print(text, end="")
    tell(f"{what}: {counts} in {time.monotonic() - began:.0f} s")
    return counts


def counted(text, status):
    """Returns what the last line of a command's output counts; one failure where it ended otherwise."""
    last = text.rstrip().rpartition("\n")[2]
    found = re.search(r"(\d+) passed, (\d+) failed(?:, (\d+) skipped)?", last)
    counts = Counts(*(int(it or 0) for it in found.groups())) if found else Counts(0, 1)
    return counts._replace(failed=max(counts.failed, int(status != 0)))


def tried(folder, *flags, given=b"", arguments=()):
    """Builds a crate without a proof and runs it, as `rt try` does without the check that looks for what only a check refuses.

    Returns how it ended. Arguments that name files of the crate lie where it runs."""
    crate = RTLIB.Crate(str(folder), str(folder.parent.parent), {})
    options = ["--steps", RTLIB.STEPS, "--seconds", str(SECONDS)]
    for it in arguments:
        options += ["--arg", it, *(["--data", f"{it}={it}"] if (folder / it).is_file() else [])]
    root = "src/main.rt" if crate.is_program else "src/lib.rt"
    with tempfile.TemporaryDirectory() as room:
        pathlib.Path(room, "stdin").write_bytes(given)
        options += ["--stdin", f"{room}/stdin"]
        words = unproved.trial(crate, RTLIB, f"{RTLIB.KIT}/toolchain", options, *flags, root)
        ran = subprocess.run(words, cwd=folder, capture_output=True, env={**os.environ, "TMPDIR": room})
    status = re.search(rb"^run=ended status=(\d+) ", ran.stderr, re.M)
    return Ended(ran.stdout, ran.stderr, int(status[1]) if status and not ran.returncode else 2)


def cases(folder, inputs, flags=()):
    """Runs the program of a crate, built without a proof, on each input with its arguments, by names.

    Returns how each ended; what has no answer is left out, and what `rt` said stands under None."""
    with tempfile.TemporaryDirectory() as room:
        for name, (given, words) in inputs.items():
            pathlib.Path(room, name).write_bytes(given)
            arguments = b"".join(word + b"\n" for word in words)
            pathlib.Path(room, f"{name}.args").write_bytes(arguments)
        command = ["rt", "try", "--steps", "1", "--cases", room, *flags]
        ran = subprocess.run(command, cwd=folder, capture_output=True)
    found = {None: Ended(ran.stdout, ran.stderr, ran.returncode)}
    parts = re.split(rb"^== (\S+)\n", ran.stdout, flags=re.M)[1:]
    written, errors = dict(zip(parts[::2], parts[1::2])), b""
    for line in ran.stderr.splitlines(keepends=True):
        if line.startswith(b"case="):
            fields = dict(word.split(b"=", 1) for word in line.split())
            out = written.get(fields[b"case"], b"")
            found[fields[b"case"].decode()] = Ended(out, errors, int(fields.get(b"status", -1)))
            errors = b""
        elif not line.startswith((b"allocations: ", b"interpreter: ", b"checked: ")):
            errors += line
    return found
