"""Runs of the programs on small data, with each command beside what the program replies."""

import contextlib
import os
import pathlib
import shlex
import signal
import subprocess
import sys

from tools import programs
from tools.repository import CRATES, TOP

USAGE = """Runs a program of this repository on a sample, and shows each command beside its reply.

    ./run-sample                rangerun: a map of 32-bit integers, on the lines of its stored run
    ./run-sample FILE           the same on the lines of a file
    ./run-sample bookings       two calendars of minutes
    ./run-sample cidr           the reserved addresses of the internet as a list
    ./run-sample tokens         a calculation, a JSON text and a C program cut into tokens
    ./run-sample --proved ..    a program that is proved first, unless the gate did so on this machine

A program is built without a proof, and kept until its sources change."""

# The lines that a program answers, or the commands that are run, with the folder in which they are.
LINES = {"rangerun": ("rangerun i32", CRATES / "rangerun/stdin"), "bookings": ("bookings", CRATES / "bookings/stdin")}
COMMANDS = {
    "cidr": (
        CRATES / "cidr/data",
        "cidr merge reserved",
        "cidr count reserved",
        "cidr has reserved 10.1.2.3 8.8.8.8",
        "cidr invert --v4 reserved",
    ),
    "tokens": (
        CRATES / "tokens/data",
        "tokens calculator sum.txt",
        "tokens json port.json",
        f"tokens c {TOP / 'bindings/c/demo.c'}",
    ),
}
# More lines than these are answered without showing the lines: each reply is found by a run of its own.
MOST_LINES, MOST_SHOWN = 200, 12


def answer(program, words, text, folder):
    ran = subprocess.run([program, *words], input=text, capture_output=True, cwd=folder)
    return ran.stdout + ran.stderr, ran.returncode


def talk(program, words, path):
    """Shows each line of a file beside the reply to it: what one run writes more than a run without that line."""
    lines = path.read_bytes().splitlines(keepends=True)
    if len(lines) > MOST_LINES:
        out, status = answer(program, words, b"".join(lines), None)
        sys.stdout.buffer.write(out)
        return status
    before, status = b"", 0
    for number, line in enumerate(lines, 1):
        out, status = answer(program, words, b"".join(lines[:number]), None)
        print("> " + line.decode(errors="replace").rstrip("\r\n"), flush=True)
        sys.stdout.buffer.write(out[len(before) :])
        sys.stdout.buffer.flush()
        before = out
    return status


def show(program, words, folder):
    """Runs a command and shows the first lines of what it writes."""
    out, status = answer(program, words, b"", folder)
    lines = out.splitlines(keepends=True)
    sys.stdout.buffer.write(b"".join(lines[:MOST_SHOWN]))
    if len(lines) > MOST_SHOWN:
        print(f".. and {len(lines) - MOST_SHOWN} lines more")
    sys.stdout.buffer.flush()
    return status


def sample(name, path, is_proved):
    """Builds a program and shows its sample. Returns the exit status of the last command."""

    def say():
        how = "proving what no gate has proved here yet: up to an hour" if is_proved else "building it without a proof, once"
        print(f"{name}: {how}", file=sys.stderr, flush=True)

    program = programs.proved(name, say) if is_proved else programs.built(name, "-O0", say)
    if name in LINES:
        line, stored = LINES[name]
        print(f"$ {line} <{path or os.path.relpath(stored)}", flush=True)
        return talk(program, shlex.split(line)[1:], path or stored)
    folder, *lines = COMMANDS[name]
    for line in lines:
        words = shlex.split(line)
        print("$ " + " ".join(os.path.basename(it) for it in words), flush=True)
        status = show(program, words[1:], folder)
    return status


def end(number, _):
    """Ends by a signal, once what was begun is taken back."""
    sys.exit(128 + number)


def ending_with_it(words):
    """Runs this module on the words, in a group of processes that ends with this one, also by a signal."""
    for it in (signal.SIGTERM, signal.SIGHUP, signal.SIGINT):
        signal.signal(it, end)
    worker = subprocess.Popen([sys.executable, "-m", "tools.samples", *words], cwd=TOP, preexec_fn=os.setpgrp)
    try:
        return worker.wait()
    finally:
        with contextlib.suppress(ProcessLookupError):
            os.killpg(worker.pid, signal.SIGTERM)


def asked(words):
    """Returns the words for the worker: whether the program is proved, its sample, and the path of the lines, or None."""
    how = "proved" if words[:1] == ["--proved"] else "unproved"
    name, *more = words[how == "proved" :] or ["rangerun"]
    if more or name.startswith("-"):
        return None
    if name in {*LINES, *COMMANDS}:
        return [how, name]
    return [how, "rangerun", os.path.realpath(name)]


def main(words):
    """Does what the words of the command line ask for."""
    if words in (["--help"], ["-h"]):
        print(USAGE)
        return 0
    given = asked(words)
    if given and all(map(os.path.isfile, given[2:])):
        return ending_with_it(given)
    wrong = f"run-sample: there is no sample or file '{words[-1]}'\n\n" if given else ""
    print(wrong + USAGE, file=sys.stderr)
    return 2


if __name__ == "__main__":
    signal.signal(signal.SIGTERM, end)
    how, name, *path = sys.argv[1:]
    try:
        sys.exit(sample(name, pathlib.Path(path[0]) if path else None, how == "proved"))
    except BrokenPipeError:
        # Whoever reads has enough.
        os.dup2(os.open(os.devnull, os.O_WRONLY), sys.stdout.fileno())
