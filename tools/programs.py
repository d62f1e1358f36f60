"""Programs of this repository that are built without a proof, and kept under a sum of what they are built from."""

import hashlib
import pathlib
import shutil
import sys
import tempfile

from bindings import unproved
from tools import kept
from tools.repository import RTLIB, TOP, below, crates


def sum_of(crate, level):
    """Returns a sum of all that the program is built from: sources, the lists of the crates, the kit, and how it is built."""
    every, made = crates(), hashlib.sha256(level.encode())
    made.update(pathlib.Path(RTLIB.KIT, "KIT-ID").read_bytes() + pathlib.Path(unproved.__file__).read_bytes())
    for name in sorted(below(every, crate.name)):
        made.update(f"{name}: {every[name].named}\0".encode())
        for path in sorted(every[name].folder.glob("src/**/*.rt")):
            made.update(f"{path.relative_to(TOP)}\0".encode() + path.read_bytes())
    return made.hexdigest()


def built(name, level, say):
    """Returns the path of the program of this name, built without a proof at this level of clang, as -O0.

    It is built only where something that it is built from changed, and `say` is called before."""
    crate = crates()[name]
    folder = crate.folder / "out" / f"unproved{level}"
    program, noted, now = folder / name, folder / "sum", sum_of(crate, level)
    if not (program.exists() and noted.exists() and noted.read_text() == now):
        say()
        shutil.rmtree(folder, ignore_errors=True)
        folder.mkdir(parents=True)
        with tempfile.TemporaryDirectory() as room:
            unproved.build_program(pathlib.Path(room), crate.folder, folder, [level], RTLIB)
        noted.write_text(now)
    return program


def proved(name, say):
    """Returns the path of the proved program of this name. What no gate on this machine proved yet is proved first."""
    from tools import gate

    program = crates()[name].folder / "out" / "proved" / name
    program.parent.mkdir(parents=True, exist_ok=True)
    if not kept.program(name, program):
        say()
        if gate.proofs([name]).failed or not kept.program(name, program):
            sys.exit(f"{name}: is not proved")
    return program
