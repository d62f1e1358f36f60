"""What `rt ci` proved on this machine, given to crates where they stand.

`rt check` looks for libraries in a crate's out/ alone, each with the sum of all that it was made from. `rt ci` leaves no such sums.
So a check in a checkout or a workspace would prove each crate below anew. This takes out what `rt ci` proved, and puts it
where `rt check` finds it, with the sum by which `rt check` knows it.

A kit keeps what `rt ci` proved apart, and proves crates by name. With an older one the gate notes it in out/noted of each crate.
"""

import contextlib
import functools
import importlib.machinery
import importlib.util
import os
import pathlib
import re
import shutil
import sys
import tempfile

from tools.repository import CRATES, PROVED, TOP, below, crates


@functools.cache
def toolchain():
    """Returns the kit's `rt` as a module."""
    loader = importlib.machinery.SourceFileLoader("rt", shutil.which("rt"))
    made = importlib.util.module_from_spec(importlib.util.spec_from_loader("rt", loader))
    loader.exec_module(made)
    return made


def keeps_apart():
    """Returns whether the kit keeps what `rt ci` proved, and takes the names of crates."""
    return hasattr(toolchain(), "Kept")


@contextlib.contextmanager
def part(names):
    """Gives a folder in which `rt ci` proves the crates that are named, or all, and the words that it takes there."""
    if names and not keeps_apart():
        every = crates()
        with tempfile.TemporaryDirectory() as room:
            copy(set().union(*(below(every, it) for it in names)), pathlib.Path(room))
            yield pathlib.Path(room), []
        return
    for stamp in [] if keeps_apart() else CRATES.glob("*/out/rlib/stamp"):
        # An older kit would put what a check found here back over what `rt ci` makes.
        shutil.rmtree(stamp.parent)
    yield TOP, names


def copy(names, top):
    """Makes a repository of the crates that are named, without what checks made."""
    for name in names:
        shutil.copytree(CRATES / name, top / "crates" / name, ignore=shutil.ignore_patterns("out", "mutants"))
    lines = PROVED.read_text().splitlines(keepends=True)
    (top / "crates.txt").write_text("".join(it for it in lines if re.match(r"\w*", it)[0] in names))
    shutil.copy(TOP / "HANDLES", top)
    (top / ".git").mkdir()


def crates_of(top):
    """Returns the crates of a repository as an older kit has them, each of which is summed once and not for each way down to it."""
    rt = toolchain()
    rt.rtlib.Crate = rt.Crate
    rt.Crate.stamp = functools.cache(rt.Crate.stamp)
    rt.Crate.allowed = rt.handles_of(str(top))
    return rt.rtlib.crates_below(str(top))


def made_of(crate):
    """Returns where `rt ci` leaves the library or the program that it made of a crate; of a static library it makes none."""
    out = pathlib.Path(crate.folder) / "out"
    return out / crate.name if crate.is_program else out / "rlib" / f"{crate.name}.rlib" if crate.makes_rlib() else None


def note(top):
    """Notes in this checkout all that a run of `rt ci` proved in the folder, where the kit does not keep it."""
    for crate in [] if keeps_apart() else crates_of(top):
        made, noted = made_of(crate), CRATES / crate.name / "out" / "noted"
        shutil.rmtree(noted, ignore_errors=True)
        noted.mkdir(parents=True)
        if made:
            put(made, noted / made.name)
        (noted / "sum").write_text(crate.stamp())


def put(source, target):
    """Links or copies a program, or a library with all its files."""
    target.parent.mkdir(parents=True, exist_ok=True)
    if source.is_dir():
        shutil.copytree(source, target, copy_function=link_or_copy)
    else:
        link_or_copy(source, target)


def link_or_copy(source, target):
    try:
        os.link(source, target)
    except OSError:
        shutil.copy2(source, target)


def give_noted(crate):
    """Puts what was noted of the crate as it stands into its out/. Returns whether there is any."""
    noted, made = CRATES / crate.name / "out" / "noted", made_of(crate)
    is_noted = (noted / "sum").exists() and (noted / "sum").read_text() == crate.stamp()
    if is_noted and made:
        put(noted / made.name, made)
    return is_noted


def over_noted(top):
    """Returns the crates of a copy of this repository, with what was noted of them, and the names of those that lack it."""
    copy({name for name, it in crates().items() if it.is_proved}, pathlib.Path(top))
    os.chdir(top)
    found = crates_of(top)
    return found, [it.name for it in found if not give_noted(it)]


def over_kept(top):
    """Returns the crates of a copy of this repository, with what the kit kept of them, and the names of those that lack it."""
    rt = toolchain()
    rt.copy_crates(str(TOP), top)
    os.mkdir(f"{top}/.git")
    os.chdir(top)
    rt.Crate.allowed = rt.handles_of(top)
    found = rt.crates_of(top)
    kept, lacking = rt.Kept(found), []
    for it in found:
        if not kept.give(it, False, kept.key(it)):
            lacking.append(it.name)
        kept.is_built(it)
    return found, lacking


@contextlib.contextmanager
def taken():
    """Gives the crates of a copy of this repository by their names, each with what is kept of it in its out/, and the names of
    those of which nothing is kept."""
    here = os.getcwd()
    with tempfile.TemporaryDirectory() as room:
        try:
            found, lacking = (over_kept if keeps_apart() else over_noted)(f"{room}/repository")
            yield {it.name: it for it in found}, lacking
        finally:
            os.chdir(here)


def offer(folder, names):
    """Puts the libraries of these crates, as far as they are kept, where checks in the workspace find them.

    Returns the names of those that are there then. One that a check built there is left."""
    found, folder = [], pathlib.Path(folder).resolve()
    with taken() as (every, lacking):
        for name in names:
            out = folder / "crates" / name / "out" / "rlib"
            stamp = every[name].stamp()
            is_there = (out / "stamp").exists() and (out / "stamp").read_text() == stamp
            if not is_there and name not in lacking and os.path.isdir(every[name].rlib):
                shutil.rmtree(out, ignore_errors=True)
                put(pathlib.Path(every[name].rlib), out / f"{name}.rlib")
                # A check takes a library for built where the sum stands beside it, so that is written last.
                (out / "stamp").write_text(stamp)
                is_there = True
            found += [name] * is_there
    return found


def program(name, target):
    """Puts the proved program there, if it is kept. Returns whether it is."""
    with taken() as (_, lacking):
        if name not in lacking:
            shutil.copy2(f"crates/{name}/out/{name}", target)
        return name not in lacking


if __name__ == "__main__":
    given = sys.argv[2:]
    there = offer(sys.argv[1], given)
    print(" ".join(it for it in given if it not in there))
