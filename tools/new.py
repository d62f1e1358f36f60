"""A new workspace with the library and a first crate, which has a contract and a test."""

import pathlib
import re
import shutil
import sys

from tools.repository import CRATES, RTLIB, TOP, below, crates, listed, run, tell

# What a workspace has of this repository, each with all that it stands on.
LIBRARY = "btree_range_map"
MORE = ("lexing_patterns", "address_sets")


def refuse(why):
    print(f"./check new: {why}", file=sys.stderr)
    sys.exit(2)


def parts_of(words):
    """Returns the further crates that the words `--with CRATE ..` ask for."""
    found = []
    for at, word in enumerate(words):
        if at % 2 == 0 and word != "--with" or at % 2 and word not in MORE or len(words) % 2:
            refuse(f"after the name come '--with {MORE[0]}' or '--with {MORE[1]}'")
        found += [word] * (at % 2)
    return found


def check_name(name, libraries):
    """Ends with what is wrong with the name, if anything is."""
    if not re.fullmatch(r"[a-z][a-z0-9_]*", name):
        refuse(f"'{name}' is no name of a crate, which has lowercase letters, digits and _")
    kit = {it.stem for it in pathlib.Path(RTLIB.KIT, "rlibs").glob("*.rlib")}
    if name in libraries or name in kit:
        refuse(f"'{name}' is the name of a crate of the {'library' if name in libraries else 'kit'}")


def copy(folder, name, more):
    """Copies the library to the folder, and writes the first crate beside it. Returns the crates of the library."""
    every = crates()
    libraries = [it for it in every if any(it in below(every, top) for top in (LIBRARY, *more))]
    check_name(name, libraries)
    if folder.exists() and (not folder.is_dir() or any(folder.iterdir())):
        refuse(f"'{folder}' is not empty")
    source = folder / "crates" / name / "src"
    source.mkdir(parents=True)
    for library in libraries:
        left_out = shutil.ignore_patterns("out", "must-fail", "mutants")
        shutil.copytree(CRATES / library, folder / "crates" / library, symlinks=True, ignore=left_out)
    named = [f"{it}: {' '.join(words)}".rstrip() for it, words in listed(TOP / "crates.txt").items() if it in libraries]
    (folder / "crates.txt").write_text("\n".join([*named, " ".join([f"{name}: {LIBRARY}", *more]), ""]))
    for file in ("HANDLES", "LICENSE"):
        shutil.copy(TOP / file, folder)
    (folder / ".gitignore").write_text("out/\n")
    shutil.copy(TOP / "tools" / "first_crate.rt.txt", source / "lib.rt")
    return libraries


def prove_library():
    """Proves the library, its lexers and its sets of addresses, as the gate does it, and tells of each crate that is proved."""
    from tools import gate

    every = crates()
    names = {it for it in every if any(it in below(every, top) for top in (LIBRARY, *MORE))}
    tell(f"{len(names)} crates, {gate.lanes()} checks at a time")
    return [gate.proofs([LIBRARY, *MORE], of=len(names))]


def make(folder, name, words=()):
    """Makes it, over the library as the gate proved it on this machine, if it did."""
    libraries = copy(folder, name, parts_of(words))
    ended = run([sys.executable, "-m", "tools.kept", folder.resolve(), *libraries])
    lacking = ended.stdout.split() if not ended.returncode else libraries
    print(f"{folder}/crates/{name} is your crate. In its folder:")
    print("  rt try --test   builds it and runs its test without a proof, in about half a minute")
    if lacking:
        print(f"  rt check        proves it, and once before that {len(lacking)} of {len(libraries)} crates of the library: up to half an hour.")
        print("                  './check library' in this checkout proves them once for each workspace on this machine")
    else:
        print("  rt check        proves it, over the library as it was proved on this machine")
