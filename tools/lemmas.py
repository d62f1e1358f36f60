"""Lemmas and definitions that nothing needs: python3 -m tools.lemmas

What needs others is the code, the proofs of functions, and the definitions that specs/ makes public by `abbrev`, `record` or `data`; also what the
root offers to users, and what pages and tests name. A lemma is told that none of these cites, nor a lemma that one of them needs.
"""

import collections
import pathlib
import re
import sys

from tools.repository import TOP, Counts, listed

USE = re.compile(r"^ *(?:ghost |pub )*use Rattle\.(\w+)\.((?:specs|proofs)\.(?:[\w+]+\.)*[\w+]+)(?:\.\{([^}]*)\}| as (\w+))?", re.M)
MODULE = re.compile(r"^ *module\b.*?\bwhere *$", re.M | re.S)
# Where the root states what it offers to users.
OFFERED = ("btree_range_map", "specs/")
HEAD = re.compile(r" *((?:(?:pub|unfoldable|abbrev|record|data|mutual)\s+)*)([^\s:(){}]+)")
COMMENT = re.compile(r"^\s*(--|//).*$", re.M)


class File:
    """A file of specs or proofs, or of code: what it imports, and the blocks of text in it by the names that they declare."""

    def __init__(self, text):
        text = COMMENT.sub("", text)
        self.places, self.whole, self.blocks = collections.defaultdict(set), set(), collections.defaultdict(str)
        for crate, path, names, alias in USE.findall(text):
            file = crate, path.replace(".", "/")
            if names:
                for name in names.split(","):
                    name, _, other = name.strip().partition(" as ")
                    self.places[other or name].add((*file, name))
            else:
                self.whole.add(file)
        text = USE.sub("", text)
        self.loose = " ".join(MODULE.findall(text))
        text, inside, name = re.sub(r"^ *(pub )?(use|mod|open) .*$", "", text, flags=re.M), -1, ""
        for block in filter(str.strip, re.split(r"\n\s*\n", MODULE.sub("", text))):
            block = block.strip("\n")
            indent, head = len(block) - len(block.lstrip()), HEAD.match(block)
            # Fields and constructors may stand apart in a record or a data type. They say what they are, and equal nothing.
            if not 0 <= inside < indent or re.search(r" =$| = ", block):
                inside, name = indent if re.search(r"\bwhere$", block, re.M) else -1, head[2] if head else ""
            self.blocks[name] += f"{block}\n"

    def look_up(self, homes):
        """Has what a crate's Lib passes on, by `pub use Rattle.CRATE.proofs.NAME`, stand for the file itself."""
        self.whole = {homes.get(it, it) for it in self.whole}
        for name, ways in self.places.items():
            self.places[name] = {(*homes.get((crate, path), (crate, path)), other) for crate, path, other in ways}


def files_of(top):
    """Returns the files of all proved crates of a copy by their crates and paths, those of code under `src`."""
    found = {}
    for name in listed(top / "crates.txt"):
        folder = top / "crates" / name
        for part, suffix in (("specs", ".antt"), ("proofs", ".antt"), ("src", ".rt")):
            for path in sorted((folder / part).rglob(f"*{suffix}")):
                found[name, str(path.relative_to(folder).with_suffix(""))] = path.read_text()
    files = {key: File(text) for key, text in found.items()}
    homes = {
        (crate, f"{part}/{pathlib.PurePath(way[1]).name}"): way
        for (crate, path), file in files.items()
        for part in ("specs", "proofs")
        if path == f"{part}/Lib"
        for way in file.whole & files.keys()
    }
    for file in files.values():
        file.look_up(homes)
    return files


def words_of(text):
    return {*re.findall(r"[^\s(){}\[\],;.:]+", text)}


def cited(files, key, text):
    """Returns the blocks that a text of a file names: of the file itself, and of those that it imports."""
    file, found = files[key], set()
    for word in words_of(text):
        ways, seen = {*file.places.get(word, ()), *((*it, word) for it in {*file.whole, key})}, set()
        while ways:
            way = ways.pop()
            seen.add(way)
            there = files.get(way[:2])
            if there:
                found.update([way] if way[2] in there.blocks else [])
                ways |= there.places.get(way[2], set()) - seen
    return found


def is_root(key, block):
    """Returns whether a block is needed for its own sake: code, the proof of a function or of a law, a public definition."""
    _, path = key
    if path.startswith("src/"):
        return True
    if path.startswith("proofs/"):
        file = pathlib.PurePath(path)
        return file.name in ("Answers", "Invariants", "Proof") or file.parent.name == "TheSendSync"
    return bool(re.match(r" *(pub |unfoldable )*(abbrev|record|data|unfoldable)\b.*", block.strip("\n")))


def told(top):
    """Returns the words of the pages and of what is run: users are told of lemmas there."""
    paths = [*top.glob("*.md"), *top.glob("docs/*.md"), *top.glob("tests/**/*.rt.txt")]
    return {word for path in paths for word in re.findall(r"[^\s`(){}\[\],;.:]+", path.read_text())}


def uncited(top):
    """Returns the lemmas that nothing needs, as the path of a file and a name."""
    files, known = files_of(top), told(top)
    todo = {(*key, name) for key, it in files.items() for name, block in it.blocks.items() if is_root(key, block)}
    todo |= {way for key, it in files.items() for way in cited(files, key, it.loose)}
    todo |= {(*key, name) for key, it in files.items() for name in it.blocks if name in known and key[1].startswith("specs/")}
    offering = {key: it for key, it in files.items() if key[0] == OFFERED[0] and key[1].startswith(OFFERED[1])}
    offering |= {key: files[key] for it in offering.values() for key in it.whole & files.keys()}
    todo |= {(*key, name) for key, it in offering.items() for name, block in it.blocks.items() if re.search(r"^ *pub\b", block, re.M)}
    todo |= {way for key, it in offering.items() for way in cited(files, key, " ".join(it.places))}
    needed = set()
    while todo:
        way = todo.pop()
        needed.add(way)
        todo |= cited(files, way[:2], files[way[:2]].blocks[way[2]]) - needed
    every = {(*key, name) for key, it in files.items() if not key[1].startswith("src/") for name in filter(None, it.blocks)}
    return sorted((f"crates/{crate}/{path}.antt", name) for crate, path, name in every - needed)


def main():
    found = uncited(TOP)
    for path, name in found:
        print(f"{path}: nothing cites {name}")
    print(Counts(int(not found), len(found)))
    return int(bool(found))


if __name__ == "__main__":
    sys.exit(main())
