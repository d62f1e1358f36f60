"""Compares what the public functions of two copies of this repository promise.

    python3 -m tools.clauses OLD NEW

Of each public function of each proved crate: its signature, its clauses and the
text of each definition that they cite, and that these cite in turn. Prints the difference; where
definitions stand makes none. The exit status is 1 where there is one.
"""

import difflib
import pathlib
import re
import sys

from tools.repository import Crate, listed
from tools.source import HEAD, IMPL, definitions_of, heading, imported, text_from


def crates_of(top):
    """Returns the proved crates of a copy by their names, each with its folder there."""
    found, named = {}, listed(top / "crates.txt")
    for name, others in named.items():
        found[name] = Crate(name, [it for it in others if it in named], True)
        found[name].folder = top / "crates" / name
    return found


def all_imported(text):
    """Returns the crate and the file of each name that a file imports from `specs`, wherever it does."""
    named = (it.strip() for it in text.replace("ghost use", "use").split("\n"))
    return imported("\n".join(named).replace("pub use", "use"))


def cited(text, imports, here, known, passed_on):
    """Returns the definitions that a text names: those that it imports, and those of its own file."""
    found = set()
    for word in {*re.findall(r"[^\s(){}\[\],;.:]+", text)}:
        place = imports.get(word, here)
        while (*place, word) not in known and (*place, word) in passed_on:
            place = passed_on[(*place, word)]
        found.update([(*place, word)] if (*place, word) in known else [])
    return found


def functions_of(crate):
    """Gives each public function of a crate: what names it, its signature with clauses, its file's imports."""
    for path in sorted((crate.folder / "src").rglob("*.rt")):
        text = path.read_text()
        lines, owner, is_trait = text.split("\n"), "", False
        for at, line in enumerate(lines):
            if IMPL.match(line.removeprefix("pub ")):
                owner = heading([it.removeprefix("pub ") for it in lines[at : at + 12]])
                is_trait = "trait " in line or " for " in owner
            elif line.startswith("}"):
                owner, is_trait = "", False
            head = HEAD.match(line)
            if head and head[3] == "fn" and (head[2] or head[1] and is_trait):
                title = f"{crate.name} {owner if head[1] else ''} {head[4]}"
                yield title, text_from(lines, at, head[1]), all_imported(text)


def promises(top):
    """Returns the lines of what the public functions of a copy promise, then of what those cite."""
    every, known, passed_on = crates_of(top), {}, {}
    for name, crate in every.items():
        for (file, word), (_, text, _) in definitions_of(crate).items():
            known[name, file, word] = text
        for path in (crate.folder / "specs").rglob("*.antt"):
            file = str(path.relative_to(crate.folder / "specs").with_suffix(""))
            for word, place in all_imported(path.read_text()).items():
                passed_on[name, file, word] = place
    lines, wanted = [], set()
    for name in sorted(every):
        for title, text, imports in functions_of(every[name]):
            lines += ["", f"== {title}", *text.split("\n")]
            wanted |= cited(text, imports, ("", ""), known, passed_on)
    closed = set()
    while wanted:
        place = wanted.pop()
        closed.add(place)
        imports = {word: to for (crate, file, word), to in passed_on.items() if (crate, file) == place[:2]}
        wanted |= cited(known[place], imports, place[:2], known, passed_on) - closed
    for word, text in sorted({(place[2], known[place]) for place in closed}):
        lines += ["", f"-- {word}", *text.split("\n")]
    return lines


if __name__ == "__main__":
    old, new = (promises(pathlib.Path(it).resolve()) for it in sys.argv[1:])
    changes = [*difflib.unified_diff(old, new, *sys.argv[1:], lineterm="")]
    print(*changes, f"{len(old)} lines before, {len(new)} after", sep="\n")
    sys.exit(bool(changes))
