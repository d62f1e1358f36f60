"""Files that the heads of files and the pages name, and that do not exist: python3 -m tools.heads

A head is the comment at the beginning of a crate's root. It names files from the crate's folder or from `crates/`.
"""

import itertools
import re
import sys

from tools.repository import CRATES, TOP, Counts, crates

# A path in a text, as `src/map.rt` or `{range_runs/src/window,range_edit/src/{reach,borders}}.rt`.
PATH = re.compile(r"`([\w./+{},-]+/[\w./+{},-]*\.(?:rt|antt|py|md|edit|txt)|[\w{},-]+\.(?:rt|antt))`")


def spread(path):
    """Returns the paths that one with braces stands for."""
    found = re.search(r"\{([^{}]*)\}", path)
    if not found:
        return [path]
    parts = [path[: found.start()] + it + path[found.end() :] for it in found[1].split(",")]
    return [*itertools.chain.from_iterable(spread(it) for it in parts)]


def exists(path, folders):
    return any((folder / path).exists() for folder in folders)


def named(text):
    return [it for path in PATH.findall(text) for it in spread(path)]


def missing():
    """Returns what names a file that does not exist, and that file."""
    found = []
    for crate in (it for it in crates().values() if it.is_proved):
        root = next(crate.folder / "src" / it for it in ("lib.rt", "main.rt") if (crate.folder / "src" / it).exists())
        head = "".join(it for it in root.read_text().splitlines(keepends=True) if it.startswith("//!"))
        folders = [crate.folder, CRATES, TOP, *(crate.folder / it for it in ("src", "specs", "proofs"))]
        found += [(root.relative_to(TOP), it) for it in named(head) if not exists(it, folders)]
    for page in [TOP / "README.md", *sorted((TOP / "docs").glob("*.md"))]:
        # A path on a page begins at the top, in a crate, or in a folder of the crate that the sentence is about.
        whole = [it for it in named(page.read_text()) if exists(it.partition("/")[0], [TOP, CRATES]) and "CRATE" not in it]
        found += [(page.relative_to(TOP), it) for it in whole if not exists(it, [TOP, CRATES])]
    return found


def main():
    found = missing()
    for place, path in found:
        print(f"{place}: there is no {path}")
    print(Counts(int(not found), len(found)))
    return int(bool(found))


if __name__ == "__main__":
    sys.exit(main())
