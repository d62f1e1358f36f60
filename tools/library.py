"""The static library for C, Rust and Python, of the code that `rt ci` proved: python3 -m tools.library FOLDER

`rt ci` keeps the libraries that it proved, and makes no archive. So this builds the last crate over those of the crates below,
which proves its functions once more. Where one of them is not kept, it says so.
"""

import pathlib
import shutil
import sys

from tools import kept
from tools.repository import PROCESSORS, run

NAME = "btree_range_map_c"


def build(out):
    """Writes libNAME.a into the folder `out`. Returns why not, or nothing."""
    rt = kept.toolchain()
    rt.Crate.cuts_libraries = True
    with kept.taken() as (crates, lacking):
        crate = crates[NAME]
        needed = [it for it in lacking if it in {NAME, *(other.name for other in crate.below())}]
        if needed:
            return f"no proof of {needed[0]} is kept: run rt ci first"
        words = crate.words(["--jobs", str(PROCESSORS)], keeps=False)
        words += ["--toolchain", f"{rt.KIT}/toolchain", "--backend", "llvm", "-o", f"{out}/lib{NAME}.a"]
        ended = run([rt.rtlib.RATTLE, "build", *words], crate.folder)
    # what `rt` links beside a program: the C library's part of the allocator
    shutil.copy(f"{rt.KIT}/c/liblibc_c.a", out)
    return ended.stdout[-2000:] if ended.returncode else None


if __name__ == "__main__":
    folder = pathlib.Path(sys.argv[1]).resolve()
    folder.mkdir(parents=True, exist_ok=True)
    sys.exit(build(folder))
