"""The programs under a prefix, with what belongs to them: man pages, completions for bash, and rules of `tokens`.

    PREFIX/bin                                    cidr, tokens, rangerun, rangecalc
    PREFIX/share/man/man1                         a page of each
    PREFIX/share/bash-completion/completions      what bash completes of each
    PREFIX/share/btree_range_map/tokens           files of rules
"""

import concurrent.futures
import os
import shutil

from tools import programs
from tools.repository import CRATES, PROCESSORS, TOP, Counts, tell

PROGRAMS = ("cidr", "tokens", "rangerun", "rangecalc")
SHARE = "share/btree_range_map"


def put(source, target):
    """Copies a file, if it is there, to where others may read it."""
    if source.exists():
        target.parent.mkdir(parents=True, exist_ok=True)
        # A program that runs is not written over, but replaced.
        shutil.copy2(source, f"{target}.new")
        os.chmod(f"{target}.new", 0o755 if os.access(source, os.X_OK) else 0o644)
        os.replace(f"{target}.new", target)


def program(name, is_proved):
    """Returns the path of the program of this name, once it is built."""
    if is_proved:
        return programs.proved(name, lambda: tell(f"{name}: proving what no gate has proved here yet: up to an hour"))
    return programs.built(name, "-O3", lambda: tell(f"{name}: building it without a proof: a minute or two"))


def install(prefix, is_proved):
    """Puts all there. Returns how many programs were. They are built side by side, and proved one after the other."""
    prefix = prefix.resolve()
    with concurrent.futures.ThreadPoolExecutor(PROCESSORS) as pool:
        every = map if is_proved else pool.map
        for name, made in zip(PROGRAMS, every(lambda it: program(it, is_proved), PROGRAMS)):
            put(made, prefix / "bin" / name)
            for page in sorted((CRATES / name).glob("*.1")):
                put(page, prefix / "share/man/man1" / page.name)
            put(CRATES / name / f"{name}.bash", prefix / "share/bash-completion/completions" / name)
            tell(f"{prefix}/bin/{name}")
    for rules in sorted((CRATES / "tokens/data").iterdir()):
        if not rules.suffix:
            put(rules, prefix / SHARE / "tokens" / rules.name)
    put(TOP / "LICENSE", prefix / SHARE / "LICENSE")
    return [Counts(len(PROGRAMS))]
