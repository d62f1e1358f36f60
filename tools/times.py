"""How long crates take to be proved: processor seconds from nothing, over what lies below."""

import pathlib
import re
import resource
import shutil
import tempfile

from tools.repository import CRATES, PROVED, TOP, Counts, listed, run


def spent():
    used = resource.getrusage(resource.RUSAGE_CHILDREN)
    return used.ru_utime + used.ru_stime


def proved_anew(name):
    """Returns what a check says of a copy of the crate under another name: what `rt` kept is kept by the name."""
    anew = f"{name}_anew"
    with tempfile.TemporaryDirectory() as room:
        top = pathlib.Path(room)
        left_out = shutil.ignore_patterns("incremental", "must-fail", "mutants")
        shutil.copytree(CRATES, top / "crates", ignore=left_out)
        folder = top / "crates" / anew
        shutil.copytree(top / "crates" / name, folder, ignore=shutil.ignore_patterns("out"))
        for path in [*folder.rglob("*.rt"), *folder.rglob("*.antt")]:
            path.write_text(re.sub(rf"\bRattle\.{name}\b", f"Rattle.{anew}", path.read_text()))
        line = re.search(rf"^{name}(\b.*\n)", PROVED.read_text(), re.M)
        (top / "crates.txt").write_text(f"{PROVED.read_text()}{anew}{line[1]}")
        shutil.copy(TOP / "HANDLES", top)
        return run(["rt", "check", "--jobs", "1"], folder).stdout


def measure(names):
    """Proves each crate in a copy, one after another, by one job, and prints the seconds that it takes."""
    counts = []
    for name in names or listed(PROVED):
        began = spent()
        said = proved_anew(name)
        is_proved = "logic=proved" in said
        print(f"{name}: {spent() - began:.0f} s{'' if is_proved else ', NOT PROVED'}", flush=True)
        counts.append(Counts(int(is_proved), int(not is_proved)))
    return counts
