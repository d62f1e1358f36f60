"""The gate, the same work for some crates, and all tests without a proof."""

import concurrent.futures
import hashlib
import os
import pathlib
import re
import shutil
import subprocess
import sys
import tempfile
import time

from tools import conversations, examples, faults, kept, library, mutants, programs
from tools.repository import PROCESSORS, PROVED, TOP, Counts, Crate, below, counted, crates, lanes, listed, run, task, tell, told, tried, watched

RESULT = re.compile(r"^test result: .*?(\d+) passed; (\d+) failed", re.M)
# A line of `rt ci` on a crate of which a proof is kept.
KEPT = re.compile(r"rt: (\w+) (?:proved$|is kept)")
# So much runs beside the proofs, on processors that they leave idle: it gives way to all else.
BESIDE, LEAST = 2, 19
# Its rules of C take a fifth of a second to read, and more than a minute with checks of memory.
SLOW_UNDER_CHECKS = {"tokens"}
# Crates of tests over the same libraries. The gate builds those of a line as one crate, so that the libraries are read once.
ALIKE = {
    "map_and_key_tests": ("map_tests", "odd_key_tests", "store_tests"),
    "set_and_json_tests": ("set_tests", "multimap_tests", "json_tests"),
    "page_tests": ("example_tests", examples.CRATE),
    "lexer_tests": ("lexing_tests", "pattern_tests"),
}


def proofs(names, told_kept=lambda _: None, of=None):
    """Runs `rt ci`, of the crates that are named or of all, and tells all lines but those of what is proved.

    It calls `told_kept` with the name of each crate as soon as a proof of it is kept, and counts them, of so many."""
    of = of or len(listed(PROVED))
    environment = {"RT_JOBS": str(lanes()), **os.environ, "PYTHONUNBUFFERED": "1"}
    how = {"stdout": subprocess.PIPE, "stderr": subprocess.STDOUT, "errors": "replace", "env": environment}
    line, number = "", 0
    with kept.part(names) as (top, given), task("proofs") as under_way:
        whole = subprocess.Popen(["rt", "ci", *given], cwd=top, **how)
        for line in map(str.rstrip, whole.stdout):
            if not line.endswith(": proved") and not line.startswith("statements "):
                tell(line)
            found = KEPT.match(line)
            if found:
                number += 1
                under_way.what = f"proofs, crate {number + 1} of {of}"
                told_kept(found[1])
        counts = counted(line, whole.wait())
        if not counts.failed:
            kept.note(top)
        return counts


def gate():
    """Does the whole of it: what can be seen at once comes first, and what needs no proof runs beside the proofs."""
    fresh = [examples.compared(), *looked_over(), *fresh_mutants()]
    if any(it.failed for it in fresh):
        return fresh
    with watched(), examples.workspace() as room, beside(BESIDE, LEAST) as pool, beside(1, LEAST) as lane:
        joined = {faults.CRATE}.union(*ALIKE.values())
        alone = [it for it in crates().values() if not it.is_proved and it.name not in joined]
        runs = [pool.submit(faults.refuse, players=())]
        runs += [pool.submit(tests, it, room) for it in [*(as_one(*it, room) for it in ALIKE.items()), *alone]]
        languages = []

        def run_languages(name):
            if name == library.NAME and not languages:
                languages.append(lane.submit(bindings))

        proved = proofs([], run_languages if kept.keeps_apart() else lambda _: None)
        if not proved.failed:
            run_languages(library.NAME)
        over = [] if proved.failed else [*over_proved(), users_crate()]
        refused, *ended = [it.result() for it in [*runs, *languages]]
    return [*fresh, proved, *over, *refused, *ended]


def as_one(name, parts, room):
    """Makes one crate of several in a workspace, each of which is a module of it, and returns it."""
    one, lists = room / name / "src", listed(room.parent / "crates.txt")
    for part in parts:
        source = room / part / "src"
        for path in source.rglob("*.rt"):
            inside = path.relative_to(source)
            target = one / (f"{part}.rt" if inside.name == "lib.rt" else part / inside)
            target.parent.mkdir(parents=True, exist_ok=True)
            text = path.read_text().replace(f"Rattle.{part}.specs.declared.", f"Rattle.{name}.specs.declared.{part}.")
            target.write_text(re.sub(r"\bcrate::", f"crate::{part}::", text))
    (one / "lib.rt").write_text("".join(f"mod {part};\n" for part in parts))
    used = sorted({it for part in parts for it in lists[part]})
    with (room.parent / "crates.txt").open("a") as file:
        file.write(f"{name}: {' '.join(used)}\n")
    return Crate(name, used, False, room / name)


def over_proved():
    """Runs the programs that were proved."""
    programs = [it.folder for it in crates().values() if it.is_proved and it.has_conversations]
    with beside(PROCESSORS) as pool:
        refused = pool.submit(faults.refuse_proved)
        runs = [pool.submit(conversations.count, it, conversations.play_built) for it in programs]
        runs.append(pool.submit(counting, "random conversations", ["crates/rangecalc/fuzz", "--conversations", "1000"]))
        runs.append(pool.submit(counting, "random lists", ["crates/cidr/fuzz", "--lists", "300"]))
        runs.append(pool.submit(counting, "tables by cc and rustc", ["crates/tokens/peers/tables.py", "crates/tokens/out/tokens", "--few"]))
        runs.append(pool.submit(counting, "random tables", ["crates/cidr/fuzz-tables", "--tables", "100"]))
        return [*refused.result(), *[it.result() for it in runs]]


def users_crate():
    """Installs the programs and makes a workspace as a user would, and checks and tries its crate over what was proved.

    The crates of this checkout are given what was proved too, so that a check after an edit proves the edited crate alone."""
    began = time.monotonic()
    run([sys.executable, "-m", "tools.kept", TOP, *(it.name for it in crates().values() if it.is_proved)])
    with task("a user's workspace"), tempfile.TemporaryDirectory() as room:
        installed = run([TOP / "check", "install", f"{room}/prefix", "--proved"])
        made = run([TOP / "check", "new", f"{room}/workspace", "ports"])
        folder = pathlib.Path(room, "workspace/crates/ports")
        checked, ended = run(["rt", "check", "--jobs", "1"], folder), tried(folder, "--test")
    is_quick = "over the library as it was proved" in made.stdout
    is_tested = not ended.status and b"1 passed; 0 failed" in ended.out + ended.errors
    passed = sum([not installed.returncode, is_quick, not checked.returncode, is_tested])
    said = "\n".join([installed.stdout, made.stdout, checked.stdout[-2000:], ended.errors.decode()[-2000:]])
    return told("a user's programs and workspace", Counts(passed, 4 - passed), began, said)


def beside(number, niceness=0):
    """Returns a pool in which so many tasks run side by side. Programs that they start are as nice as they are."""
    return concurrent.futures.ThreadPoolExecutor(number, initializer=os.nice, initargs=(niceness,))


def bindings():
    """Runs the bindings and their packages over the library of what was proved, or over one that is not where no proof is kept."""
    with tempfile.TemporaryDirectory() as library:
        began, ended = time.monotonic(), run([sys.executable, "-m", "tools.library", library])
        is_kept, is_made = "run rt ci first" not in ended.stdout, not ended.returncode
        made = Counts(int(is_made), int(is_kept and not is_made), int(not is_kept))
        given = ["--library", library] if is_made else []
        told("proved library", made, began, ended.stdout)
        return made.and_more([counting("bindings: C, Rust and Python", ["./bindings/run", *given])])


def fresh_mutants():
    """Returns a failure for each crate that changed since its mutants were tried, but for those whose record says that they wait."""
    changed, waiting, never = mutants.stale()
    for name in never:
        tell(f"{name}: its mutants were not tried yet")
    for name, again in waiting.items():
        tell(f"{name}: {len(again)} of its mutants wait to be tried again: ./check mutants {name}")
    changed = {name: left for name, again in changed.items() if (left := [it for it in again if it not in waiting.get(name, [])])}
    for name, again in changed.items():
        shown = ", ".join(str(it.function) for it in again[:4]) + (", .." if len(again) > 4 else "")
        tell(f"{name}: {len(again)} of its mutants rest on what changed ({shown}): ./check mutants {name}")
    return [Counts(0, 1) for _ in changed]


def looked_over():
    """Does what reads the repository alone: the tools' own rows, files that are named and do not exist, and idle lemmas."""
    looks = {
        "which changes make records of mutants stale": "test_records",
        "files that heads and pages name": "heads",
        "lemmas that something needs": "lemmas",
    }
    return [counting(what, [sys.executable, "-m", f"tools.{module}"]) for what, module in looks.items()]


def counting(what, words):
    """Runs a command that says in its last line how much passed and failed."""
    began, ended = time.monotonic(), run(words)
    return told(what, counted(ended.stdout, ended.returncode), began, ended.stdout)


def several(names):
    """Does the gate's work for crates and those that use them."""
    every = crates()
    chosen = [it for it in every.values() if below(every, it.name) & names]
    proved = [it.name for it in chosen if it.is_proved]
    results = [proofs(proved)] if proved else []
    stale, _, _ = mutants.stale()
    results += mutants.try_all([name for name in proved if name in stale])
    unproved = [it for it in chosen if not it.is_proved or it.has_conversations]
    unproved += [it for it in chosen if it.name == examples.CRATE_ABOVE]
    return [*results, *quickly(every, unproved)]


def quick(names=()):
    """Runs tests, programs, conversations and examples with no proof, of some crates or of all."""
    every = crates()
    return quickly(every, [it for it in every.values() if not names or it.name in names])


def quickly(every, chosen):
    """Runs all that can be run of the crates, side by side, those first that use most others."""
    kit, tasks = run(["rt", "version"]).stdout.encode(), []
    for crate in sorted(chosen, key=lambda it: -len(below(every, it.name))):
        digest = hashlib.sha256(kit)
        for part in sorted(below(every, crate.name)):
            for path in every[part].files():
                digest.update(f"{path.relative_to(TOP)}\0".encode() + path.read_bytes())
        digest.update(examples.read_by(crate))
        tasks += [(crate, call, digest.hexdigest()) for call in calls(crate)]
    tell(f"{len(tasks)} tasks, {PROCESSORS} at a time, each built without a proof")
    with watched(), examples.workspace() as room, concurrent.futures.ThreadPoolExecutor(PROCESSORS) as pool:
        ended = [*pool.map(lambda it: unless_passed(*it, room), tasks)]
    return [*ended, examples.compared(), *looked_over()]


def calls(crate):
    """Returns what can be run of a crate without a proof."""
    found = [tests] if crate.has_tests else []
    found += [program] if crate.is_program else []
    found += [talks] if crate.has_conversations else []
    return found + ([doc_examples] if crate.name == examples.CRATE_ABOVE else [])


def unless_passed(crate, call, digest, room):
    """Runs a task, unless it passed before on the same files."""
    passed = crate.folder / "out" / f"quick-{call.__name__}"
    if passed.exists() and passed.read_text() == digest:
        return told(f"{crate.name}: {call.__name__}, as before", Counts(1), time.monotonic(), "")
    with task(f"{crate.name}: {call.__name__}"):
        counts = call(crate, room)
    if not counts.failed:
        passed.parent.mkdir(exist_ok=True)
        passed.write_text(digest)
    return counts


def tests(crate, room):
    """Runs the tests of a crate, or the program that stands in their place."""
    if crate.is_program and not crate.has_tests:
        return program(crate, room)
    began, ended = time.monotonic(), tried(room / crate.name, "--test")
    said = (ended.out + ended.errors).decode(errors="replace")
    found = RESULT.search(said)
    counts = Counts(int(found[1]), int(found[2])) if found else Counts(0, 1)
    counts = counts._replace(failed=max(counts.failed, int(ended.status != 0)))
    return told(f"{crate.name}: tests", counts, began, said)


def program(crate, room):
    """Runs a program on its files, and compares what it writes and its status.

    A program of tests/ with a folder `conversations` is given its files, one after the other."""

    def read(name):
        path = room / crate.name / name
        return path.read_bytes() if path.exists() else b""

    given = read("stdin")
    if not crate.is_proved:
        files = sorted((room / crate.name).glob("conversations/*.txt"))
        given += b"\n".join(path.read_bytes() for path in files)
    # `rt ci` runs a program in its folder `data`, this in that of the crate.
    named = read("args").decode().splitlines()
    named = [f"data/{it}" if (room / crate.name / "data" / it).is_file() else it for it in named]
    began, ended = time.monotonic(), tried(room / crate.name, given=given, arguments=named)
    is_well = ended.out == read("stdout") and ended.status == int(read("status") or 0)
    said = (ended.out + ended.errors).decode(errors="replace")
    return told(f"{crate.name}: program", Counts(int(is_well), int(not is_well)), began, said)


def talks(crate, room):
    """Plays the conversations of a program. One that is slow under checks of memory is built without them."""
    if crate.name not in SLOW_UNDER_CHECKS:
        return conversations.count(room / crate.name, conversations.play_unproved)
    program = programs.built(crate.name, "-O1", lambda: None)
    (room / crate.name / "out").mkdir(exist_ok=True)
    shutil.copy(program, room / crate.name / "out" / crate.name)
    return conversations.count(room / crate.name, conversations.play_built)


def doc_examples(_crate, room):
    return examples.run_in(room)
