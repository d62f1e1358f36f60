"""Mutants: wrong bodies of functions, each seen refused at a goal of its own function.

The mutants of an edit of crates/CRATE/mutants/ are tried in one check, of the modules of their functions
alone, and those of several crates side by side. One that is not seen refused among the others is tried again
without those that were, and at last alone. A refusal is a goal that is open or false, and not an answer
which names what the mutant took away: such answers are left out then. Where each is refused stands in
crates/CRATE/mutants/refused.txt, after a sum of what that rests on (tools/records.py). Only a mutant
whose sum changed is tried again.
"""

import collections
import concurrent.futures
import contextlib
import dataclasses
import itertools
import os
import pathlib
import re
import shutil
import sys
import tempfile

from tools import kept, records
from tools.repository import CRATES, TOP, Counts, crates, lanes, run
from tools.source import Function, functions, heading

GOAL = re.compile(r"(?:note: |\./)*(src|proofs)/(\S+?)\.(?:rt|antt):(\d+):\d+: (?:error: `([^`]+)`|.*\(`([^`]+)`\))")
GONE = re.compile(r"has no field|has no `|is not in scope|was not admitted")
HEAD = "# Where ./check mutants saw each mutant refused, after a sum of what that rests on."
ENTRY = re.compile(r"  ([0-9a-f]{12}|-|\?) (.+?)(?: \(\d+\))?: (.*)")
# Stands in a record for the sum of a mutant that waits: what it rests on changed, and it is to be tried again.
WAITS = "?"
# As many crates are tried side by side as there are processors, so a check takes one.
ONE_JOB = ["--jobs", "1"]
NOT_PROVED = re.compile(r"^logic=not-proved|^only=(\d+) proved=(?!\1$)", re.M)
UNREAD = re.compile(r"\berror\[[\w-]+\]|^(\./)?src/\S+: error: [^`]", re.M)


@dataclasses.dataclass(frozen=True)
class Change:
    file: str
    old: str
    new: str
    line: int


def read_edit(crate, edit):
    """Returns the texts of the crate's files before the edit, and its changes in order."""
    texts, now, changes, path, old = {}, {}, [], "", ""
    for line in edit.read_text().splitlines():
        word, text = line[:5], line[5:]
        if word == "file:":
            path = text.strip()
            texts.setdefault(path, (crate / path).read_text())
            now.setdefault(path, texts[path])
        elif word == "old: ":
            old = text
        elif word.startswith("new:"):
            before, found, after = now[path].partition(old)
            if not found or old in after:
                sys.exit(f"{edit}: stands in {path} {now[path].count(old)} times, not once: {old}")
            now[path] = before + text + after
            changes.append(Change(path, old, text, before.count("\n") + 1))
    return texts, changes


def changed(texts, changes):
    texts = dict(texts)
    for it in changes:
        if texts[it.file].count(it.old) != 1:
            sys.exit(f"{it.file}: rests on another mutant: {it.old}")
        texts[it.file] = texts[it.file].replace(it.old, it.new)
    return texts


def linked(source, target):
    """Links what a check replaces and never changes, and copies the rest."""

    def copy(one, other):
        (os.link if one.endswith((".oantt", ".rlib")) else shutil.copy2)(one, other)

    shutil.copytree(source, target, symlinks=True, copy_function=copy)


class Checker:
    """Checks functions of a crate with other texts, over the libraries below it as `rt ci` proved them.

    It calls the kit's checker itself, since `rt check` would first sum the files of all crates below, each time. It asks for the modules
    of the functions that were turned, and what one trial checks is kept for the next."""

    def __init__(self, crate, of_kit, work):
        self.crate, self.of_kit, self.work = crate, of_kit, work
        kept_before = crate / "out" / "incremental"
        if kept_before.is_dir():
            linked(kept_before, work)
        else:
            work.mkdir()

    def check(self, texts, turned):
        """Returns what a check says of the modules of the functions, with these texts."""
        modules = {module_of(it.file) for it in turned}
        only = [] if "" in modules else [word for it in sorted(modules) for word in ("--only", it)]
        return kept.toolchain().checked(self.of_kit, texts, [*ONE_JOB, *only], str(self.work)).stdout


def module_of(file):
    """Returns the path of a file's module below the crate, none for the root's."""
    path = file[len("src/") : -len(".rt")].removesuffix("/mod")
    return "" if path in ("lib", "main") else path.replace("/", "::")


@contextlib.contextmanager
def checkers(names):
    """Gives what checks each of the crates, once they and those below them are proved."""
    ended = run(["rt", "ci", *names])
    if ended.returncode:
        sys.exit(f"{ended.stdout[-3000:]}\n{' '.join(names)}: not proved as they stand")
    # Its first call sets a signal's handler, which only the main thread may.
    kept.toolchain().rtlib.guarded()
    with kept.taken() as (every, _), tempfile.TemporaryDirectory(dir=TOP.parent) as room:
        yield {it: Checker(CRATES / it, every[it], pathlib.Path(room, it)) for it in names}


def refused(said, turned):
    """Returns the goals at which the check refuses each of the functions that were turned, and the places and names of
    answers that it cannot read, since the mutant took away what they name: these say nothing of the contract."""
    goals, unread = collections.defaultdict(dict), collections.defaultdict(dict)
    for line in said.splitlines():
        goal = GOAL.match(line)
        for it in turned if goal else ():
            if is_of(it, goal[1], goal[2], int(goal[3]), turned):
                name = goal[4] or goal[5]
                if goal[1] == "proofs" and GONE.search(line):
                    unread[it][f"proofs/{goal[2]}.antt", int(goal[3])] = name
                else:
                    goals[it][name] = None
    return goals, unread


def without_answer(text, line):
    """Returns a proof file without the answer at a line, on as many lines."""
    lines, first, last = text.split("\n"), line - 1, line
    while first > 0 and lines[first - 1].strip():
        first -= 1
    while last < len(lines) and lines[last].strip():
        last += 1
    return "\n".join([*lines[:first], *[""] * (last - first), *lines[last:]])


def is_of(function, root, path, line, turned):
    """Returns whether what stands at a line of a file is of the function or of its proof."""
    if root == "src":
        return f"src/{path}.rt" == function.file and function.first <= line <= function.last
    *folders, name, _ = ["", "", *path.split("/")]
    # The folder of a function that calls itself begins so.
    name = name.removeprefix("+")
    same = [it for it in turned if it.name == name]
    if function not in same:
        return False
    trait, _, owner = function.owner.rpartition(" for ")
    words = [it.split("::")[-1].strip("&()").lower() for it in (owner, trait)]
    module = function.file[len("src/") : -len(".rt")]
    is_in_module = "/".join(folders).strip("/").startswith(module)
    is_of_type = folders[-1].lower() == "".join(words) if owner else is_in_module
    return len(same) == 1 or is_of_type and (is_in_module or len({it.owner for it in same}) == len(same))


def by_function(texts, changes):
    """Returns the changes by the functions that they turn, and under None what stands in none.

    A change that writes a whole function of an impl into one line begins a comment, in which what it
    replaces stands: up to its end all changes belong to that function."""
    every = [it for path, text in texts.items() for it in functions(path, text)]
    turned, function, is_open = collections.defaultdict(list), None, False
    for it in changes:
        if not is_open:
            around = (f for f in reversed(every) if f.file == it.file and f.first <= it.line <= f.last)
            function = next(around, None) or written(it)
        opened = it.new.rpartition("/*")[2] if "/*" in it.new else "*/" if not is_open else it.new
        is_open = "*/" not in opened
        turned[function].append(it)
    return turned


def written(change):
    """Returns the function that a change writes whole into the line of an impl, if it does."""
    name = re.search(r"\bfn (\w+)", change.new)
    owner = heading([change.new.partition("{")[0].rpartition("*/")[2].strip()])
    return Function(change.file, name[1], owner, change.line, change.line) if name else None


@dataclasses.dataclass(frozen=True)
class Mutant:
    """A function that an edit turns, how many texts of it, and the sum of what a record of it rests on.

    `same` is how many before it have its name in the edit."""

    edit: str
    function: Function
    texts: int
    same: int
    sum: str

    @property
    def key(self):
        return self.edit, self.function.file, str(self.function), self.same


def mutants_of(crate, sources):
    """Returns the mutants of a crate, in the order of its record."""
    found = []
    for edit in sorted((crate / "mutants").glob("*.edit")):
        texts, changes = read_edit(crate, edit)
        turned, seen = by_function(texts, changes), collections.Counter()
        common = turned.pop(None, [])
        for function, of in sorted(turned.items(), key=lambda it: (it[0].file, it[0].first)):
            written = [text for it in [*common, *of] for text in (it.old, it.new)]
            name = function.file, str(function)
            sum_ = sources.sum_of(crate.name, function, written)
            found.append(Mutant(edit.stem, function, len(of), seen[name], sum_))
            seen[name] += 1
    return found


def record_of(crate):
    return crate / "mutants" / "refused.txt"


def recorded(crate):
    """Returns the sum and the goals that the crate's record has of each mutant, by its key."""
    found, edit, file, path = {}, "", "", record_of(crate)
    for line in path.read_text().splitlines() if path.exists() else []:
        entry = ENTRY.fullmatch(line)
        if line.startswith("## "):
            edit = line[3:]
        elif entry:
            key = edit, file, entry[2]
            found[(*key, sum(it[:3] == key for it in found))] = entry[1], entry[3]
        elif line.startswith("src/"):
            file = line
    return found


def stale():
    """Returns the mutants of each crate that are to be tried again, by its name; those of them that the record says wait for that;
    and the crates of which none was tried."""
    sources, found, waiting, never = records.Sources(TOP), {}, {}, []
    for crate in sorted(it.parent for it in CRATES.glob("*/mutants") if any(it.glob("*.edit"))):
        known = recorded(crate)
        if known:
            again = [it for it in mutants_of(crate, sources) if known.get(it.key, "")[:1] != (it.sum,)]
            wait = [it for it in again if known.get(it.key, "")[:1] == (WAITS,)]
            found |= {crate.name: again} if again else {}
            waiting |= {crate.name: wait} if wait else {}
        else:
            never.append(crate.name)
    return found, waiting, never


def write_record(crate, entries):
    """Writes the record of a crate: the mutants in order, each with its sum and its goals."""
    lines, edit, file = [HEAD], "", ""
    for it, (sum_, goals) in entries:
        if it.edit != edit:
            edit, file = it.edit, ""
            lines.append(f"\n## {edit}")
        if it.function.file != file:
            file = it.function.file
            lines.append(f"\n{file}")
        lines.append(f"  {sum_} {it.function}{f' ({it.texts})' if it.texts > 1 else ''}: {goals}")
    record_of(crate).write_text("\n".join(lines) + "\n")


def try_edit(checker, edit, wanted=None):
    """Returns the goals of each mutated function of the edit, of all or of those that are wanted, none where it is not refused."""
    texts, changes = read_edit(checker.crate, edit)
    turned = by_function(texts, changes)
    common = turned.pop(None, [])
    goals = {it: {} for it in turned if wanted is None or it in wanted}
    left, seen = list(goals), None
    while left and left != seen:
        chosen = {id(it) for function in left for it in [*turned[function], *common]}
        said = checker.check(changed(texts, [it for it in changes if id(it) in chosen]), left)
        if UNREAD.search(said):
            sys.exit(f"{said[-3000:]}\n{checker.crate.name}/{edit.stem}: cannot be read")
        for function, names in refused(said, left)[0].items():
            goals[function] |= names
        left, seen = [it for it in left if not goals[it]], left
    found = {it: ", ".join(names) for it, names in goals.items()}
    return found | {it: tried_alone(checker, changed(texts, [*common, *turned[it]]), it) for it in left}


def tried_alone(checker, texts, function):
    """Returns the goals of a mutated function, tried alone. Answers that name what the mutant took away are left out."""
    left_out = {}
    while True:
        said = checker.check(texts, [function])
        goals, unread = (it[function] for it in refused(said, [function]))
        if goals or not unread:
            break
        for (path, line), name in unread.items():
            texts = texts | {path: without_answer(texts.get(path) or (checker.crate / path).read_text(), line)}
            left_out[name] = None
    if not goals and NOT_PROVED.search(said):
        goals = {f"elsewhere: {next(filter(GOAL.match, said.splitlines()), '')[:100]}": None}
    return ", ".join(goals) + (f"; without {', '.join(left_out)}, which name what it took away" if goals and left_out else "")


def try_crate(checker, chosen, every):
    """Tries mutants of a crate, writes where each is refused, and returns their counts."""
    crate, found = checker.crate, {}
    known = recorded(crate)
    for edit, of_edit in itertools.groupby(chosen, lambda it: it.edit):
        of_edit = list(of_edit)
        goals = try_edit(checker, crate / "mutants" / f"{edit}.edit", {it.function for it in of_edit})
        found |= {it.key: (it.sum, goals[it.function]) for it in of_edit}
    tried = {key: (sum_, goals) if goals else ("-", "NOT REFUSED") for key, (sum_, goals) in found.items()}
    write_record(crate, [(it, (known | tried)[it.key]) for it in every])
    missed = sum(not goals for _, goals in found.values())
    print(f"{crate.name}: {len(found)} of {len(every)} mutants tried, {missed} not refused", flush=True)
    return Counts(len(found) - missed, missed)


def try_alone(checker, edit):
    """Tries a single edit of mutants/ or must-fail/, and prints its goals."""
    (path,) = checker.crate.glob(f"*/{edit}.edit")
    goals = try_edit(checker, path)
    for function, names in goals.items():
        print(f"{function.file}: {function}: {names or 'NOT REFUSED'}")
    missed = sum(not names for names in goals.values())
    return Counts(len(goals) - missed, missed)


def try_all(names):
    """Tries the mutants of crates whose records are stale, the crates side by side; a single edit as CRATE/EDIT."""
    sources, tasks, alone = records.Sources(TOP), [], [it.split("/") for it in names if "/" in it]
    for name in (it for it in crates() if it in names):
        every, known = mutants_of(CRATES / name, sources), recorded(CRATES / name)
        chosen = [it for it in every if known.get(it.key, "")[:1] != (it.sum,)]
        tasks += [(name, chosen, every)] * bool(chosen)
    wanted = {it for it, *_ in [*tasks, *alone]}
    if not wanted:
        return []
    with checkers(sorted(wanted)) as found, concurrent.futures.ThreadPoolExecutor(lanes()) as pool:
        counts = [*pool.map(lambda it: try_crate(found[it[0]], *it[1:]), tasks)]
        return counts + [try_alone(found[name], edit) for name, edit in alone]
