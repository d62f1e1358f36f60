"""Refused memory: each allocation of each call is refused in turn, and what became of it is looked at.

A library that is loaded into a program refuses one allocation of a run. The calls are made by `refusals` of tests/,
built without a proof, which looks itself at what became of them. `rangerun` plays the
conversations of memory.txt. There the replies have to be those of the conversation without the line
that was refused, with `memory` in the place of that line's, or those of the lines before it and
`read error`, since to read a line may allocate too. `tokens` has to print the same, or a
beginning of it and that it is out of memory; `cidr` the same, or nothing, and where it goes over lines a beginning. The gate takes these three as they were proved.
"""

import atexit
import collections
import concurrent.futures
import functools
import pathlib
import shutil
import subprocess
import sys
import tempfile
import time

from tools import conversations
from tools.repository import CRATES, PROCESSORS, TOP, Counts, Ended, run, told, workspace

# The crate that makes the calls, and the programs whose conversations are played.
CRATE = "refusals"
# What the calls answer with enough memory, after their names.
STDOUT = TOP / "tests" / CRATE / "stdout"
# The calls that allocate nothing, each with the reason. Every other call has to meet a refusal.
FREE = {
    "map: split_off after all ranges": "no range moves",
    "map: retain_all of the middle range": "whole ranges go",
    "set: range_from_json": "keys are numbers",
}


def built(crate, folder):
    """Builds the program of a crate without a proof, and returns its path. It is run briefly: to compile it takes longest."""
    ended = run([sys.executable, TOP / "bindings" / "unproved.py", folder, crate, "-O1"])
    if ended.returncode:
        sys.exit(f"{ended.stdout[-2000:]}\n{crate.name}: cannot be built")
    return folder / crate.name


@functools.cache
def refuser():
    """Builds the library that refuses an allocation of the program into which it is loaded, and returns its path."""
    room = tempfile.mkdtemp()
    atexit.register(shutil.rmtree, room)
    made = pathlib.Path(room) / "refused.so"
    subprocess.run(["cc", "-O1", "-shared", "-fPIC", "-o", made, TOP / "tools" / "refused.c"], check=True)
    return made


def refusing(program, number, given=b"", words=()):
    """Runs a program of which one allocation is refused. Returns how it ended, and how many it asked for."""
    environment, folder = {"REFUSED": str(number), "LD_PRELOAD": str(refuser())}, CRATES / program.name
    how = {"cwd": folder if folder.exists() else None, "env": environment}
    ran = subprocess.run([program, *words], input=given, capture_output=True, **how)
    errors, _, asked = ran.stderr.rpartition(b"allocations ")
    return Ended(ran.stdout, errors, ran.returncode), int(asked)


def refuse_trial(program, trial):
    """Refuses each allocation of a trial, from the last on until it is one before the call.

    Returns how many the call met, and what it answered otherwise than it may."""
    given = f"{trial}\n".encode()
    _, number = refusing(program, 0, given)
    refused = 0
    while number > 0:
        word = refusing(program, number, given)[0].out.partition(b" ")[0].decode()
        if word == "early":
            break
        if word not in ("kept", "done"):
            return refused, [f"refusal {number} of trial {trial}: {word or 'no answer'}"]
        refused, number = refused + (word == "kept"), number - 1
    return refused, []


def trials_of(wanted):
    """Returns the names of all trials, and the numbers of those that have one of the words in their names, or of all."""
    names = [line.partition(" ")[2] for line in STDOUT.read_text().splitlines()]
    return names, [it for it, name in enumerate(names) if not wanted or any(word in name for word in wanted)]


def refuse_calls(program, wanted):
    """Refuses the allocations of the calls that have one of the words in their names, or of all."""
    began, plain = time.monotonic(), refusing(program, 0)[0].out
    if plain != STDOUT.read_bytes():
        return told("refused memory", Counts(0, 1), began, f"with enough memory:\n{plain.decode()}")
    names, trials = trials_of(wanted)
    with concurrent.futures.ThreadPoolExecutor(PROCESSORS) as pool:
        found = [*pool.map(lambda trial: refuse_trial(program, trial), trials)]
    refused, wrong = collections.Counter(), []
    for trial, (met, strays) in zip(trials, found):
        refused[names[trial]] += met
        wrong += [f"{names[trial]}: {it}" for it in strays]
    for name, met in refused.items():
        if (met == 0) != (name in FREE):
            wrong.append(f"{name}: {met} allocations refused")
    if wanted:
        print("".join(f"{name}: {met} allocations refused\n" for name, met in refused.items()), end="")
    what = f"{refused.total()} allocations of {len(refused)} calls refused in {len(trials)} trials"
    return told(what, Counts(len(trials) - len(wrong), len(wrong)), began, "\n".join(wrong))


def may_end(program, talk):
    """Returns how a conversation may end where one of its lines is refused, and where reading one is."""
    ends, stops, before = [], [Ended(b"", b"", 1)], b""
    for place, (line, replies) in enumerate(talk.lines):
        rest = b"".join(it for it, _ in talk.lines[:place] + talk.lines[place + 1 :])
        without = refusing(program, 0, rest, talk.words)[0].out
        if without.startswith(before):
            ends.append(Ended(before + b"memory\n" + without[len(before) :], b"", 0))
        stops.append(Ended(before, b"read error\n", 1))
        before += replies
    return ends, [*stops, Ended(before, b"read error\n", 1)]


def rangerun_ends(program, talk):
    """Returns what a refused line may come to: the number of such an end, -1 where reading a line was refused."""
    ends, stops = may_end(program, talk)
    return lambda found, _: ends.index(found) if found in ends else -1 if found in stops else None


def tokens_ends(_program, _talk):
    def met(found, whole):
        is_told = found.errors.endswith(b"out of memory\n") and found.status == 1
        return found if is_told and whole.out.startswith(found.out) else None

    return met


def goes_over_lines(words):
    """Whether `cidr` prints while it reads: addresses that are lines looked up, or lines that hold some."""
    return words[0] == b"grep" or (words[0] == b"has" and words[-1] == b"-")


def cidr_ends(_program, talk):
    def met(found, whole):
        begins = whole.out.startswith(found.out) if goes_over_lines(talk.words) else not found.out
        return found if begins and found.status == 1 and found.errors else None

    return met


PLAYERS = {"rangerun": rangerun_ends, "tokens": tokens_ends, "cidr": cidr_ends}


def refuse_each(program, talk):
    """Refuses each allocation of a conversation. Returns how many, how many ends they have, and what else came."""
    met_by, met = PLAYERS[program.name](program, talk), set()
    whole, asked = refusing(program, 0, talk.input(), talk.words)
    wrong = [] if whole == talk.wanted() else [f"with enough memory {whole}"]
    for number in range(1, asked + 1):
        found, _ = refusing(program, number, talk.input(), talk.words)
        end = met_by(found, whole)
        met.add(end)
        if end is None and found != whole:
            wrong.append(f"refusal {number}: {str([*found])[:300]}")
    return asked, len(met - {None, -1}), wrong


def refuse_conversations(program):
    """Refuses the allocations of the conversations of a built program."""
    began = time.monotonic()
    talks = conversations.of_file(CRATES / program.name / "conversations" / "memory.txt")
    with concurrent.futures.ThreadPoolExecutor(PROCESSORS) as pool:
        found = [*pool.map(lambda talk: refuse_each(program, talk), talks)]
    wrong = [f"{talk.name}: {it}" for talk, (_, _, strays) in zip(talks, found) for it in strays]
    wrong += [f"{talk.name}: no line was refused" for talk, (_, met, _) in zip(talks, found) if not met]
    failed = sum(bool(strays) or not met for _, met, strays in found)
    what = f"{sum(asked for asked, _, _ in found)} allocations of {len(talks)} conversations refused"
    what = f"{program.name}: {what}, which end in {sum(met for _, met, _ in found)} ways"
    return told(what, Counts(len(talks) - failed, failed), began, "\n".join(wrong))


def refuse(wanted=(), players=tuple(PLAYERS)):
    """Refuses each allocation of the calls with one of the words in their names; of all and of the players' conversations.

    The programs are built without a proof."""
    if not shutil.which("cc"):
        return [told("refused memory", Counts(0, 0, 1), time.monotonic(), "")]
    if not trials_of(wanted)[1]:
        return [told("refused memory", Counts(0, 1), time.monotonic(), f"no call has in its name: {' '.join(wanted)}")]
    names = [CRATE] if wanted else [CRATE, *players]
    with workspace() as crates, tempfile.TemporaryDirectory() as room:
        with concurrent.futures.ThreadPoolExecutor() as pool:
            programs = [*pool.map(lambda name: built(crates / name, pathlib.Path(room)), names)]
        return [refuse_calls(programs[0], wanted), *map(refuse_conversations, programs[1:])]


def refuse_proved():
    """Refuses the allocations of the players' conversations, with the programs that were proved."""
    if not shutil.which("cc"):
        return [told("refused memory", Counts(0, 0, 1), time.monotonic(), "")]
    return [refuse_conversations(CRATES / name / "out" / name) for name in PLAYERS]
