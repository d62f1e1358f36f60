#!/usr/bin/env python3
"""modes.py TOKENS [COUNT [SEED]]: compares `tokens` at drawn files of rules with modes with Python's `re`.
modes.py --keep: writes some of them to `conversations/drawn.txt`, with one text, `data/drawn.txt`.

Draws so many (1,000) files, each with a text, as `tests/drawn_modes/draw` draws rules. Python keeps the mode and the stack,
and at each place tries all beginnings of what is left by the patterns of the mode. Each file is also counted by. Prints the
first outputs that differ.
"""

import collections
import importlib.machinery
import importlib.util
import json
import pathlib
import re
import subprocess
import sys
import tempfile

CRATE = pathlib.Path(__file__).resolve().parents[1]
TOP = CRATE.parent.parent
TEXT = CRATE / "data" / "drawn.txt"
MODES = ["initial", "one", "two"]


def script(path):
    """Returns the script there as a module, and runs no `main` of it."""
    text = pathlib.Path(path).read_text().rsplit("\nmain()\n", 1)[0]
    made = importlib.util.module_from_spec(importlib.machinery.ModuleSpec(path.parent.name, None))
    made.__file__ = str(path)
    exec(compile(text, str(path), "exec"), made.__dict__)
    return made


drawn_modes = script(TOP / "tests" / "drawn_modes" / "draw")


def is_line(pattern):
    """Returns whether a file of rules can have the pattern: it has no space at its ends, no line end and no arrow."""
    return pattern == pattern.strip() and pattern.isprintable() and " -> " not in pattern and pattern


def is_file(rules):
    """Returns whether each pattern can stand in a line, and each change leads to a mode in which a rule holds."""
    held = {0, *(mode for modes, _, _ in rules for mode in modes)}
    led = {int(change[1]) for _, change, _ in rules if change[0] in ">+"}
    return led <= held and all(is_line(pattern) for _, _, pattern in rules)


def line(number, modes, change, pattern):
    names = ",".join(MODES[mode] for mode in modes)
    front = "" if names == "initial" else f"<{names}> "
    behind = {"=": "", ">": " -> ", "+": " -> push ", "-": " -> pop"}[change[0]]
    name = MODES[int(change[1])] if change[0] in ">+" else ""
    return f"{front}r{number} {pattern}{behind}{name}\n"


def cut(rules, text):
    """Returns the tokens as `tokens --json` prints them, how many a rule has in each mode, and what is wrong at which places."""
    compiled = [re.compile(pattern) for _, _, pattern in rules]
    stack, at, faults, found = [0], 0, [], []
    counts = collections.Counter()
    while at < len(text):
        mode = stack[-1]
        numbers = [number for number, (modes, _, _) in enumerate(rules) if mode in modes]
        end, index = drawn_modes.drawn_patterns.longest([compiled[number] for number in numbers], text, at)
        if end is None:
            faults.append((at, "no token begins here"))
            at += 1
            continue
        rule = numbers[index]
        behind = drawn_modes.moved(rules[rule][1], stack)
        if behind is None:
            faults.append((at, "this token pops a mode, and none was pushed"))
        else:
            line = text.count("\n", 0, at) + 1
            column = at - (text.rfind("\n", 0, at) + 1) + 1
            found.append({"line": line, "column": column, "rule": f"r{rule}", "text": text[at:end]})
            counts[mode, rule] += 1
        stack, at = behind or stack, end
    return found, counts, faults


def named(rules):
    """Returns the numbers of the modes in the order in which the file names them."""
    return [*dict.fromkeys([0, *(mode for modes, _, _ in rules for mode in modes)])]


def run(program, *words):
    done = subprocess.run([program, *words], capture_output=True, check=False)
    return done.stdout.decode(), done.returncode


def differs(program, room, rules, text):
    """Returns what differs of one file, if something does."""
    (room / "rules").write_text("".join(line(number, *rule) for number, rule in enumerate(rules)))
    (room / "text").write_bytes(text.encode())
    found, counts, faults = cut(rules, text)
    said, status = run(program, "--json", room / "rules", room / "text")
    if [json.loads(it) for it in said.splitlines()] != found or status != bool(faults):
        return said, found
    lines = [f"r{rule} {counts[mode, rule]}\n" for mode in named(rules) for rule in range(len(rules)) if counts[mode, rule]]
    said, _ = run(program, "--count", room / "rules", room / "text")
    return None if said == "".join(lines) else (said, lines)


def conversation(rules, text):
    """Returns the conversation of a file of rules and the text, which is one line."""
    found, _, faults = cut(rules, text)
    said = [f"tokens /dev/stdin {TEXT.relative_to(CRATE)}\n"]
    said += [f"> {line(number, *rule)}" for number, rule in enumerate(rules)]
    said += [f"1:{it['column']} {it['rule']} {it['text']}\n" for it in found]
    for at, fault in faults:
        said.append(f"stderr {TEXT.relative_to(CRATE)}:1:{at + 1}: {fault}\n")
        if fault.startswith("no token"):
            said += [f"stderr   {text}\n", f"stderr   {' ' * at}^\n"]
    return "".join(said).replace("\\", "\\\\") + ("status 1\n" if faults else "")


def keep():
    """Writes conversations of short files of rules with modes that have tokens in several modes."""
    text = "a1-b_a ]1bα-aa_b]1-1"
    TEXT.write_text(text)
    kept = []
    for rules, _ in drawn_modes.rows(20_000, 1):
        short = sum(len(pattern) for _, _, pattern in rules) <= 40
        if short and is_file(rules):
            _, counts, faults = cut(rules, text)
            if len({mode for mode, _ in counts}) > 1 and len(faults) < 6:
                kept.append(conversation(rules, text))
    head = "# Drawn rules with modes, and what a scanner by Python's `re` says. `peers/modes.py --keep` wrote them.\n\n"
    (CRATE / "conversations" / "drawn.txt").write_text(head + "\n".join(kept[:60]))


def main():
    if sys.argv[1:] == ["--keep"]:
        return keep()
    program, count, seed = (sys.argv[1:] + ["1000", "0"][len(sys.argv) - 2 :])[:3]
    passed = failed = 0
    with tempfile.TemporaryDirectory() as room:
        for rules, text in drawn_modes.rows(int(count), int(seed)):
            if not is_file(rules):
                continue
            other = differs(program, pathlib.Path(room), rules, text)
            passed, failed = passed + (other is None), failed + (other is not None)
            if other is not None and failed <= 5:
                print(rules, repr(text), *other, sep="\n  ")
    print(f"{passed} passed, {failed} failed")
    sys.exit(bool(failed))


main()
