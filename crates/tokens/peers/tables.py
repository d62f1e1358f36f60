#!/usr/bin/env python3
"""tables.py TOKENS [COUNT [SEED]]: holds what `tokens --table` writes to `tokens` itself.
tables.py TOKENS --few: the same of two small files of rules and three random ones, with few texts. The gate runs it.

TOKENS is the program. The rules that come with it are written as tables, and COUNT (20) files of random rules, half of whose
characters stand where UTF-8 takes a byte more. `cc` compiles the tables in C, with all warnings as errors, and `rustc` those in
Rust. One that this machine lacks is left out. Each cuts files of this machine, or random texts: the names, the texts and the
number of characters where no token begins have to be those of `tokens --json`. Then a number of each table is changed, up to
four times another one, until some text tells; of most tables one has to. The last line counts tables; the status is 1 where
something differs.
"""

import json
import pathlib
import random
import re
import shutil
import subprocess
import sys
import tempfile

DATA = pathlib.Path(__file__).resolve().parent.parent / "data"
# The rules that come with the program, each with the files that it cuts, or none for random texts; and those of `--few`.
FILES = {"calculator": None, "c": "/usr/include/**/*.h", "json": "/usr/**/*.json", "toml": "/root/**/*.toml", "rust": "/root/**/*.rs"}
FEW = {"calculator": None, "toml": f"{DATA.parents[2]}/bindings/**/*.toml"}
COMPILERS = {"c": "cc", "rust": "rustc"}
TRIES = 4
LETTERS = "ab0 .\x7f\x80\u07ff\u0800\ud7ff\ue000\uffff\U00010000\U0010ffff"
IN_C = r"""
#include <stdio.h>
#include <stdlib.h>
#include "table.h"
int main(int count, char **names) {
    static char text[1 << 24];
    FILE *file = count > 1 ? fopen(names[1], "rb") : stdin;
    size_t len = fread(text, 1, sizeof text, file), at = 0, faults = 0;
    while (at < len) {
        int rule;
        size_t bytes = token_next(text + at, len - at, &rule);
        if (bytes == 0) {
            uint32_t character;
            faults++;
            at += token_character(text + at, len - at, &character);
            continue;
        }
        if (!token_rules[rule].skipped) {
            fputs(token_rules[rule].name, stdout);
            putchar(0);
            fwrite(text + at, 1, bytes, stdout);
            putchar(0);
        }
        at += bytes;
    }
    printf("%zu", faults);
    return 0;
}
"""
IN_RUST = r"""
use std::io::Write;
mod table;
fn main() {
    let path = std::env::args().nth(1).unwrap();
    let text = std::fs::read_to_string(path).unwrap();
    let mut out = std::io::BufWriter::new(std::io::stdout().lock());
    let (mut at, mut faults) = (0, 0);
    while at < text.len() {
        match table::next_token(&text[at..]) {
            Some((rule, len)) => {
                if !table::RULES[rule].skipped {
                    write!(out, "{}\0{}\0", table::RULES[rule].name, &text[at..at + len]).unwrap();
                }
                at += len;
            }
            None => {
                faults += 1;
                at += text[at..].chars().next().unwrap().len_utf8();
            }
        }
    }
    write!(out, "{faults}").unwrap();
}
"""


def built(tokens, rules, folder, language, spoiled=None):
    """Returns the program of the table of these rules. Of a spoiled one a number is changed, that of this index."""
    table = subprocess.run([tokens, "--table", language, rules], capture_output=True, check=True).stdout.decode()
    if spoiled is not None:
        places = list(re.finditer(r"(?<=[{(])\d+,(\d+),(\d+)(?=[})],)", table))
        if not places:
            return None
        it = places[spoiled % len(places)]
        state = (int(it[2]) + 1) % table.count("token_lead[]" if language == "c" else "State {")
        table = table[: it.start(2)] + str(state) + table[it.end(2) :]
    name, text, more = {
        "c": ("table.h", IN_C, ["cc", "-std=c99", "-O1", "-Wall", "-Wextra", "-Werror", "-o"]),
        "rust": ("table.rs", IN_RUST, ["rustc", "--edition", "2021", "-C", "opt-level=1", "-D", "warnings", "-o"]),
    }[language]
    (folder / name).write_text(table)
    source = folder / ("main.c" if language == "c" else "main.rs")
    source.write_text(text)
    program = folder / f"by_{language}"
    subprocess.run([*more, program, source], check=True)
    return program


def wanted(tokens, rules, path):
    """Returns the names and texts that the program prints, and how many characters it tells of."""
    ran = subprocess.run([tokens, "--json", rules, path], capture_output=True)
    faults = len(re.findall(rb"^.*:\d+:\d+: no token begins (?:here|with this byte order mark)$", ran.stderr, re.M))
    lines = [json.loads(line) for line in ran.stdout.splitlines()]
    return b"".join(f"{it['rule']}\0{it['text']}\0".encode() for it in lines) + str(faults).encode()


def pattern(draw):
    def letter():
        return f"\\x{{{ord(draw.choice(LETTERS)):x}}}"

    def part(depth):
        kind = draw.randrange(6 if depth else 2)
        if kind == 0:
            return letter()
        if kind == 1:
            first, last = sorted(draw.choices(LETTERS, k=2))
            return f"[\\x{{{ord(first):x}}}-\\x{{{ord(last):x}}}]"
        if kind == 2:
            return f"(?:{part(depth - 1)}|{part(depth - 1)})"
        if kind == 3:
            return f"(?:{part(depth - 1)}){draw.choice('*+?')}"
        return part(depth - 1) + part(depth - 1)

    return part(3)


def drawn_rules(draw, path):
    names = ["one", "two", 'q"uote?\\', "skip", "ünder", "tab\tbed"]
    path.write_text("".join(f"{name} {pattern(draw)}\n" for name in draw.sample(names, draw.randint(1, len(names)))))


def differs(tokens, rules, programs, path):
    right = wanted(tokens, rules, path)
    for program in programs:
        if subprocess.run([program, path], capture_output=True).stdout != right:
            return program.name
    return None


def texts_of(draw, folder, files, count):
    """Gives paths of so many texts: of these files, else random ones."""
    if files:
        found = [it for it in sorted(pathlib.Path("/").glob(files[1:])) if it.is_file() and it.stat().st_size < 1 << 20]
        for path in draw.sample(found, min(count, len(found))):
            if is_text(path.read_bytes()):
                yield path
        return
    for number in range(count):
        path = folder / f"text{number}"
        path.write_text("".join(draw.choices(LETTERS, k=draw.randrange(60))), newline="")
        yield path


def is_text(content):
    try:
        content.decode()
    except UnicodeDecodeError:
        return False
    return True


def tried(tokens, draw, rules, files, targets, count):
    """Returns whether all agree on the rules, how many texts there were, and whether a changed number is noticed."""
    with tempfile.TemporaryDirectory() as room:
        folder = pathlib.Path(room)
        programs = [built(tokens, rules, folder, it) for it in targets]
        texts = list(texts_of(draw, folder, files, count))
        for path in texts:
            found = differs(tokens, rules, programs, path)
            if found:
                print(f"{rules}: {found} differs at {path}:\n{rules.read_text()}\n{path.read_bytes()!r}")
                return False, len(texts), False
        return True, len(texts), any(notices(tokens, draw, rules, folder, targets[0], texts) for _ in range(TRIES))


def notices(tokens, draw, rules, folder, target, texts):
    """Returns whether some text tells a table of which a number is changed from the right one."""
    spoiled = built(tokens, rules, folder, target, draw.randrange(1 << 30))
    return spoiled is not None and any(differs(tokens, rules, [spoiled], it) for it in texts)


def drawn(draw, folder, count):
    """Gives so many files of random rules."""
    for number in range(count):
        path = folder / f"rules{number}"
        drawn_rules(draw, path)
        yield path, None


def main():
    tokens, is_few = str(pathlib.Path(sys.argv[1]).resolve()), sys.argv[2:] == ["--few"]
    count, seed = ("3", "1") if is_few else [*sys.argv[2:], *("20", "1")[len(sys.argv) - 2 :]]
    targets = [language for language, compiler in COMPILERS.items() if shutil.which(compiler)]
    draw = random.Random(int(seed))
    good = bad = texts = noticed = 0
    if targets:
        with tempfile.TemporaryDirectory() as room:
            known = [(DATA / name, files) for name, files in (FEW if is_few else FILES).items()]
            for rules, files in [*known, *drawn(draw, pathlib.Path(room), int(count))]:
                agrees, number, is_noticed = tried(tokens, draw, rules, files, targets, 6 if is_few else 20)
                good, bad, texts, noticed = good + agrees, bad + (not agrees), texts + number, noticed + bool(is_noticed)
    is_blind = noticed * 2 < good
    print(f"{texts} texts, in {' and '.join(targets) or 'no language'}; of {noticed} tables a changed number is noticed")
    print(f"{good} passed, {bad + is_blind} failed, {len(COMPILERS) - len(targets)} skipped")
    return int(bad > 0 or is_blind)


if __name__ == "__main__":
    sys.exit(main())
