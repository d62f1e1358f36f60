"""Cuts a text into tokens by rules, in several ways: compare.py WORK RULES TEXT

`compare.sh` calls it. WORK has the programs `scan` and `tokens`, and takes what is made. The rules become scanners of flex and
re2c, over bytes, and a pattern of Python, whose parser reads them for all three; and a table by `tokens --table c`.
Where there is `valgrind`, it counts the instructions for the first tenth of the text.
"""

import pathlib
import re
import shutil
import subprocess
import sys
import time
from re import _constants as of
from re import _parser

TIMES = 20
REPEATED = {(0, of.MAXREPEAT): "*", (1, of.MAXREPEAT): "+", (0, 1): "?"}
CLOCK = r"""
#include <stdio.h>
#include <stdlib.h>
#include <time.h>
static unsigned long count, sum, at;
#define TOKEN(rule) (count++, sum += ((rule) + 1ul) * at)
static unsigned long nanoseconds(void) {
    struct timespec now;
    clock_gettime(CLOCK_MONOTONIC, &now);
    return now.tv_sec * 1000000000ul + now.tv_nsec;
}
"""
MAIN = r"""
int main(int words, char **word) {
    size_t room = 1u << 28;
    char *text = malloc(room);
    size_t length = fread(text, 1, room - 2, stdin);
    unsigned long least = -1ul;
    text[length] = text[length + 1] = 0;
    for (int time = 0; words > 1 && time < atoi(word[1]); time++) {
        count = sum = at = 0;
        unsigned long start = nanoseconds();
        scan(text, length);
        unsigned long spent = nanoseconds() - start;
        if (spent < least) least = spent;
    }
    printf("%lu %lu %lu\n", least, count, sum);
    return 0;
}
"""
FLEX = r"""%%option noyywrap nodefault noinput nounput 8bit
%%{%s
#define YY_USER_ACTION at += yyleng;
%%}
%%%%
%s
.|\n ;
%%%%
static void scan(char *text, size_t length) {
    YY_BUFFER_STATE buffer = yy_scan_buffer(text, length + 2);
    yylex();
    yy_delete_buffer(buffer);
}
%s"""
TABLE = r"""%s
#include "table.h"
static void scan(char *text, size_t length) {
    size_t from = 0, bytes;
    uint32_t character;
    int rule;
    while (from < length) {
        if ((bytes = token_next(text + from, length - from, &rule)) == 0) {
            from += token_character(text + from, length - from, &character);
            continue;
        }
        at = from += bytes;
        if (!token_rules[rule].skipped)
            TOKEN(rule);
    }
}
%s"""
RE2C = r"""%s
static void scan(char *text, size_t length) {
    unsigned char *YYCURSOR = (unsigned char *)text, *YYMARKER, *YYLIMIT = YYCURSOR + length;
next:
    at = YYCURSOR - (unsigned char *)text;
    /*!re2c
    re2c:define:YYCTYPE = "unsigned char";
    re2c:yyfill:enable = 0;
    re2c:eof = 0;
%s
    $ { return; }
    * { goto next; }
    */
}
%s"""


def rules_of(path):
    """Gives the number of each rule, its name and its pattern."""
    for number, line in enumerate(path.read_text().splitlines()):
        yield number, *line.split(" ", 1)


def ranges_of(items):
    """Returns the bytes of a class as ranges."""
    chosen = set()
    for kind, value in items:
        if kind is of.LITERAL:
            chosen.add(value)
        elif kind is of.RANGE:
            chosen.update(range(value[0], value[1] + 1))
    if items[0][0] is of.NEGATE:
        chosen = set(range(256)) - chosen
    starts = sorted(it for it in chosen if it - 1 not in chosen)
    ends = sorted(it for it in chosen if it + 1 not in chosen)
    return zip(starts, ends)


def spelled(tree, group):
    """Returns the pattern of a tree as all three take it. Alternatives of fixed lengths come in the order of Python's search
    for the longest."""
    return "".join(spelled_part(kind, value, group) for kind, value in tree)


def spelled_part(kind, value, group):
    if kind is of.LITERAL:
        kind, value = of.IN, [(kind, value)]
    elif kind is of.NOT_LITERAL:
        kind, value = of.IN, [(of.NEGATE, None), (of.LITERAL, value)]
    if kind is of.IN:
        return "[" + "".join(rf"\x{first:02x}-\x{last:02x}" for first, last in ranges_of(value)) + "]"
    if kind is of.BRANCH:
        trees = value[1]
        if all(len(set(it.getwidth())) == 1 for it in trees):
            trees = sorted(trees, key=lambda it: -it.getwidth()[0])
        return group + "|".join(spelled(it, group) for it in trees) + ")"
    if kind is of.SUBPATTERN:
        return spelled(value[3], group)
    if kind is of.MAX_REPEAT:
        least, most, tree = value
        times = REPEATED.get((least, most)) or "{%d,%d}" % (least, most)
        return group + spelled(tree, group) + ")" + times
    sys.exit(f"no pattern for all three: {kind}")


def scanners(work, path, rules):
    """Makes the scanners, and gives the name of each with the command that runs it."""
    table = subprocess.run([work / "tokens", "--table", "c", path], capture_output=True, check=True).stdout
    (work / "table.h").write_bytes(table)
    (work / "table.c").write_text(TABLE % (CLOCK, MAIN))
    subprocess.run(["cc", "-O2", "-o", "table", "table.c"], cwd=work, check=True)
    yield "table in C", [work / "table"]
    lines = [(number, name, spelled(_parser.parse(pattern), "(")) for number, name, pattern in rules]
    action = lambda number, name: "" if name == "skip" else f"TOKEN({number});"
    of_flex = "\n".join(f"{pattern} {action(number, name)};" for number, name, pattern in lines)
    (work / "flex.l").write_text(FLEX % (CLOCK, of_flex, MAIN))
    at = "at = YYCURSOR - (unsigned char *)text;"
    of_re2c = "\n".join(f"{pattern} {{ {at} {action(number, name)} goto next; }}" for number, name, pattern in lines)
    (work / "re2c.re").write_text(RE2C % (CLOCK, of_re2c, MAIN))
    for name, words in (
        ("flex, small tables", ["flex", "-o"]),
        ("flex, full tables", ["flex", "-Cf", "-o"]),
        ("re2c", ["re2c", "-W", "-o"]),
    ):
        made = name.replace(", ", "-").replace(" ", "-")
        subprocess.run([*words, f"{made}.c", "re2c.re" if name == "re2c" else "flex.l"], cwd=work, check=True)
        subprocess.run(["cc", "-O2", "-w", "-o", made, f"{made}.c"], cwd=work, check=True)
        yield name, [work / made]


def by_python(rules, text):
    """Returns the nanoseconds, the number of tokens and the sum as the first search of Python has them."""
    rules, kept, parts = list(rules), {0: 0}, []
    for number, name, pattern in rules:
        words = r"\b" if re.fullmatch(r"[a-z|]+", pattern) else ""
        parts.append("(" + spelled(_parser.parse(pattern), "(?:") + words + ")")
        kept[number + 1] = 0 if name == "skip" else number + 1
    find = re.compile("|".join(parts).encode(), re.DOTALL).finditer
    least, text = 1 << 62, text.read_bytes()
    for _ in range(3):
        start, count, total = time.perf_counter_ns(), 0, 0
        for found in find(text):
            rule = kept[found.lastindex]
            if rule:
                count += 1
                total += rule * found.end()
        least = min(least, time.perf_counter_ns() - start)
    return least, count, total % (1 << 64)


def instructions(words, text):
    """Returns the instructions that a pass over a tenth of the text takes: of two passes, less those of one."""
    part = text.read_bytes()[: text.stat().st_size // 10].decode(errors="ignore").encode()
    counted = []
    for times in ("1", "2"):
        command = ["valgrind", "--tool=callgrind", "--callgrind-out-file=/dev/null", *words, times]
        said = subprocess.run(command, input=part, capture_output=True, check=True).stderr.decode()
        counted.append(int(re.search(r"Collected : (\d+)", said)[1]))
    return (counted[1] - counted[0]) / len(part)


def main():
    work, path, text = map(pathlib.Path, sys.argv[1:])
    rules = list(rules_of(path))
    found, counts = {}, {}
    commands = [("machine", [work / "scan", path]), *scanners(work, path, rules)]
    for name, words in commands:
        with text.open() as given:
            said = subprocess.run([*words, str(TIMES)], stdin=given, capture_output=True, check=True).stdout
        found[name] = tuple(map(int, said.split()))
        if shutil.which("valgrind"):
            counts[name] = f", {instructions(words, text):.1f} instructions a byte"
    found["Python's re"] = by_python(rules, text)
    ours, count, total, states = found["machine"]
    print(f"{path.stem}: {text.stat().st_size} bytes, {count} tokens, {states} states")
    for name, (spent, *others) in found.items():
        print(f"  {name}: {spent / 1e6:.0f} ms, {spent / ours:.2f} of the machine's{counts.get(name, '')}")
        if others[:2] != [count, total]:
            print(f"  {name}: other tokens, {others[0]}")


main()
