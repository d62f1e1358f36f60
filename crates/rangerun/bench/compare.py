#!/usr/bin/env python3
"""Times `rangerun i32` beside a Rust program that answers the same commands over std's `BTreeMap`.

`compare.sh` builds the one, and calls this with both: compare.py STANDARD RANGERUN [RANGES]. Prints for each kind of
command the processor time that one takes, and the ratio; both programs have to give the same replies. What fills the
map before the commands is timed alone, and taken off. The least of five runs counts.
"""

import os
import random
import subprocess
import sys
import tempfile

RUNS = 5


def spelled(first, last):
    return f"{first}..={last}"


def filled(ranges):
    """So many ranges of ten keys, with ten free keys after each, at random."""
    starts = [20 * place for place in range(ranges)]
    random.shuffle(starts)
    return [f"insert {spelled(start, start + 9)} {start}" for start in starts]


def starts(ranges, count):
    return [20 * random.randrange(ranges) for _ in range(count)]


def kinds(ranges):
    """Each kind of command: what comes before it, and the commands."""
    ascending = [f"insert {spelled(20 * place, 20 * place + 9)} {place}" for place in range(ranges)]
    base = filled(ranges)
    count = 2 * ranges
    once = list(range(ranges))
    random.shuffle(once)
    yield "counts", [], ["count"] * ranges
    yield "random insertions", [], base
    yield "ascending insertions", [], ascending
    yield "descending insertions", [], ascending[::-1]
    yield "touching insertions", base, [f"insert {spelled(s + 10, s + 12)} {s}" for s in starts(ranges, count)]
    yield "overlapping insertions", base, [f"insert {spelled(s + 5, s + 30)} {n}" for n, s in enumerate(starts(ranges, count))]
    yield "exact removals", base, [f"remove {spelled(20 * p, 20 * p + 9)}" for p in once]
    yield "removals inside", base, [f"remove {spelled(20 * p + 3, 20 * p + 5)}" for p in once]
    yield "updates", base, [f"update {spelled(s + 2, s + 6)} set {s + 1}" for s in starts(ranges, count)]
    yield "sweeps", base, [f"insert {spelled(s, s + 400)} {n}" for n, s in enumerate(starts(ranges, ranges // 2))]
    yield "one cell", base, [f"insert {spelled(777, 777)} {n % 2}" for n in range(count)]
    yield "look-ups", base, [f"get {s + random.randrange(20)}" for s in starts(ranges, count)]
    yield "meetings", base, [f"meets {spelled(s + 8, s + 14)}" for s in starts(ranges, count)]
    yield "try", base, [f"try {spelled(s + 12, s + 16)} {s}" for s in starts(ranges, count)]


def seconds(program, script, replies):
    """The processor time of the program on the script, the least of some runs."""
    least = None
    for _ in range(RUNS):
        with open(script) as lines, open(replies, "w") as out:
            child = subprocess.Popen(program, stdin=lines, stdout=out)
            _, status, usage = os.wait4(child.pid, 0)
            if status != 0:
                sys.exit(f"{program[0]} ended with {status}")
        spent = usage.ru_utime + usage.ru_stime
        least = spent if least is None else min(least, spent)
    return least


def written(directory, name, lines):
    path = os.path.join(directory, name)
    with open(path, "w") as script:
        script.write("".join(line + "\n" for line in lines))
    return path


def main():
    standard, rangerun = [sys.argv[1]], [sys.argv[2], "i32"]
    ranges = int(sys.argv[3]) if len(sys.argv) > 3 else 100_000
    random.seed(1)
    with tempfile.TemporaryDirectory() as directory:
        replies = [os.path.join(directory, name) for name in ("standard", "rangerun")]
        before = {}
        for name, base, commands in kinds(ranges):
            script = written(directory, "script", base + commands)
            times = [seconds(standard, script, replies[0]), seconds(rangerun, script, replies[1])]
            with open(replies[0], "rb") as first, open(replies[1], "rb") as second:
                if first.read() != second.read():
                    sys.exit(f"{name}: the replies differ")
            if base and not before:
                fill = written(directory, "fill", base)
                before = [seconds(standard, fill, replies[0]), seconds(rangerun, fill, replies[1])]
            if base:
                times = [spent - earlier for spent, earlier in zip(times, before)]
            each = [1e9 * spent / len(commands) for spent in times]
            print(f"{name}: std {each[0]:.0f} ns, rangerun {each[1]:.0f} ns, ratio {each[1] / each[0]:.2f}", flush=True)


main()
