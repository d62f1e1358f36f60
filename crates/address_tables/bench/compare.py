"""Makes the shortest and the disjoint prefixes of the tables of Debian's tor-geoipdb beside a program in Python of the
same algorithm: compare.py PROGRAM [FOLDER], called by compare.sh. FOLDER has the tables, else /usr/share/tor.

Prints for each family how many entries each makes, the processor time of each call, the least of some runs, and the
memory. Both have to make as many.
"""

import ipaddress
import os
import pathlib
import subprocess
import sys
import tempfile
import time

# How often each call is made; the least counts.
RUNS = 5
CALLS = ("load", "shortest", "disjoint_prefixes", "from_prefixes")
WIDTHS = {4: 32, 6: 128}


def spans(path, width):
    """Returns the first and last address and the value of each block, those that touch with one value as one."""
    kind = int if width == 32 else lambda word: int(ipaddress.IPv6Address(word))
    found = []
    for line in open(path):
        if not line.startswith("#"):
            first, last, value = line.rstrip().split(",")
            first, last = kind(first), kind(last)
            if found and found[-1][2] == value and found[-1][1] + 1 == first:
                found[-1] = (found[-1][0], last, value)
            else:
                found.append((first, last, value))
    return found


def disjoint(spans, width):
    """Returns how many prefixes the blocks are, of which none overlap."""
    count = 0
    for first, last, _ in spans:
        while first <= last:
            free = min((first & -first).bit_length() - 1 if first else width, (last - first + 1).bit_length() - 1)
            first, count = first + (1 << free), count + 1
    return count


def joined(spans, width):
    """Returns how many prefixes are left where halves of one value become one, until there are none."""
    kept = []
    for first, last, value in spans:
        while first <= last:
            free = min((first & -first).bit_length() - 1 if first else width, (last - first + 1).bit_length() - 1)
            kept.append((first, free, value))
            first += 1 << free
            while len(kept) > 1 and kept[-2] == (kept[-1][0] - (1 << kept[-1][1]), *kept[-1][1:]) and kept[-2][0] >> kept[-1][1] & 1 == 0:
                low, size, value = kept[-2]
                kept[-2:] = [(low, size + 1, value)]
    return len(kept)


def gather(spans, width):
    """Returns the labels of all blocks, each before those of its halves: None where an address has no value."""
    at = 0

    def block(network, free):
        nonlocal at
        past = network + (1 << free)
        while at < len(spans) and spans[at][1] < network:
            at += 1
        if at == len(spans) or spans[at][0] >= past:
            return (None, None, None)
        first, last, value = spans[at]
        if first <= network and last >= past - 1:
            return ([value], None, None)
        low = block(network, free - 1)
        high = block(network + (1 << (free - 1)), free - 1)
        if low[0] is None or high[0] is None:
            return (None, low, high)
        both = [it for it in low[0] if it in high[0]]
        return (both or low[0] + high[0], low, high)

    return block(0, width)


def shortest(node, above):
    """Returns how many entries a block takes below a label."""
    labels, low, high = node
    label = None if labels is None else above if above in labels else labels[0]
    count = 0 if label == above else 1
    return count if low is None else count + shortest(low, label) + shortest(high, label)


def ran(program, family, call, path):
    """Returns what the program prints of a call, and its processor time in seconds and its memory in megabytes."""
    best = None
    for _ in range(RUNS):
        with open(path) as table, tempfile.TemporaryFile() as out:
            child = subprocess.Popen([program, str(family), call], stdin=table, stdout=out)
            _, status, used = os.wait4(child.pid, 0)
            child.returncode = os.waitstatus_to_exitcode(status)
            out.seek(0)
            count = int(out.read())
        seconds = used.ru_utime + used.ru_stime
        best = min(best or (count, seconds, used.ru_maxrss / 1000), (count, seconds, used.ru_maxrss / 1000))
    return best


def timed(call, *given):
    began = time.process_time()
    found = call(*given)
    return found, time.process_time() - began


def main():
    program, folder = sys.argv[1], pathlib.Path((sys.argv[2:] + ["/usr/share/tor"])[0])
    sys.setrecursionlimit(10000)
    tables = {4: folder / "geoip", 6: folder / "geoip6"}
    # First, since a child counts the memory of its parent as its own until it runs the program.
    made = {(family, call): ran(program, family, call, path) for family, path in tables.items() for call in CALLS}
    for family, path in tables.items():
        blocks = spans(path, WIDTHS[family])
        few, slow = timed(lambda: shortest(gather(blocks, WIDTHS[family]), None))
        apart, also = timed(disjoint, blocks, WIDTHS[family])
        halves = joined(blocks, WIDTHS[family])
        print(f"IPv{family}: Python: shortest {few} in {slow:.2f} s, disjoint {apart} in {also:.2f} s, halves joined {halves}")
        _, load, least = made[family, "load"]
        for call, wanted in zip(CALLS, (len(blocks), few, apart, len(blocks))):
            count, seconds, memory = made[family, call]
            print(f"  {call}: {count} in {seconds:.2f} s and {memory:.1f} MB, {seconds - load:.2f} s and {memory - least:.1f} MB more than load")
            assert count == wanted


main()
