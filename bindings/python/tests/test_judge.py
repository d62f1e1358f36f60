"""Random calls on maps and sets of keys of each kind, beside a list of what each key is bound to: each public call, and keys at
both ends of the kind. RANGE_MAP_CALLS is how many calls there are in all."""

import array
import copy
import datetime
import ipaddress
import itertools
import math
import os
import pickle
import random
import unittest
import uuid

from btree_range_map import UNBOUND, Connected, Range, RangeMap, RangeSet
from btree_range_map._keys import KEYS

CALLS = int(os.environ.get("RANGE_MAP_CALLS", "20000"))

#: a key of each kind beside which single ones lie, as at both ends
BETWEEN = {
    "char": "\ud7ff",
    "date": datetime.date(2000, 2, 29),
    "datetime": datetime.datetime(1999, 12, 31, 23, 59, 59, 999999),
    "utc": datetime.datetime(2000, 1, 1, tzinfo=datetime.timezone.utc),
    "ipv4": ipaddress.IPv4Address("127.255.255.255"),
    "ipv6": ipaddress.IPv6Address("::1:0:0:0:0"),
    "uuid": uuid.UUID(int=2**127),
    "u128": 2**64,
    "float": 0.0,
}

#: the key after one, told by the type of the keys
AFTER = {
    "date": lambda key: key + datetime.timedelta(1),
    "datetime": lambda key: key + datetime.timedelta(microseconds=1),
    "utc": lambda key: key + datetime.timedelta(microseconds=1),
    "ipv4": lambda key: key + 1,
    "ipv6": lambda key: key + 1,
    "uuid": lambda key: uuid.UUID(int=key.int + 1),
    "float": lambda key: math.nextafter(key, math.inf),
    "char": lambda key: "\ue000" if key == "\ud7ff" else chr(ord(key) + 1),
}

ENDS = {
    "char": ("\0", "\U0010ffff"),
    "date": (datetime.date.min, datetime.date.max),
    "datetime": (datetime.datetime.min, datetime.datetime.max),
    "utc": tuple(it.replace(tzinfo=datetime.timezone.utc) for it in (datetime.datetime.min, datetime.datetime.max)),
    "ipv4": (ipaddress.IPv4Address("0.0.0.0"), ipaddress.IPv4Address("255.255.255.255")),
    "ipv6": (ipaddress.IPv6Address("::"), ipaddress.IPv6Address("ffff:ffff:ffff:ffff:ffff:ffff:ffff:ffff")),
    "uuid": (uuid.UUID("00000000-0000-0000-0000-000000000000"), uuid.UUID("ffffffff-ffff-ffff-ffff-ffffffffffff")),
    "float": (-math.inf, math.inf),
}

VALUES = [("value", 1), None, ["no hash"], 1.5]


class Parts:
    """All keys of a kind in order: single ones near both ends and near some key between, and all that lie between those."""

    def __init__(self, name, numbers):
        self.kind, self.random = KEYS[name], numbers
        middle = self.kind.number(BETWEEN.get(name, 100 if self.kind.least == 0 else 0))
        near = sorted(
            {at for it in (self.kind.least, middle, self.kind.greatest) for at in range(it - 4, it + 5) if self.kind.least <= at <= self.kind.greatest}
        )
        self.numbers = [(near[0], near[0])]
        for at in near[1:]:
            past = self.numbers[-1][1] + 1
            self.numbers += [(past, at - 1)] * (past < at) + [(at, at)]
        self.keys = [(self.kind.key(first), self.kind.key(last)) for first, last in self.numbers]

    def key(self):
        at = self.random.randrange(len(self.keys))
        return self.random.choice(self.keys[at]), at

    def range(self):
        """A range in one of the ways to say it, and the parts that it is made of."""
        some, size = self.random.random, len(self.keys)
        start = self.random.randrange(size)
        end = size if some() < 0.1 else min(size, start + self.random.randrange(8))
        if start == end:
            key = self.key()[0]
            return self.random.choice([slice(key, key), Range(key, key), Range(key, key, False, True), Range(key, key, False, False)]), range(0)
        start = 0 if some() < 0.1 else start
        if end == start + 1 and self.keys[start][0] == self.keys[start][1] and some() < 0.5:
            return self.keys[start][0], range(start, end)
        is_plain = self.kind.is_plain
        low, holds_low = self.keys[start][0], True
        if start == 0 and some() < 0.5:
            low = None
        elif start > 0 and some() < 0.5:
            low, holds_low = self.keys[start - 1][1], False
        if end == size and some() < 0.5:
            high, holds_high = (self.kind.greatest + 1 if is_plain and some() < 0.5 else None), False
        elif end < size and some() < 0.7:
            high, holds_high = self.keys[end][0], False
        else:
            high, holds_high = self.keys[end - 1][1], True
        if holds_low and not holds_high and some() < 0.8:
            if is_plain and low is not None and high is not None and some() < 0.3:
                return range(low, high), range(start, end)
            return slice(low, high), range(start, end)
        return Range(low, high, holds_low, holds_high), range(start, end)

    def joined(self, bound):
        """The widest ranges with one value each, by first and last key, of the parts that are bound to one."""
        joined, before = [], UNBOUND
        for (first, last), value in zip(self.keys, bound):
            if value is not UNBOUND:
                if same(before, value):
                    joined[-1] = (joined[-1][0], last, value)
                else:
                    joined.append((first, last, value))
            before = value
        return joined

    def met(self, bound, at):
        first, last = (self.numbers[at[0]][0], self.numbers[at[-1]][1]) if at else (1, 0)
        number = self.kind.number
        return [it for it in self.joined(bound) if at and number(it[0]) <= last and number(it[1]) >= first]

    def pieces(self, bound, at):
        """The same of the parts in a range, those that are free bound to no value."""
        free = object()
        inside = [(free if value is UNBOUND else value) if i in at else UNBOUND for i, value in enumerate(bound)]
        return [(first, last, UNBOUND if value is free else value) for first, last, value in self.joined(inside)]

    def count(self, bound):
        return sum(last - first + 1 for (first, last), value in zip(self.numbers, bound) if value is not UNBOUND)

    def some(self, values):
        """Some ranges with values, and what they bind, the last of them first."""
        drawn, bound = [], [UNBOUND] * len(self.keys)
        for _ in range(self.random.randrange(6)):
            (keys, at), value = self.range(), self.random.choice(values)
            drawn.append((keys, value))
            for i in at:
                bound[i] = value
        return drawn, bound

    def spans(self, values):
        """Some starts, the stops beside them, in lists or in buffers, and values; and what they bind, the last of them first."""
        size, drawn, bound = len(self.keys), [], [UNBOUND] * len(self.keys)
        is_buffer = self.kind.is_plain and not self.kind.is_wide and self.random.random() < 0.5
        # what is past the last key is none of a kind other than whole numbers, and of no buffer of 64 bits
        last = size if self.kind.is_plain and not (is_buffer and self.kind.is_native) else size - 1
        for _ in range(self.random.randrange(6)):
            start, value = self.random.randrange(size), self.random.choice(values)
            stop = min(last, start + self.random.randrange(8))
            drawn.append((self.keys[start][0], self.keys[stop][0] if stop < size else self.kind.greatest + 1, value))
            bound[start:stop] = [value] * (stop - start)
        starts, stops, given = map(list, zip(*drawn)) if drawn else ([], [], [])
        if is_buffer:
            starts, stops = (array.array("q" if self.kind.is_signed else "Q", it) for it in (starts, stops))
        return starts, stops, given, bound


def bound_over(bound, later):
    """What two lists bind, the later one first."""
    return [one if two is UNBOUND else two for one, two in zip(bound, later)]


def bound_without(bound, other):
    """What a list binds of the keys that the other does not."""
    return [one if two is UNBOUND else UNBOUND for one, two in zip(bound, other)]


def same(one, other):
    return one is other or (not isinstance(one, list) and not isinstance(other, list) and one == other)


TURNS = itertools.count()


def told(keys):
    """The first and the last key of a range that a map or a set gives, which agree with all else that it tells."""
    first, last = keys.first, keys.last
    if next(TURNS) % 50:
        return first, last
    assert keys.start == first and first in keys and last in keys and keys.stop != last, keys
    assert keys.size >= 1 and bool(keys)
    if keys.size < 20:
        assert list(keys) == list(reversed(keys))[::-1] and len(keys) == len(list(keys)) == keys.size
        assert (list(keys)[0], list(keys)[-1]) == (first, last)
    bounds = keys.bounds
    again = Range(*bounds)
    assert bounds.start is None or again.start == keys.start
    assert bounds.end is None or again.stop == keys.stop
    assert pickle.loads(pickle.dumps(keys)).bounds == bounds
    return first, last


def shown(found):
    return [(*told(keys), value) for keys, value in found]


class Judge(unittest.TestCase):
    def is_alike(self, found, wanted):
        found, wanted = list(found), list(wanted)
        self.assertEqual(len(found), len(wanted))
        for one, other in zip(found, wanted):
            self.assertEqual(one[:2], other[:2])
            self.assertTrue(one[2] is other[2] or same(one[2], other[2]), (one, other))

    def test_maps(self):
        for name in KEYS:
            with self.subTest(name):
                self.judge_map(name, CALLS // len(KEYS) * 2 // 3 + 1)

    def test_sets(self):
        for name in KEYS:
            with self.subTest(name):
                self.judge_set(name, CALLS // len(KEYS) // 3 + 1)

    def judge_map(self, name, calls):
        numbers = random.Random(name)
        parts = Parts(name, numbers)
        held, bound = RangeMap(keys=name), [UNBOUND] * len(parts.keys)

        def bind(at, value):
            for i in at:
                bound[i] = value

        def unbind_run(run):
            for i, (first, _) in enumerate(parts.numbers):
                if parts.kind.number(run[0]) <= first <= parts.kind.number(run[1]):
                    bound[i] = UNBOUND

        for _ in range(calls):
            (keys, at), (key, part), value = parts.range(), parts.key(), numbers.choice(VALUES)
            is_free = all(bound[i] is UNBOUND for i in at)
            call = numbers.randrange(30)
            if call < 5:
                held[keys] = value
                bind(at, value)
            elif call < 7:
                del held[keys]
                bind(at, UNBOUND)
            elif call == 7:
                self.assertEqual(held.try_insert(keys, value), is_free)
                if is_free:
                    bind(at, value)
            elif call == 8:
                beside = range(max(0, at.start - 1), min(len(bound), at.stop + 1)) if at else at
                if all(bound[i] is UNBOUND for i in beside):
                    held.insert_disconnected(keys, value)
                    bind(at, value)
                else:
                    self.assertRaises(Connected, held.insert_disconnected, keys, value)
            elif call < 11:
                following = {id(it): following for it, following in zip([UNBOUND, *VALUES], [*VALUES, UNBOUND])}
                held.update(keys, lambda it: following[id(it)])
                for i in at:
                    bound[i] = following[id(bound[i])]
            elif call == 11:
                drawn, over = parts.some(VALUES)
                (held.update if numbers.random() < 0.5 else held.__ior__)(drawn)
                bound = bound_over(bound, over)
            elif call == 12:
                joined, is_first = parts.joined(bound), numbers.random() < 0.5
                found = (held.pop_first if is_first else held.pop_last)()
                self.is_alike(shown([found] if found else []), joined[:1] if is_first else joined[-1:])
                if joined:
                    unbind_run(joined[0 if is_first else -1])
            elif call == 13:
                joined = parts.joined(bound)
                if joined:
                    self.is_alike(shown([held.popitem()]), joined[-1:])
                    unbind_run(joined[-1])
                else:
                    self.assertRaises(KeyError, held.popitem)
            elif call == 14:
                rest = held.split_off(parts.keys[part][0])
                self.is_alike(shown(held.items()), parts.joined(bound[:part]))
                self.is_alike(shown(rest.items()), parts.joined([UNBOUND] * part + bound[part:]))
                self.check_values(rest)
                if numbers.random() < 0.5:
                    held.append(rest)
                    self.assertEqual((len(rest), len(rest._values)), (0, 0))
                else:
                    held, bound = rest, [UNBOUND] * part + bound[part:]
            elif call == 15:
                drawn, over = parts.some(VALUES)
                other = RangeMap(drawn, keys=name)
                self.is_alike(shown(other.items()), parts.joined(over))
                self.is_alike(shown((held | other).items()), parts.joined(bound_over(bound, over)))
                for few in (other, RangeSet(other, keys=name)):
                    self.is_alike(shown(held.restrict(few).items()), parts.joined([UNBOUND if b is UNBOUND else a for a, b in zip(bound, over)]))
                    self.is_alike(shown(held.without(few).items()), parts.joined(bound_without(bound, over)))
                merged = [UNBOUND if a is UNBOUND and b is UNBOUND or a is None else (repr(a), repr(b)) for a, b in zip(bound, over)]
                made = held.merge_with(other, lambda a, b: UNBOUND if a is None else (repr(a), repr(b)))
                self.is_alike(shown(made.items()), parts.joined(merged))
                self.assertEqual(held == other, len(bound) == len(over) and all(map(same, bound, over)))
            elif call == 16:
                for made in (held.copy(), copy.copy(held), held | {}, held - RangeSet(keys=name)):
                    self.assertEqual((made, repr(made)), (held, repr(held)))
                    self.check_values(made)
                held.shrink_to_fit()
            elif call == 17 and numbers.random() < 0.1:
                held.clear()
                bind(range(len(bound)), UNBOUND)
            elif call == 18:
                self.is_alike(shown(held.pieces(keys, UNBOUND)), parts.pieces(bound, at))
                self.is_alike(shown(held.pieces(keys)), [it for it in parts.pieces(bound, at) if it[2] is not UNBOUND])
                self.assertEqual([told(it) for it in held.gaps(keys)], [it[:2] for it in parts.pieces(bound, at) if it[2] is UNBOUND])
                self.is_alike(shown(held.overlapping(keys)), parts.met(bound, at))
            elif call == 19:
                drawn = [parts.key() for _ in range(numbers.randrange(50))]
                found = held.get_many([key for key, _ in drawn], UNBOUND)
                self.assertTrue(all(map(same, found, (bound[part] for _, part in drawn))))
            elif call == 22:
                starts, stops, given, later = parts.spans(VALUES)
                held.insert_many(starts, stops, given)
                bound = bound_over(bound, later)
            elif call == 23:
                starts, stops, _, other = parts.spans([True])
                held.remove_many(starts, stops)
                bound = bound_without(bound, other)
            elif call == 20 and bound[part] is UNBOUND:
                self.assertIs(held.setdefault(parts.keys[part][0], value), value)
                if parts.keys[part][0] != parts.keys[part][1]:
                    del held[parts.keys[part][0]]
                else:
                    bound[part] = value
            elif call == 21 and parts.keys[part][0] == parts.keys[part][1]:
                self.assertTrue(same(held.pop(key, UNBOUND), bound[part]))
                bound[part] = UNBOUND
            else:
                joined, number = parts.joined(bound), parts.kind.number(key)
                ends = [(parts.kind.number(first), parts.kind.number(last)) for first, last, _ in joined]
                self.assertTrue(same(held.get(key, UNBOUND), bound[part]))
                self.assertEqual((key in held, held.intersects(keys)), (bound[part] is not UNBOUND, not is_free))
                if bound[part] is UNBOUND:
                    self.assertRaises(KeyError, held.__getitem__, key)
                else:
                    self.assertTrue(same(held[key], bound[part]))
                holding = [it for it, (first, last) in zip(joined, ends) if first <= number <= last]
                following = [it for it, (_, last) in zip(joined, ends) if last >= number][:1]
                before = [it for it, (first, _) in zip(joined, ends) if first <= number][-1:]
                for found, wanted in [(held.entry(key), holding), (held.next(key), following), (held.previous(key), before), (held.first(), joined[:1]), (held.last(), joined[-1:])]:
                    self.is_alike(shown([found] if found else []), wanted)
                self.assertEqual((held.key_count(), bool(held)), (parts.count(bound), bool(joined)))
            joined = parts.joined(bound)
            self.is_alike(shown(held.items()), joined)
            self.assertEqual((len(held), list(held)), (len(joined), [keys for keys, _ in held.items()]))
            self.check_values(held)
        self.assertTrue(all(map(same, held.values(), (it[2] for it in joined))))
        self.assertEqual([list(held.keys()), list(held.ranges())], [list(reversed(held))[::-1]] * 2)
        plain = RangeMap(((keys, repr(value)) for keys, value in held.items()), keys=name)
        for made in (pickle.loads(pickle.dumps(plain)), copy.deepcopy(plain)):
            self.assertEqual(made, plain)
        read = RangeMap(keys=name)
        read.load_json(plain.to_json())
        self.assertEqual((read, read.to_json()), (plain, plain.to_json()))

    def check_values(self, held):
        """Each value that is kept is that of just so many ranges."""
        values = held._values
        counts = {}
        for number in held._numbers_within():
            counts[number] = counts.get(number, 0) + 1
        self.assertEqual({number: count for number, count in enumerate(values.ranges) if count}, counts)
        self.assertEqual(len(values), len(counts))

    def judge_set(self, name, calls):
        numbers = random.Random(name)
        parts = Parts(name, numbers)
        held, bound = RangeSet(keys=name), [UNBOUND] * len(parts.keys)

        def set_all(at, value):
            for i in at:
                bound[i] = value

        def unbind_run(run):
            for i, (first, _) in enumerate(parts.numbers):
                if parts.kind.number(run[0]) <= first <= parts.kind.number(run[1]):
                    bound[i] = UNBOUND

        def ends(bound):
            return [(first, last) for first, last, _ in parts.joined(bound)]

        for _ in range(calls):
            (keys, at), (key, part) = parts.range(), parts.key()
            is_free = all(bound[i] is UNBOUND for i in at)
            call = numbers.randrange(20)
            if call < 5:
                held.add(keys)
                set_all(at, True)
            elif call < 8:
                held.discard(keys)
                set_all(at, UNBOUND)
            elif call == 8:
                self.assertEqual(held.try_insert(keys), is_free)
                set_all(at if is_free else (), True)
            elif call == 9:
                drawn, over = parts.some([True])
                held.update(keys for keys, _ in drawn)
                bound = [True if True in it else UNBOUND for it in zip(bound, over)]
            elif call == 10:
                joined, is_first = ends(bound), numbers.random() < 0.5
                found = (held.pop_first if is_first else held.pop_last)()
                self.assertEqual([told(found)] if found else [], joined[:1] if is_first else joined[-1:])
                if joined:
                    unbind_run(joined[0 if is_first else -1])
            elif call < 13:
                drawn, over = parts.some([True])
                other = RangeSet([keys for keys, _ in drawn], keys=name)
                both = [(one is True, two is True) for one, two in zip(bound, over)]
                for made, in_place, call in [
                    (held | other, "__ior__", lambda a, b: a or b),
                    (held & other, "__iand__", lambda a, b: a and b),
                    (held - other, "__isub__", lambda a, b: a and not b),
                    (held ^ other, "__ixor__", lambda a, b: a != b),
                ]:
                    wanted = ends([call(*it) or UNBOUND for it in both])
                    self.assertEqual([told(it) for it in made], wanted)
                    changed = held.copy()
                    self.assertIs(getattr(changed, in_place)(other), changed)
                    self.assertEqual(changed, made)
                self.assertEqual([told(it) for it in ~held], ends([not one or UNBOUND for one, _ in both]))
                self.assertEqual(held.complement(), ~held)
                is_subset, is_superset = all(b for a, b in both if a), all(a for a, b in both if b)
                self.assertEqual((held <= other, held >= other, held == other), (is_subset, is_superset, is_subset and is_superset))
                self.assertEqual((held < other, held > other), (is_subset and not is_superset, is_superset and not is_subset))
                is_disjoint = not any(a and b for a, b in both)
                self.assertEqual((held.isdisjoint(other), held.isdisjoint([keys for keys, _ in drawn])), (is_disjoint,) * 2)
                for made in (held.copy(), copy.deepcopy(held), held | held, held & held, pickle.loads(pickle.dumps(held))):
                    self.assertEqual((made, repr(made)), (held, repr(held)))
                held.shrink_to_fit()
            elif call == 13 and numbers.random() < 0.1:
                held.clear()
                set_all(range(len(bound)), UNBOUND)
            elif call == 14:
                self.assertEqual([told(it) for it in held.gaps(keys)], [it[:2] for it in parts.pieces(bound, at) if it[2] is UNBOUND])
                self.assertEqual([told(it) for it in held.overlapping(keys)], [it[:2] for it in parts.met(bound, at)])
            elif call == 16:
                starts, stops, _, later = parts.spans([True])
                held.add_many(starts, stops)
                bound = bound_over(bound, later)
            elif call == 17:
                starts, stops, _, other = parts.spans([True])
                held.discard_many(starts, stops)
                bound = bound_without(bound, other)
            elif call == 15 and bound[part] is True and parts.keys[part][0] == parts.keys[part][1]:
                if ends(bound)[0][0] == key:
                    self.assertEqual(held.pop(), key)
                else:
                    held.remove(key)
                bound[part] = UNBOUND
                self.assertRaises(KeyError, held.remove, key)
            else:
                number, joined = parts.kind.number(key), ends(bound)
                places = [(parts.kind.number(first), parts.kind.number(last)) for first, last in joined]
                self.assertEqual((key in held, held.intersects(keys)), (bound[part] is True, not is_free))
                holding = [it for it, (first, last) in zip(joined, places) if first <= number <= last]
                following = [it for it, (_, last) in zip(joined, places) if last >= number][:1]
                before = [it for it, (first, _) in zip(joined, places) if first <= number][-1:]
                for found, wanted in [(held.range_of(key), holding), (held.next(key), following), (held.previous(key), before), (held.first(), joined[:1]), (held.last(), joined[-1:])]:
                    self.assertEqual([told(found)] if found else [], wanted)
                self.assertEqual((held.key_count(), bool(held)), (parts.count(bound), bool(joined)))
            self.assertEqual([told(it) for it in held], ends(bound))
            self.assertEqual((len(held), list(reversed(held))[::-1]), (len(ends(bound)), list(held)))
        read = RangeSet(keys=name)
        read.load_json(held.to_json())
        self.assertEqual((read, read.to_json()), (held, held.to_json()))

    def test_keys_have_numbers_in_their_order(self):
        """The next number is that of the next key, at both ends and between, and whole kinds have the ends of their types."""
        numbers = random.Random(1)
        for name, kind in KEYS.items():
            places = {it for at in (kind.least, kind.greatest, kind.number(BETWEEN.get(name, 1))) for it in range(at - 50, at + 50)}
            places |= {numbers.randrange(kind.least, kind.greatest) for _ in range(200)}
            after = AFTER.get(name, lambda key: key + 1)
            for number in places:
                if kind.least <= number < kind.greatest:
                    key, following = kind.key(number), kind.key(number + 1)
                    self.assertEqual((kind.number(key), after(key), key < following), (number, following, True))
                    self.assertEqual(kind.of_json(kind.to_json(key)), key)
            self.assertEqual((kind.key(kind.least), kind.key(kind.greatest)), ENDS.get(name, (kind.least, kind.greatest)))
            self.assertEqual(kind.number(kind.key(kind.greatest)), kind.greatest)
            whole = RangeMap([(slice(None), 1)], keys=name)
            self.assertEqual((whole.key_count(), len(whole)), (kind.greatest - kind.least + 1, 1))

    def test_keys_that_are_of_no_kind(self):
        for name, wrong in [
            ("float", "a"), ("date", datetime.datetime(2000, 1, 1)), ("date", 5), ("datetime", datetime.date(2000, 1, 1)),
            ("datetime", datetime.datetime.now(datetime.timezone.utc)), ("utc", datetime.datetime.now()), ("ipv4", "1.2.3.4"), ("ipv4", 7),
        ]:
            self.assertRaises(TypeError, RangeMap(keys=name).__setitem__, wrong, 1)
            self.assertNotIn(wrong, RangeSet([slice(None)], keys=name))
        self.assertRaises(OverflowError, RangeSet(keys="float").add, math.nan)
        self.assertRaises(OverflowError, RangeSet(keys="float").add, 2**53 + 1)
        self.assertIsNone(RangeMap([(slice(None), 1)], keys="float").get(math.nan))
        zeros = RangeMap([(-0.0, "zero")], keys="float")
        self.assertEqual((zeros[0], zeros[0.0], zeros.get(5e-324), zeros.key_count()), ("zero", "zero", None, 1))
        half = RangeMap([(slice(0.5, 1.5), "a")], keys="float")
        self.assertEqual((half[0.5], half[1], half.get(1.5), repr(half)), ("a", "a", None, "RangeMap({0.5:1.5: 'a'}, keys='float')"))
        east = datetime.timezone(datetime.timedelta(hours=2))
        times = RangeMap([(slice(datetime.datetime(2000, 1, 1, 2, tzinfo=east), None), 1)], keys="utc")
        self.assertEqual(times.first()[0].start, datetime.datetime(2000, 1, 1, tzinfo=datetime.timezone.utc))
        with self.assertRaisesRegex(KeyError, "u8, .*char.*float"):
            RangeMap(keys="u7")


if __name__ == "__main__":
    unittest.main()
