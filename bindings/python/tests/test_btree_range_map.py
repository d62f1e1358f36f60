"""Tests of the package: python3 -m unittest in this folder, with the package installed or RANGE_MAP_LIBRARY set."""

import array
import copy
import doctest
import gc
import ipaddress
import json
import os
import pickle
import random
import signal
import threading
import time
import unittest
import unittest.mock
import uuid
import weakref

import btree_range_map
from btree_range_map import Connected, NotLoaded, Range, RangeMap, RangeSet

#: How many random calls the comparisons with plain dicts make.
CALLS = int(os.environ.get("RANGE_MAP_CALLS", "20000"))


def keys_of(keys):
    """The keys of a range of whole numbers."""
    return keys.to_range()


class Index:
    """A whole number of another library, as numpy has them."""

    def __init__(self, number):
        self.number = number

    def __index__(self):
        return self.number


class Maps(unittest.TestCase):
    def test_ranges_are_joined_and_cut(self):
        ports = RangeMap([(slice(0, 1024), 1), (80, 2)])
        self.assertEqual((ports[80], ports[81], len(ports), ports.key_count()), (2, 1, 3, 1024))
        self.assertEqual(list(ports.items())[1:], [(Range(80, 80, True, True), 2), (Range(80, 1024, False), 1)])
        self.assertEqual(list(ports)[0], Range(0, 80))
        ports[80] = 1
        self.assertEqual((len(ports), ports.entry(5)), (1, (Range(0, 1024), 1)))
        del ports[10:20]
        self.assertNotIn(10, ports)
        self.assertIn(20, ports)
        self.assertIsNone(ports.get(15))
        self.assertEqual(ports.get(15, 7), 7)
        with self.assertRaises(KeyError):
            ports[15]

    def test_values_of_any_type(self):
        room = RangeMap({Range(0, 10): "free", range(3, 5): None, 7: 1.5})
        self.assertEqual([room[0], room[4], room[7], room[9]], ["free", None, 1.5, "free"])
        some, more = [1], [1]
        room[0:2], room[2:4] = some, more
        self.assertIs(room[0], some)
        self.assertIs(room[3], more)
        self.assertEqual(len([value for value in room.values() if value == [1]]), 2)
        room[0:4] = some
        self.assertEqual(room.entry(3), (Range(0, 4), some))
        room[20:30] = (1, 2)
        room[30:40] = tuple([1, 2])
        self.assertEqual(room.last(), (Range(20, 40), (1, 2)))

    def test_values_that_are_not_used_are_freed(self):
        numbers = RangeMap()
        for at in range(10_000):
            numbers[at % 50] = f"value {at}"
        self.assertEqual(len(numbers), 50)
        self.assertEqual(len(numbers._values), 50)
        self.assertEqual(numbers[49], "value 9999")

    def test_values_are_freed_as_soon_as_no_range_has_them(self):
        class Value:
            pass

        def alive(held):
            gc.collect()
            return [ref() is not None for ref in held]

        values = [Value() for _ in range(6)]
        refs = [weakref.ref(value) for value in values]
        keys = RangeMap([(slice(10 * at, 10 * at + 5), value) for at, value in enumerate(values)])
        del values
        self.assertEqual(alive(refs), [True] * 6)
        keys[0:5] = "over"
        del keys[11:13]
        self.assertEqual(alive(refs), [False] + [True] * 5)
        del keys[0:20]
        self.assertEqual(alive(refs), [False] * 2 + [True] * 4)
        keys.update([(slice(20, 25), "many"), (50, "more")])
        self.assertEqual(alive(refs), [False] * 3 + [True] * 3)
        rest = keys.split_off(42)
        self.assertEqual(rest.pop_first()[0], Range(42, 45))
        self.assertEqual(alive(refs), [False] * 3 + [True] * 3)
        keys.remove_many([30, 40], [35, 45])
        self.assertEqual(alive(refs), [False] * 5 + [True])
        rest.clear()
        self.assertEqual((alive(refs), len(rest._values)), ([False] * 6, 0))
        for at in range(100):
            keys[0] = bytes(100_000) + bytes([at])
        self.assertEqual(len(keys._values), 2)

    def test_a_value_may_change_the_map_while_it_is_compared(self):
        """No key is bound to a value that nobody bound it to, whatever comparing a value does to the map."""

        class Odd:
            def __init__(self, change):
                self.change = change

            def __hash__(self):
                return 7

            def __eq__(self, other):
                self.change()
                return False

        class Plain:
            def __hash__(self):
                return 7

        def changes(keys):
            yield lambda: keys.clear()
            yield lambda: keys.__delitem__(slice(None))
            yield lambda: keys.update([(at, ("other", at)) for at in range(50, 60)])
            yield lambda: (keys.clear(), keys.update([(at, ("other", at)) for at in range(50, 60)]))
            yield lambda: keys.split_off(0).close()
            yield lambda: keys.pop_first()

        for which in range(6):
            for insert in (lambda keys, odd: keys.__setitem__(slice(0, 5), odd), lambda keys, odd: keys.update([(7, "b"), (slice(0, 5), odd), (9, "c")])):
                keys = RangeMap([(slice(20, 30), Plain()), (slice(30, 40), Plain()), (slice(40, 45), "a")])
                odd = Odd(list(changes(keys))[which])
                insert(keys, odd)
                self.assertTrue(all(keys[key] is odd for key in range(5)), which)
                for keys_held, value in keys.items():
                    self.assertIn((value is odd, type(value)), [(True, Odd), (False, Plain), (False, str), (False, tuple)])
                    if isinstance(value, tuple):
                        self.assertEqual(value, ("other", keys_held.first))
        for swap in (lambda keys: keys.__init__(), lambda keys: keys.load_json("[]"), lambda keys: keys.close()):
            keys = RangeMap([(slice(20, 30), Plain())])
            self.assertRaises(RuntimeError, keys.__setitem__, 3, Odd(lambda: swap(keys)))

    def test_bounds_of_each_kind(self):
        keys = RangeMap(keys="i64")
        keys[:] = 1
        self.assertEqual((keys.key_count(), keys.first()), (2**64, (Range(-(2**63), 2**63), 1)))
        self.assertEqual(keys.first()[0].bounds, (None, None, False, False))
        del keys[-5:5]
        self.assertEqual(keys.last(), (Range(5, 2**63), 1))
        self.assertEqual([it.bounds for it in keys], [(None, -5, False, False), (5, None, True, False)])
        self.assertEqual(repr(keys), "RangeMap({:-5: 1, 5:: 1}, keys='i64')")
        keys[Range(-5, 5, False, True)] = 2
        self.assertEqual((keys[-4], keys[5], keys.get(-5), keys[-6]), (2, 2, None, 1))
        self.assertEqual([keys.pop_first()[1], keys.pop_last()[1], keys.pop_last()[1]], [1, 1, 2])
        self.assertIsNone(keys.pop_last())

    def test_keys_of_each_kind(self):
        for name, least, greatest in [("u8", 0, 255), ("i8", -128, 127), ("u32", 0, 2**32 - 1), ("i64", -(2**63), 2**63 - 1), ("u128", 0, 2**128 - 1), ("i128", -(2**127), 2**127 - 1)]:
            keys, held = RangeMap(keys=name), RangeSet(keys=name)
            keys[:] = "all"
            held.add(slice(None))
            self.assertEqual((keys.key_count(), held.key_count()), (greatest - least + 1,) * 2)
            self.assertEqual((keys[least], keys[greatest], least in held, greatest + 1 in held), ("all", "all", True, False))
            with self.assertRaises(OverflowError):
                keys[greatest + 1] = 1
            held.discard(least)
            self.assertEqual(list(held.gaps()), [Range(least, least, True, True)])
            self.assertEqual(list(held.complement() | held), list(RangeSet([slice(least, None)], keys=name)))
            keys[least : greatest + 1] = 5
            self.assertEqual(len(keys), 1)
        self.assertEqual(RangeSet([slice(0, 1)], keys="i8").to_json(), '[[{"Included":0},{"Excluded":1}]]')

    def test_characters(self):
        kinds = RangeMap([(Range("a", "z", True, True), "letter"), ("e", "vowel")], keys="char")
        self.assertEqual((kinds["e"], kinds["f"], len(kinds), kinds.get("E")), ("vowel", "letter", 3, None))
        letters = RangeSet([Range("a", "\ud7ff", True, True), Range("\ue000", "\ue010")], keys="char")
        self.assertEqual(letters.first(), Range("a", "\ue010"))
        self.assertNotIn("\ud800", letters)
        self.assertNotIn("ab", letters)
        read = RangeMap(keys="char")
        read.load_json(kinds.to_json())
        self.assertEqual(read, kinds)
        self.assertEqual(read.to_json(), kinds.to_json())

    def test_networks_are_ranges(self):
        address, network = ipaddress.ip_address, ipaddress.ip_network
        owners = RangeMap([(network("10.0.0.0/8"), "ours"), (address("10.1.2.3"), "this")], keys="ipv4")
        owners[network("10.2.0.0/16")] = "site"
        self.assertEqual((owners[address("10.2.255.255")], owners[address("10.3.0.0")], owners.get(address("11.0.0.0"))), ("site", "ours", None))
        held = RangeSet([network("10.0.0.0/8"), network("0.0.0.0/5"), network("255.255.255.255/32")], keys="ipv4")
        self.assertEqual((held.key_count(), held.first().stop, held.last().stop), (2**24 + 2**27 + 1, address("8.0.0.0"), None))
        held.discard(network("0.0.0.0/0"))
        self.assertEqual(len(held), 0)
        for other in (network("::/96"), "10.0.0.0/8"):
            self.assertRaises(TypeError, held.add, other)
        self.assertRaises(TypeError, RangeSet().add, network("10.0.0.0/8"))

    def test_addresses_and_identifiers(self):
        address, network = ipaddress.ip_address, ipaddress.ip_network
        owners = RangeMap([(network("2001:db8::/32"), "documents"), (address("::1"), "this")], keys="ipv6")
        owners[network("2001:db8:1::/48")] = "site"
        self.assertEqual((owners[address("2001:db8:1::5")], owners.get(address("2001:db9::"))), ("site", None))
        self.assertEqual([str(it.last) for it in owners], ["::1", "2001:db8:0:ffff:ffff:ffff:ffff:ffff", "2001:db8:1:ffff:ffff:ffff:ffff:ffff", "2001:db8:ffff:ffff:ffff:ffff:ffff:ffff"])
        read = RangeMap(keys="ipv6")
        read.load_json(owners.to_json())
        self.assertEqual((read, "2001:db8:1::" in read.to_json()), (owners, True))
        held = RangeSet([network("10.0.0.0/8"), network("0.0.0.0/5")], keys="ipv4")
        self.assertEqual((held.key_count(), held.first().stop), (2**24 + 2**27, address("8.0.0.0")))
        self.assertEqual(RangeSet([network("::/0")], keys="ipv6").key_count(), 2**128)
        for key in (address("1.2.3.4"), network("10.0.0.0/8"), address("fe80::1%eth0"), 5):
            with self.assertRaises(TypeError):
                owners[key] = "none"
        one = uuid.UUID("12345678-1234-5678-1234-567812345678")
        kinds = RangeMap([(Range(one, uuid.UUID(int=2**128 - 1), True, True), "late")], keys="uuid")
        self.assertEqual((kinds[one], kinds.get(uuid.UUID(int=0)), kinds.first()[0].stop), ("late", None, None))
        self.assertEqual(kinds.get_many([one, uuid.UUID(int=one.int - 1)], "early"), ["late", "early"])
        self.assertIn(f'{{"Included":"{one}"}}', kinds.to_json())
        self.assertEqual(RangeSet([2**100, 2**64 - 1], keys="u128").to_json(), f'[[{{"Included":{2**64 - 1}}},{{"Included":{2**64 - 1}}}],[{{"Included":{2**100}}},{{"Included":{2**100}}}]]')
        self.assertRaises(TypeError, kinds.__getitem__, address("::1"))

    def test_refusals_change_nothing(self):
        keys = RangeMap([(slice(0, 10), 1)])
        with self.assertRaises(Connected):
            keys.insert_disconnected(slice(10, 20), 2)
        keys.insert_disconnected(slice(11, 20), 2)
        self.assertFalse(keys.try_insert(slice(9, 12), 3))
        for wrong, error in [(-1, OverflowError), (2**64, OverflowError), ("a", TypeError), (1.5, TypeError), (None, TypeError)]:
            with self.assertRaises(error):
                keys[wrong] = 1
            with self.assertRaises(TypeError if error is TypeError else KeyError):
                keys[wrong]
            self.assertNotIn(wrong, keys)
        self.assertEqual((len(keys), keys.last()), (2, (Range(11, 20), 2)))
        with self.assertRaises(TypeError):
            keys[0:5]
        with self.assertRaises(ValueError):
            keys[0:5:2] = 1
        keys[0 : 2**64] = 3
        self.assertEqual((len(keys), keys.key_count()), (1, 2**64))
        keys[Index(5)] = 4
        self.assertEqual((keys[5], keys[Index(5)], Index(5) in keys), (4, 4, True))

    def test_keys_that_are_none(self):
        """Which calls are quiet of a number outside of the kind, and of a key of a wrong type."""
        keys, held = RangeMap([(slice(0, 10), "a")], keys="u8"), RangeSet([slice(0, 10)], keys="u8")
        for wrong in (-1, 256, "a", None, 1.5):
            self.assertFalse(wrong in keys or wrong in held)
            with self.assertRaises(KeyError):
                held.remove(wrong)
        for wrong in (-1, 256):
            self.assertEqual((keys.get(wrong, 7), keys.pop(wrong, 7), keys.get_many([wrong, 5], 7)), (7, 7, [7, "a"]))
            for call in (keys.__getitem__, keys.pop):
                self.assertRaises(KeyError, call, wrong)
            calls = [keys.entry, keys.next, keys.previous, keys.intersects, keys.setdefault, keys.__delitem__, keys.split_off]
            calls += [held.range_of, held.next, held.previous, held.intersects, held.add, held.try_insert, held.discard]
            calls += [lambda key: list(keys.pieces(key)), lambda key: list(held.gaps(key)), lambda key: list(held.overlapping(key))]
            for call in calls:
                self.assertRaises(OverflowError, call, wrong)
        for wrong in ("a", None, 1.5):
            calls = [keys.get, keys.pop, lambda key: keys.pop(key, 7), lambda key: keys.get_many([key]), keys.__getitem__]
            for call in (*calls, keys.entry, keys.intersects, keys.setdefault, keys.__delitem__, held.range_of, held.discard):
                self.assertRaises(TypeError, call, wrong)
        self.assertEqual((len(keys), len(held)), (1, 1))

    def test_closed_collections_raise(self):
        with RangeMap([(1, 1)]) as keys:
            self.assertEqual(keys[1], 1)
        keys.close()
        held = RangeSet([1])
        held.close()
        calls = [lambda: keys[1], lambda: keys.load_json("[]"), lambda: held.load_json("[]"), lambda: held.add(1), lambda: held.try_insert(1)]
        calls += [lambda: keys.restrict(held), lambda: RangeMap().append(keys), lambda: keys.append(RangeMap([(1, 1)]))]
        for closed in (keys, held):
            calls += [closed.first, closed.clear, closed.key_count, closed.to_json, closed.copy, lambda it=closed: list(it)]
            calls += [lambda it=closed: len(it), lambda it=closed: bool(it), lambda it=closed: 1 in it, lambda it=closed: "a" in it]
            calls += [lambda it=closed: it == it, lambda it=closed: it == it.__class__(), lambda it=closed: it.update([]), closed.shrink_to_fit]
            calls += [lambda it=closed: it.intersects(1), lambda it=closed: list(it.gaps()), lambda it=closed: pickle.dumps(it)]
            self.assertEqual(repr(closed), f"<closed {type(closed).__name__}>")
        calls += [lambda: keys.get(-1), lambda: keys.get_many([1]), lambda: keys.insert_many([1], [2], [3]), lambda: keys.remove_many([1], [2])]
        calls += [lambda: keys.update(1, id), lambda: keys.merge_with(RangeMap(), id), lambda: keys | {}, lambda: keys.__setitem__(slice(1, 1), 1)]
        calls += [lambda: held == {1}, lambda: ~held, lambda: held | {1}, held.pop, lambda: held.add_many([1], [2]), lambda: held.isdisjoint([1])]
        for call in calls:
            self.assertRaisesRegex(RuntimeError, "^the collection is closed$", call)

    def test_no_memory_says_no_more(self):
        """Of many ranges some may have been inserted before."""
        keys = RangeMap()
        with unittest.mock.patch.object(keys._kind, "insert_many", lambda *words: 1):
            with self.assertRaisesRegex(MemoryError, "^no memory$"):
                keys.update([(1, "a")])

    def test_copies_share_nothing(self):
        first = RangeMap([(slice(0, 10), "a"), (20, ["b"])], keys="i64")
        for made in (copy.copy(first), copy.deepcopy(first), pickle.loads(pickle.dumps(first)), first.copy()):
            self.assertEqual((made, made.keys_kind), (first, "i64"))
            made[0:5] = "c"
            self.assertEqual((first[0], made[0], first != made), ("a", "c", True))
            made.close()
        self.assertEqual((first[0], len(first)), ("a", 2))
        self.assertIs(copy.copy(first)[20], first[20])
        self.assertIsNot(copy.deepcopy(first)[20], first[20])
        keys = RangeSet([slice(0, 10), 20])
        for made in (copy.copy(keys), copy.deepcopy(keys), pickle.loads(pickle.dumps(keys))):
            self.assertEqual(made, keys)
            made.add(100)
            self.assertNotEqual(made, keys)

    def test_a_second_init_starts_anew(self):
        keys = RangeMap([(1, 1)])
        keys.__init__([(2, 2)])
        self.assertEqual(repr(keys), "RangeMap({2: 2})")

    def test_equality_is_of_bindings(self):
        self.assertEqual(RangeMap([(slice(0, 10), 1)]), RangeMap([(Range(0, 9, True, True), 1)]))
        self.assertNotEqual(RangeMap([(slice(0, 10), 1)]), RangeMap([(slice(0, 10), 2)]))
        self.assertNotEqual(RangeMap(), RangeMap(keys="i64"))
        self.assertFalse(RangeMap() == {})
        with self.assertRaises(TypeError):
            hash(RangeMap())

    def test_ranges_are_half_open(self):
        rooms = RangeMap([(slice(9, 17), "open"), (12, "lunch")])
        self.assertEqual([(it.start, it.stop) for it in rooms], [(9, 12), (12, 13), (13, 17)])
        self.assertEqual([range(it.start, it.stop) for it in rooms], [it.to_range() for it in rooms])
        keys = list(rooms)[2]
        self.assertEqual((keys.first, keys.last, keys.size, len(keys), list(keys)), (13, 16, 4, 4, [13, 14, 15, 16]))
        self.assertEqual((keys.bounds, keys), ((12, 17, False, False), Range(12, 17, False)))
        letters = RangeSet([Range("a", "z", True, True)], keys="char").first()
        self.assertEqual((letters.start, letters.stop, letters.first, letters.last, len(letters)), ("a", "{", "a", "z", 26))
        self.assertEqual("".join(letters), "abcdefghijklmnopqrstuvwxyz")
        last = RangeSet([slice("\U0010fffe", None)], keys="char").first()
        self.assertEqual((last.stop, list(last), len(last)), (None, ["\U0010fffe", "\U0010ffff"], 2))
        self.assertRaises(TypeError, letters.to_range)
        whole = RangeSet([slice(None)]).first()
        self.assertEqual((whole.start, whole.stop, whole.size, bool(whole)), (0, 2**64, 2**64, True))
        self.assertRaises(OverflowError, len, whole)
        empty, open_range = Range(5, 5), Range(None, 5)
        self.assertEqual((empty.size, list(empty), bool(empty), bool(open_range)), (0, [], False, True))
        for call in (lambda: empty.first, lambda: empty.last, lambda: open_range.size, lambda: list(open_range), lambda: Range(5).last):
            self.assertRaises(ValueError, call)
        for wrong in (("a", 5), (1.5, "b"), ((1,), 2)):
            self.assertRaises(TypeError, Range, *wrong)
        self.assertEqual((Range(0, 5), hash(Range(0, 5)), repr(Range(0, 4, True, True))), (Range(0, 4, True, True), hash(Range(-1, 4, False, True)), "Range(0, 5)"))
        self.assertEqual(Range("\U0010ffff", None, False).size, 0)

    def test_maps_do_what_dicts_do(self):
        keys = RangeMap([(slice(0, 5), "a"), (7, "b")])
        self.assertEqual(repr(keys | {3: "c", Range(8, 10): "d"}), "RangeMap({0:3: 'a', 3: 'c', 4: 'a', 7: 'b', 8:10: 'd'})")
        self.assertEqual(repr({3: "c", 9: "d"} | keys), "RangeMap({0:5: 'a', 7: 'b', 9: 'd'})")
        self.assertEqual((keys.popitem(), keys.popitem(), len(keys)), ((Range(7, 8), "b"), (Range(0, 5), "a"), 0))
        self.assertRaises(KeyError, keys.popitem)
        with self.assertRaises(TypeError):
            keys | [1]
        keys[5] = keys
        self.assertEqual(repr(keys), "RangeMap({5: ...})")
        for made in (copy.deepcopy(keys), pickle.loads(pickle.dumps(keys))):
            self.assertIs(made[5], made)

    def test_sets_do_what_sets_do(self):
        held = RangeSet([slice(0, 3)])
        self.assertTrue(held == {0, 1, 2} and {0, 1, 2} == held and held != {0, 1} and held != {0, 1, 3} and held != {"a", 1, 2} and held != [0, 1, 2])
        self.assertTrue(held >= {1} and held <= {0, 1, 2, 3} and held < {0, 1, 2, 3} and not held > {0, 1, 2} and {1, 2} <= held)
        self.assertEqual((held | {5}, held & {1}, held - {1}, held ^ {1, 7}), ({0, 1, 2, 5}, {1}, {0, 2}, {0, 2, 7}))
        self.assertEqual(({5} | held, {1, 9} & held, {1, 9} - held, {1, 7} ^ held), ({0, 1, 2, 5}, {1}, {9}, {0, 2, 7}))
        self.assertEqual((held.isdisjoint([5, slice(7, 9)]), held.isdisjoint(range(2, 9))), (True, False))
        self.assertEqual((~held, (~held).first()), (held.complement(), Range(3, 2**64)))
        self.assertEqual((held.pop(), held.pop(), held.pop(), len(held)), (0, 1, 2, 0))
        self.assertRaises(KeyError, held.pop)

    def test_subclasses_stay_themselves(self):
        for base, items in ((RangeMap, [(1, "a")]), (RangeSet, [1])):
            made_by = type("Named", (base,), {"__init__": lambda self, name, of=base: (of.__init__(self, items), setattr(self, "name", name))[0]})
            globals()["Named"] = made_by
            made_by.__module__ = __name__
            made_by.__qualname__ = "Named"
            named = made_by("rooms")
            named.seen = ["x"]
            for made in (named.copy(), copy.copy(named), copy.deepcopy(named), pickle.loads(pickle.dumps(named))):
                self.assertEqual((type(made), made.name, made.seen, made), (made_by, "rooms", ["x"], named))
                self.assertEqual(repr(made)[:6], "Named(")
            self.assertIs(copy.copy(named).seen, named.seen)
            self.assertIsNot(copy.deepcopy(named).seen, named.seen)
            slotted = type("Slotted", (base,), {"__slots__": ("place",), "__module__": __name__, "__qualname__": "Slotted"})
            globals()["Slotted"] = slotted
            held = slotted(items)
            held.place = 5
            self.assertEqual([it.place for it in (held.copy(), copy.deepcopy(held), pickle.loads(pickle.dumps(held)))], [5] * 3)

    def test_buffers_are_looked_up_and_bound_at_once(self):
        for kind, code in (("u64", "Q"), ("u32", "I"), ("i64", "q"), ("i16", "h"), ("u64", "B"), ("i64", "Q"), ("u128", "Q"), ("i128", "q")):
            keys, starts = RangeMap(keys=kind), array.array(code, range(0, 250, 5))
            stops = array.array(code, (at + 3 for at in starts))
            keys.insert_many(starts, stops, (f"value {at // 10}" for at in starts))
            self.assertEqual(keys, RangeMap([(slice(at, at + 3), f"value {at // 10}") for at in starts], keys=kind))
            looked = array.array(code, range(256 if code == "B" else 300)) if code != "B" else bytearray(range(256))
            self.assertEqual(keys.get_many(looked, 7), [keys.get(key, 7) for key in looked])
            held = RangeSet(keys=kind)
            held.add_many(starts, stops)
            self.assertEqual(held, RangeSet(keys, keys=kind))
            for changed in (keys, held):
                (changed.remove_many if changed is keys else changed.discard_many)(starts[::2], stops[::2])
                self.assertEqual([it.start for it in changed], list(starts[1::2]))
            self.assertEqual(len(keys._values), 25)
        keys = RangeMap(keys="u8")
        keys.insert_many([0, 5, 9], [3, 5, 256], ["a", "b", "c"])
        self.assertEqual((repr(keys), keys.get_many(array.array("i", [-1, 0, 255, 256]), "-")), ("RangeMap({0:3: 'a', 9:256: 'c'}, keys='u8')", ["-", "a", "c", "-"]))
        for call, error in [
            (lambda: keys.insert_many([0], [300], ["a"]), OverflowError),
            (lambda: keys.insert_many(array.array("i", [-1]), array.array("i", [3]), ["a"]), OverflowError),
            (lambda: keys.insert_many([0], [1, 2], ["a"]), ValueError),
            (lambda: keys.insert_many([0, 1], [1, 2], ["a"]), ValueError),
            (lambda: keys.insert_many(["a"], [1], ["a"]), TypeError),
        ]:
            self.assertRaises(error, call)
            self.assertEqual((len(keys), len(keys._values)), (2, 2))

    def test_a_range_tells_its_keys(self):
        self.assertTrue(5 in Range(0, 10) and 0 in Range(0, 10) and 10 not in Range(0, 10))
        self.assertTrue(0 not in Range(0, 10, False) and 10 in Range(0, 10, True, True) and 7 in Range(None, None))
        self.assertNotIn("a", Range(0, 10))
        self.assertIn("b", Range("a", "c"))

    def test_parts_of_a_map(self):
        keys = RangeMap([(slice(0, 10), "a"), (slice(20, 30), "b"), (slice(30, 40), "c")])
        self.assertEqual([str(value) for _, value in keys.overlapping(slice(5, 31))], ["a", "b", "c"])
        pieces = [(keys_of(part), value) for part, value in keys.pieces(slice(5, 31))]
        self.assertEqual(pieces, [(range(5, 10), "a"), (range(20, 30), "b"), (range(30, 31), "c")])
        self.assertEqual([keys_of(gap) for gap in keys.gaps(slice(5, 50))], [range(10, 20), range(40, 50)])
        self.assertEqual(list(keys.gaps(slice(2, 8))), [])
        self.assertEqual([gap.start for gap in keys.gaps()], [10, 40])
        self.assertEqual(list(keys.gaps(slice(5, 5))), [])
        rest = keys.split_off(25)
        self.assertEqual((repr(keys), repr(rest)), ("RangeMap({0:10: 'a', 20:25: 'b'})", "RangeMap({25:30: 'b', 30:40: 'c'})"))
        self.assertEqual((keys | rest)[39], "c")
        self.assertEqual(repr((keys | rest) & RangeSet([slice(8, 22)])), "RangeMap({8:10: 'a', 20:22: 'b'})")
        self.assertEqual(repr(keys - RangeSet([slice(5, 22)])), "RangeMap({0:5: 'a', 22:25: 'b'})")
        self.assertEqual((keys.setdefault(0, "x"), keys.setdefault(11, "x"), keys.pop(11), keys.pop(11, None)), ("a", "x", "x", None))
        self.assertEqual([keys.next(15), keys.previous(15)], [(Range(20, 25), "b"), (Range(0, 10), "a")])
        self.assertEqual(list(reversed(keys)), list(keys)[::-1])
        self.assertEqual(list(zip(keys.keys(), keys.values())), list(keys.items()))

    def test_maps_by_the_keys_of_others(self):
        numbers = random.Random(3)

        def drawn(kind):
            """A map of random ranges, and the same as a dict of numbers."""
            held, wanted = RangeMap(keys=kind), {}
            for _ in range(numbers.randrange(12)):
                start, value = numbers.randrange(100), ("value", numbers.randrange(3))
                span = range(start, start + numbers.randrange(20))
                held[Range(at_key(span.start), at_key(span.stop))] = value
                wanted.update((key, value) for key in span)
            return held, wanted

        def shown(held):
            return {key: value for key in range(120) if (value := held.get(at_key(key))) is not None}

        for kind, least in [("u64", 0), ("i64", -50), ("u8", 0), ("i8", -50), ("char", None)] * 20:
            at_key = (lambda key: chr(0xD7D0 + key + 0x800 * (key >= 0x30))) if least is None else (lambda key: least + key)
            (some, first), (more, second), whole = drawn(kind), drawn(kind), RangeMap([(slice(None), 1)], keys=kind)
            both, rest = ({key: first[key] for key in first if (key in second) == is_kept} for is_kept in (True, False))
            for keys in (more, RangeSet(more, keys=kind)):
                self.assertEqual((shown(some.restrict(keys)), shown(some.without(keys))), (both, rest))
            self.assertEqual((some & RangeSet(more, keys=kind), some - RangeSet(more, keys=kind)), (some.restrict(more), some.without(more)))
            self.assertEqual((some.restrict(some), len(some.without(some)), some.restrict(whole)), (some, 0, some))
            self.assertEqual((len(some.without(whole)), whole.without(RangeMap(keys=kind))), (0, whole))
            some.append(more)
            self.assertEqual((shown(some), len(more)), ({**first, **second}, 0))
            some.append(some)
            self.assertEqual(shown(some), {**first, **second})
            more[at_key(5)] = "more"
            self.assertEqual((more[at_key(5)], some.get(at_key(5))), ("more", {**first, **second}.get(5)))
        some, more = RangeMap([(slice(0, 4), ["a"])]), RangeMap([(slice(2, 9), ["b"])], keys="u8")
        self.assertIs(some.restrict(more)[3], some[0])
        self.assertEqual([repr(it) for it in (some.restrict(more), some.without(more))], ["RangeMap({2:4: ['a']})", "RangeMap({0:2: ['a']})"])
        for call in (some.append, some.restrict, some.without):
            self.assertRaises(TypeError, call, {3: "c"})
        wide = RangeMap([(5, 1), (300, 1)])
        with self.assertRaises(OverflowError):
            more.append(wide)
        self.assertEqual((len(wide), more[5], more[8]), (2, 1, ["b"]))

    def test_many_keys_and_ranges_in_one_call(self):
        for kind, least in (("u64", 0), ("i64", -3000), ("i16", -3000), ("u128", 2**64 - 3000), ("i128", -3000), ("char", None)):
            at_key = (lambda number: chr(0x4000 + number)) if least is None else (lambda number: least + number)
            held = RangeMap(keys=kind)
            held.update((Range(at_key(10 * at), at_key(10 * at + 6)), at % 2 or None) for at in range(600))
            self.assertEqual((len(held), held.key_count()), (600, 3600))
            looked = [at_key(number) for number in range(6000)]
            self.assertEqual(held.get_many(looked, "free"), [held.get(key, "free") for key in looked])
            parts = list(held.pieces(Range(at_key(5), at_key(2003)), "free"))
            self.assertEqual([value for _, value in parts][:4] + [len(parts)], [None, "free", 1, "free", 401])
            if least is not None:
                self.assertEqual([key for part, _ in parts for key in keys_of(part)], list(range(least + 5, least + 2003)))
            self.assertEqual([part for part in parts if part[1] != "free"], list(held.pieces(Range(at_key(5), at_key(2003)))))
        self.assertEqual((held.get_many([]), RangeMap({3: "a"}).get_many([3, 2**64, -1])), ([], ["a", None, None]))
        with self.assertRaises(TypeError):
            held.get_many(["ab"])

    def test_an_update_that_fails_has_done_what_came_before(self):
        def failing(count):
            yield from (((at, at) for at in range(0, count, 2)))
            raise RuntimeError("no more")

        for count in (0, 10, 512, 700):
            keys, held = RangeMap(), RangeSet()
            with self.assertRaises(RuntimeError):
                keys.update(failing(count))
            with self.assertRaises(RuntimeError):
                held.update(key for key, _ in failing(count))
            self.assertEqual(([value for _, value in keys.items()], len(held)), (list(range(0, count, 2)), count // 2))
        with self.assertRaises(TypeError):
            keys.update([(1000, "a"), ("b", "c"), (1002, "d")])
        self.assertEqual((keys[1000], keys.get(1002)), ("a", None))
        with self.assertRaises(OverflowError):
            held.update([1000, -1, 1002])
        self.assertTrue(1000 in held and 1002 not in held)
        keys.close()
        with self.assertRaises(RuntimeError):
            keys.update([(1, 1)])

    def test_many_parts_of_a_range_are_read_in_batches(self):
        for kind, least in (("u64", 0), ("i64", -3000), ("i16", -3000), ("u16", 0)):
            held = RangeMap(((slice(least + 10 * at, least + 10 * at + 6), at) for at in range(600)), keys=kind)
            for first, last in ((0, 599), (1, 256), (1, 257), (300, 300)):
                span = slice(least + 10 * first + 5, least + 10 * last + 1 if first < last else least + 10 * last + 6)
                self.assertEqual([at for _, at in held.overlapping(span)], list(range(first, last + 1)))
                gaps = [keys_of(gap) for gap in held.gaps(span)]
                wanted = [range(least + 10 * at + 6, least + 10 * at + 10) for at in range(first, last)]
                self.assertEqual(gaps, wanted if first < last else [])
            rest = held.split_off(least + 3003)
            self.assertEqual((len(held), len(rest), held.last(), rest.first()[1]), (301, 300, (Range(least + 3000, least + 3003), 300), 300))

    def test_many_ranges_are_read_in_batches(self):
        for count in (0, 1, 255, 256, 257, 512, 1000):
            keys = RangeMap((slice(10 * at, 10 * at + 5), at) for at in range(count))
            self.assertEqual([value for _, value in keys.items()], list(range(count)))
            self.assertEqual([keys.start // 10 for keys in reversed(keys)], list(range(count))[::-1])
            touching = RangeMap((Range(at, at, True, True), at) for at in range(count))
            self.assertEqual([value for _, value in touching.items()], list(range(count)))
            self.assertEqual(len(list(reversed(touching))), count)
            self.assertEqual(len(list(RangeSet(keys))), count)

    def test_ends_of_each_kind_are_read_in_batches(self):
        for kind in ("u64", "i64", "u16"):
            keys = RangeMap([(slice(None), "free")], keys=kind)
            keys.update((Range(10 * at, 10 * at + 5, at % 2 == 0, at % 3 == 0), at) for at in range(10, 610))
            wanted = list(dict.fromkeys(keys.entry(key) for key in range(6200)))
            self.assertEqual((len(wanted), list(keys.items()), list(keys)), (len(keys), wanted, [held for held, _ in wanted]))
            self.assertEqual((list(keys.values()), list(reversed(keys))), ([value for _, value in wanted], [held for held, _ in wanted][::-1]))
            held = RangeSet([slice(None)], keys=kind) - RangeSet((range(10 * at + 7, 10 * at + 9) for at in range(10, 610)), keys=kind)
            self.assertEqual(list(held), list(dict.fromkeys(found for key in range(6200) if (found := held.range_of(key)))))
            self.assertEqual({type(part) for part in (*keys, *held, *reversed(held))}, {Range})

    def test_what_was_read_is_shown_whatever_changes(self):
        def shown(call):
            keys = RangeMap((slice(10 * at, 10 * at + 5), ("value", at)) for at in range(100))
            return keys, call(keys)

        calls = (lambda keys: keys.items(), lambda keys: keys.overlapping(slice(None)), lambda keys: keys.pieces(slice(None)))
        for call in calls:
            keys, parts = shown(call)
            next(parts)
            keys.clear()
            self.assertEqual([value for _, value in parts], [("value", at) for at in range(1, 100)])
            keys, parts = shown(call)
            next(parts)
            # so many others that the values are freed
            keys.update((slice(10 * at, 10 * at + 5), ("other", at, turn)) for turn in range(3) for at in range(100))
            self.assertEqual([value for _, value in parts], [("value", at) for at in range(1, 100)])

    def test_random_calls_answer_as_a_dict(self):
        numbers = random.Random(5)
        keys, wanted = RangeMap(keys="i64"), {}
        for step in range(CALLS):
            start = numbers.randrange(-150, 150)
            span = range(start, start + numbers.randrange(30))
            value = ("value", numbers.randrange(3) + step // 500)
            call = numbers.randrange(6)
            if call < 3:
                keys[span] = value
                wanted.update((key, value) for key in span)
            elif call == 3:
                del keys[span]
                for key in span:
                    wanted.pop(key, None)
            elif call == 4:
                is_free = not any(key in wanted for key in span)
                self.assertEqual(keys.try_insert(span, value), is_free)
                if is_free:
                    wanted.update((key, value) for key in span)
            else:
                pieces = [(key, value) for part, value in keys.pieces(span) for key in keys_of(part)]
                self.assertEqual(pieces, [(key, wanted[key]) for key in span if key in wanted])
                pieces = [(key, value) for part, value in keys.pieces(span, None) for key in keys_of(part)]
                self.assertEqual(pieces, [(key, wanted.get(key)) for key in span])
                self.assertEqual(keys.get_many(span), [wanted.get(key) for key in span])
                gaps = [key for part in keys.gaps(span) for key in keys_of(part)]
                self.assertEqual(gaps, [key for key in span if key not in wanted])
            key = numbers.randrange(-170, 190)
            self.assertEqual((keys.get(key), key in keys), (wanted.get(key), key in wanted))
        self.assertEqual(keys.key_count(), len(wanted))
        joins = (key for key in wanted if wanted.get(key - 1) == wanted[key])
        self.assertEqual(len(keys), len(wanted) - sum(1 for _ in joins))
        self.assertEqual(pickle.loads(pickle.dumps(keys)), keys)


class Sets(unittest.TestCase):
    def test_keys_are_added_and_taken(self):
        keys = RangeSet([slice(0, 10), slice(20, 30), slice(10, 15)])
        self.assertEqual((len(keys), keys.key_count()), (2, 25))
        self.assertEqual(list(keys), [Range(0, 15), Range(20, 30)])
        keys.discard(3)
        self.assertTrue(3 not in keys and 4 in keys and keys.intersects(slice(3, 5)))
        self.assertFalse(keys.intersects(slice(15, 20)))
        self.assertEqual(keys.range_of(25), Range(20, 30))
        with self.assertRaises(KeyError):
            keys.remove(3)
        keys.remove(4)
        self.assertEqual((keys.first(), keys.pop_last()), (Range(0, 3), Range(20, 30)))
        keys.clear()
        self.assertEqual((len(keys), bool(keys)), (0, False))

    def test_random_calls_answer_as_a_set_of_keys(self):
        numbers = random.Random(6)
        for kind, least in [("u64", 0), ("i64", -100), ("u8", 0)]:
            keys, wanted = RangeSet(keys=kind), set()
            for _ in range(CALLS // 10):
                start = numbers.randrange(least, least + 200)
                span = range(start, start + numbers.randrange(20))
                call = numbers.randrange(4)
                if call == 0:
                    keys.discard(span)
                    wanted.difference_update(span)
                elif call == 1:
                    keys.add(span)
                    wanted.update(span)
                else:
                    is_free = wanted.isdisjoint(span)
                    self.assertEqual(keys.try_insert(span), is_free)
                    if is_free:
                        wanted.update(span)
                key = numbers.randrange(least - 10, least + 230)
                self.assertEqual((key in keys, keys.intersects(span)), (key in wanted, not wanted.isdisjoint(span)))
            self.assertEqual({key for held in keys for key in keys_of(held)}, wanted)
            self.assertEqual((keys.key_count(), len(keys)), (len(wanted), sum(1 for key in wanted if key - 1 not in wanted)))

    def test_random_sets_answer_as_sets_of_keys(self):
        numbers = random.Random(7)

        def drawn(kind):
            ranges = [range(at, at + numbers.randrange(20)) for at in (numbers.randrange(100) for _ in range(numbers.randrange(8)))]
            return RangeSet(ranges, keys=kind), {key for span in ranges for key in span}

        def held(ranges):
            return {key for keys in ranges for key in keys_of(keys)}

        for kind in ("u64", "i64", "u8") * 40:
            (some, first), (more, second) = drawn(kind), drawn(kind)
            for made, wanted in [(some | more, first | second), (some & more, first & second), (some - more, first - second), (some ^ more, first ^ second)]:
                self.assertEqual(held(made), wanted)
            self.assertEqual((some <= more, some < more, some >= more, some > more), (first <= second, first < second, first >= second, first > second))
            self.assertEqual((some == more, some.isdisjoint(more)), (first == second, first.isdisjoint(second)))
            self.assertEqual(held(some.gaps(slice(0, 120))), set(range(120)) - first)
            self.assertTrue((some | some) == some == (some & some) and not some - some and not some ^ some and some <= some)
            self.assertEqual(some.complement().complement(), some)
            for change, wanted in [("__ior__", first | second), ("__iand__", first & second), ("__isub__", first - second), ("__ixor__", first ^ second)]:
                same = some.copy()
                self.assertIs(getattr(same, change)(more), same)
                self.assertEqual(held(same), wanted)
        with self.assertRaises(TypeError):
            some | [1]
        with self.assertRaises(TypeError):
            RangeSet() | RangeSet(keys="i64")
        some.close()
        with self.assertRaises(RuntimeError):
            some & more

    def test_texts_are_read_back(self):
        keys = RangeSet([slice(0, 4)])
        self.assertEqual(keys.to_json(), '[[{"Included":0},{"Excluded":4}]]')
        for wrong in ("", "[", "[1]", "{}", '[[{"Included":-1},"Unbounded"]]', b"\xff", "\ud800", "[[]]", '[[{"Included":"a"},"Unbounded"]]'):
            with self.assertRaises(NotLoaded):
                keys.load_json(wrong)
        self.assertEqual(list(keys), [Range(0, 4)])
        keys.load_json(b'[["Unbounded",{"Included":9}]]')
        self.assertEqual(keys.key_count(), 10)
        numbers = RangeMap([(slice(0, 4), "a"), (slice(9, None), [1, None])])
        read = RangeMap()
        read.load_json(numbers.to_json())
        self.assertEqual(list(read.items()), list(numbers.items()))
        for wrong in ("{}", "[1]", "[[1,2]]", '{"items":[],"version":3}', json.dumps({"items": [[["Unbounded", "Unbounded"], 1]] * 2, "version": 2})):
            with self.assertRaises(NotLoaded):
                read.load_json(wrong)
        self.assertEqual(read, numbers)
        good = [[[{"Included": 10 * at}, {"Excluded": 10 * at + 5}], at] for at in range(9)]
        for place, wrong in [(0, 5), (4, [1]), (8, [["Unbounded"], 1]), (3, good[2]), (2, [[{"Held": 1}, "Unbounded"], 1])]:
            items = [*good[:place], wrong, *good[place + 1 :]]
            calls = [(read.load_json, items)]
            if place != 3:
                calls.append((keys.load_json, [it[0] if isinstance(it, list) else it for it in items]))
            for call, items in calls:
                with self.assertRaisesRegex(NotLoaded, rf"^element {place}: .* \(fault 9\)$") as told:
                    call(json.dumps(items))
                self.assertEqual((told.exception.element, told.exception.number), (place, 9))
        with self.assertRaisesRegex(NotLoaded, r"JSON.* \(fault 8\)$") as told:
            read.load_json("[")
        self.assertEqual((told.exception.element, told.exception.number), (None, 8))
        small = RangeMap(keys="u8")
        small.load_json('{"items":[[["Unbounded","Unbounded"],"a"]],"version":2}')
        self.assertEqual((small.key_count(), small.to_json()), (256, '{"items":[[[{"Included":0},{"Included":255}],"a"]],"version":2}'))
        with self.assertRaises(NotLoaded):
            small.load_json('{"items":[[[{"Included":256},"Unbounded"],"a"]],"version":2}')


class Threads(unittest.TestCase):
    def test_threads_share_a_map(self):
        """Readers and writers of one map: no answer is wrong, and nothing crashes."""
        keys = RangeMap((slice(10 * at, 10 * at + 10), ("first", at)) for at in range(200))
        errors, ends = [], time.monotonic() + 2

        def read(seed):
            numbers = random.Random(seed)
            while time.monotonic() < ends and not errors:
                key = numbers.randrange(2000)
                value = keys[key]
                if value[1] != key // 10 or len(keys) < 200 or key not in keys:
                    errors.append((key, value))

        def write(seed):
            numbers = random.Random(seed)
            while time.monotonic() < ends and not errors:
                at = numbers.randrange(200)
                keys[10 * at : 10 * at + 10] = (f"value {numbers.random()}", at)

        def walk(seed):
            while time.monotonic() < ends and not errors:
                if [value[1] for _, value in keys.items()] != list(range(200)):
                    errors.append("walk")

        def guarded(call, seed):
            try:
                call(seed)
            except Exception as error:
                errors.append(error)

        threads = [threading.Thread(target=guarded, args=it) for it in [(read, 1), (read, 2), (read, 3), (write, 4), (write, 5), (walk, 6)]]
        for thread in threads:
            thread.start()
        for thread in threads:
            thread.join()
        self.assertEqual(errors, [])

    def test_two_maps_take_each_other_in(self):
        """Each is read while the other one waits for it too: neither keeps its lock meanwhile."""
        both_read = threading.Barrier(2)

        class Met(RangeMap):
            def items(self):
                both_read.wait(10)
                yield from super().items()

        first, second = Met([(slice(0, 10), "a")]), Met([(slice(20, 30), "b")])
        threads = [threading.Thread(target=it.__ior__, args=[more], daemon=True) for it, more in ((first, second), (second, first))]
        for thread in threads:
            thread.start()
        for thread in threads:
            thread.join(10)
        self.assertFalse(any(thread.is_alive() for thread in threads))
        self.assertEqual((first[25], second[5], len(first), len(second)), ("b", "a", 2, 2))

    def test_maps_are_moved_into_each_other(self):
        """Neither is lost, whichever is first, and none waits for ever."""
        first, second = RangeMap([(0, "a")]), RangeMap([(1, "b")])
        moved = []

        def move(it, more):
            for _ in range(500):
                it.append(more)
            moved.append(it)

        threads = [threading.Thread(target=move, args=it, daemon=True) for it in ((first, second), (second, first))]
        for thread in threads:
            thread.start()
        for thread in threads:
            thread.join(20)
        self.assertFalse(any(thread.is_alive() for thread in threads))
        self.assertEqual((len(moved), len(first) + len(second)), (2, 2))

    def test_what_is_written_while_a_map_is_moved_stays(self):
        class Slow(RangeMap):
            def items(self):
                yield from super().items()
                writing.start()
                writing.join(0.2)

        held, moved = RangeMap(), Slow([(0, "a")])
        writing = threading.Thread(target=moved.__setitem__, args=[1, "b"], daemon=True)
        held.append(moved)
        writing.join(10)
        self.assertEqual((held[0], held.get(1), moved.get(0), moved[1]), ("a", None, None, "b"))

    def test_a_close_waits_for_who_reads(self):
        for held in (RangeMap([(1, 1)]), RangeSet([1])):
            closing = threading.Thread(target=held.close, daemon=True)
            with held._lock:
                closing.start()
                closing.join(0.2)
                self.assertTrue(closing.is_alive())
                self.assertIn(1, held)
            closing.join(10)
            self.assertRaises(RuntimeError, held.first)

    @unittest.skipUnless(hasattr(os, "fork"), "no fork")
    def test_a_child_may_use_what_it_inherits(self):
        """A fork waits for who is at work on a map, so that its lock is free in the child."""
        keys, other, going = RangeMap([(slice(0, 100), "a")]), RangeSet([1]), True

        def work():
            while going:
                with keys._locked_with(other):
                    keys[5] = "b"
                    keys[0:100] = "a"
                time.sleep(0.001)

        working = threading.Thread(target=work, daemon=True)
        working.start()
        try:
            for _ in range(20):
                child = os.fork()
                if not child:
                    signal.alarm(10)
                    keys[7] = "c"
                    made = keys.copy()
                    os._exit(0 if (made[7], made[8], 1 in other) == ("c", "a", True) else 1)
                self.assertEqual(os.waitpid(child, 0)[1], 0)
        finally:
            going = False
            working.join(10)

    def test_one_that_was_never_opened_is_dropped(self):
        told = []
        with unittest.mock.patch("sys.unraisablehook", told.append):
            with unittest.mock.patch("threading.RLock", side_effect=MemoryError):
                for made in (RangeMap, RangeSet):
                    self.assertRaises(MemoryError, made)
            gc.collect()
        self.assertEqual(told, [])

    def test_nothing_is_left_behind(self):
        def resident():
            with open("/proc/self/statm") as pages:
                return int(pages.read().split()[1]) * 4096

        def some():
            for at in range(2000):
                keys = RangeMap((slice(10 * at, 10 * at + 5), at) for at in range(20))
                keys.__init__([(1, 1)])
                keys.copy().close()

        some()
        gc.collect()
        before = resident()
        some()
        gc.collect()
        self.assertLess(resident() - before, 2_000_000)


def load_tests(loader, tests, pattern):
    for module in (btree_range_map, btree_range_map._map, btree_range_map._set, btree_range_map._ranges):
        tests.addTests(doctest.DocTestSuite(module))
    return tests


if __name__ == "__main__":
    unittest.main()
