"""Tables of prefixes beside a plain model: what they route, how few they are, and the map of them again."""

import random
import unittest
from ipaddress import IPv4Address, IPv4Network, IPv6Address, IPv6Network

from btree_range_map import RangeMap


def block(values):
    """The textbook's algorithm from the bottom up: the labels of a block, none where a key is not bound, and its halves."""
    if len(values) == 1:
        return frozenset(value for value in values if value is not None), ()
    middle = len(values) // 2
    low, high = block(values[:middle]), block(values[middle:])
    both = low[0] & high[0] or low[0] | high[0]
    return (both if low[0] and high[0] else frozenset()), (low, high)


def entries(labels, halves, above=None):
    """How many entries a block needs below a label."""
    label = above if above in labels else min(labels, default=None)
    own = label is not None and label != above
    return own + sum(entries(*half, label) for half in halves)


def routed(table, key):
    """The value of the longest prefix that holds a key of eight bits."""
    holding = [(length, value) for (first, length), value in table if first >> 8 - length == key >> 8 - length]
    return max(holding, default=(0, None))[1]


class Prefixes(unittest.TestCase):
    def test_drawn_maps(self):
        drawn = random.Random(7)
        for _ in range(300):
            made, values = RangeMap(keys="u8"), [None] * 256
            for _ in range(drawn.randrange(12)):
                first, value = drawn.randrange(256), drawn.choice([None, 1, 2, 3])
                stop = drawn.randrange(first, 256) + 1
                values[first:stop] = [value] * (stop - first)
                if value is None:
                    del made[first:stop]
                else:
                    made[first:stop] = value
            table = made.shortest()
            self.assertEqual(len(table), entries(*block(values)), values)
            self.assertEqual([routed(table, key) for key in range(256)], values)
            drawn.shuffle(table)
            self.assertEqual(RangeMap.from_prefixes(table, keys="u8"), made)

    def test_addresses(self):
        hops = RangeMap({IPv4Network("10.0.0.0/8"): "north", IPv4Network("10.1.0.0/16"): ["south"]}, keys="ipv4")
        table = hops.shortest()
        self.assertEqual(table, [(IPv4Network("10.0.0.0/8"), "north"), (IPv4Network("10.1.0.0/16"), ["south"])])
        self.assertEqual(RangeMap.from_prefixes(reversed(table), keys="ipv4")[IPv4Address("10.1.2.3")], ["south"])
        ends = RangeMap({IPv6Address("::"): 1, IPv6Address("ffff" + ":ffff" * 7): 2}, keys="ipv6")
        wanted = [(IPv6Network("::/128"), 1), (IPv6Network("ffff" + ":ffff" * 7 + "/128"), 2)]
        self.assertEqual(ends.shortest(), wanted)
        for kind, of_all in (("ipv4", IPv4Network("0.0.0.0/0")), ("ipv6", IPv6Network("::/0")), ("u64", (0, 0)), ("u128", (0, 0))):
            every = RangeMap(keys=kind)
            every[:] = "all"
            self.assertEqual(every.shortest(), [(of_all, "all")])
            self.assertEqual(RangeMap.from_prefixes([(of_all, "all")], keys=kind), every)

    def test_one_hole(self):
        for kind, bits in (("u8", 8), ("u32", 32), ("u128", 128)):
            holed = RangeMap(keys=kind)
            holed[:] = 1
            del holed[1 << bits - 1]
            self.assertEqual(len(holed.shortest()), bits)

    def test_refusals(self):
        for kind in ("i8", "i128", "char", "date", "uuid", "float"):
            with self.assertRaises(TypeError):
                RangeMap(keys=kind).shortest()
            with self.assertRaises(TypeError):
                RangeMap.from_prefixes([], keys=kind)
        for network in ((0, 9), (0, -1)):
            with self.assertRaises(ValueError):
                RangeMap.from_prefixes([(network, 1)], keys="u8")
        with self.assertRaises(OverflowError):
            RangeMap.from_prefixes([((256, 8), 1)], keys="u8")
        with self.assertRaises(TypeError):
            RangeMap.from_prefixes([(IPv6Network("::/0"), 1)], keys="ipv4")
        closed = RangeMap(keys="u8")
        closed.close()
        with self.assertRaises(RuntimeError):
            closed.shortest()

    def test_equal_prefixes(self):
        self.assertEqual(RangeMap.from_prefixes([((8, 5), 1), ((15, 5), 2)], keys="u8").shortest(), [((8, 5), 2)])
        self.assertEqual(RangeMap(keys="u64").shortest(), [])


if __name__ == "__main__":
    unittest.main()
