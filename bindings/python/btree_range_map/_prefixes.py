"""Maps as tables of prefixes, of which the longest counts."""

from __future__ import annotations

import ctypes
import ipaddress
import struct
from typing import Any, Iterable, Iterator

from . import _library as _c
from ._collection import check
from ._keys import Keys
from ._library import library as _calls

#: how many bits keys have that are divided into prefixes, by the names of their kinds
BITS = {"u8": 8, "u16": 16, "u32": 32, "u64": 64, "u128": 128, "ipv4": 32, "ipv6": 128}

#: how many bits a key has in the library
_WIDE_BITS = 128

#: a prefix as it crosses: the network, the number of the value, and how many bits are the same
_FORM = struct.Struct(f"{_c.WIDE}QI4x")

#: a range with its value, as the library has it
_ENTRY = _c.MAPS[True, False].form

#: prefixes by the number of the first key, the length, and the number of the value
Numbered = Iterable["tuple[int, int, int]"]

_calls.brm_map_u128_shortest.argtypes = [
    ctypes.POINTER(_c.Handle),
    ctypes.c_char_p,
    ctypes.c_size_t,
    ctypes.POINTER(ctypes.c_size_t),
]
_calls.brm_map_u128_shortest.restype = ctypes.c_uint32
_calls.brm_map_u128_from_prefixes.argtypes = [ctypes.POINTER(_c.Handle), ctypes.c_char_p, ctypes.c_size_t]
_calls.brm_map_u128_from_prefixes.restype = ctypes.c_uint32


def bits_of(keys: Keys) -> int:
    """How many bits the keys have; `TypeError` where they are not divided into prefixes."""
    if keys.name not in BITS:
        raise TypeError(f"keys of {keys.name} have no prefixes; those of {', '.join(BITS)} have")
    return BITS[keys.name]


def network_of(keys: Keys, first: int, length: int) -> Any:
    """A prefix as it is shown: a network of addresses, or the first key and the length."""
    if keys.name == "ipv4":
        return ipaddress.IPv4Network((first, length))
    if keys.name == "ipv6":
        return ipaddress.IPv6Network((first, length))
    return first, length


def prefix_of(keys: Keys, network: Any) -> tuple[int, int]:
    """The number of a key and the length of a prefix that is shown so. The key may be any of the prefix."""
    if keys.name in ("ipv4", "ipv6"):
        if not isinstance(network, (ipaddress.IPv4Network, ipaddress.IPv6Network)):
            raise TypeError(f"a prefix is a network of addresses, not {network!r}")
        key, length = network.network_address, network.prefixlen
    else:
        key, length = network
    if not 0 <= length <= bits_of(keys):
        raise ValueError(f"a key has no {length!r} bits")
    return keys.number(key), length


class _Wide:
    """A map of keys of 128 bits, for one call."""

    def __init__(self) -> None:
        self.handle = _c.Handle()

    def __enter__(self) -> _c.Handle:
        return self.handle

    def __exit__(self, *error: object) -> None:
        _calls.brm_raw_destroy(self.handle)


def shortest(bits: int, ranges: list[tuple[int, int, int]]) -> Iterator[tuple[int, int, int]]:
    """The shortest table of ranges that ascend, each by its first and last key and the number of its value."""
    kind, count = _c.MAPS[True, False], ctypes.c_size_t(0)
    with _Wide() as handle:
        check(kind.create(handle))
        packed = b"".join([_ENTRY.pack(first, last, 0, number) for first, last, number in ranges])
        check(kind.insert_many(handle, packed, len(ranges), count))
        room = len(ranges)
        while True:
            buffer = ctypes.create_string_buffer(_FORM.size * room + 1)
            status = _calls.brm_map_u128_shortest(handle, buffer, room, count)
            if status != _c.NO_ROOM:
                check(status)
                break
            room = count.value
    found = memoryview(buffer)[: _FORM.size * count.value]
    for network, number, length in _FORM.iter_unpack(found):
        yield int.from_bytes(network, "little"), length - (_WIDE_BITS - bits), number


def longest(bits: int, prefixes: Numbered) -> Iterator[tuple[int, int, int]]:
    """The ranges that ascend, each by its first and last key and the number of the longest prefix that holds its keys."""
    kind, count = _c.MAPS[True, False], ctypes.c_size_t(0)
    packed = [_FORM.pack(_c.wide_key(key, 0), number, length + _WIDE_BITS - bits) for key, length, number in prefixes]
    with _Wide() as handle:
        check(_calls.brm_map_u128_from_prefixes(handle, b"".join(packed), len(packed)))
        size = _calls.brm_count(handle)
        buffer = ctypes.create_string_buffer(_ENTRY.size * size + 1)
        check(kind.read(handle, 0, buffer, size, count))
    for first, last, flags, number in _ENTRY.iter_unpack(memoryview(buffer)[: _ENTRY.size * count.value]):
        yield first + (flags & _c.START_EXCLUDED), last - (flags & _c.END_EXCLUDED > 0), number
