"""The functions of btree_range_map.h, over the shared library of this package.

The interpreter's lock is kept during each call (`PyDLL`), since a call is short. Each collection has a lock of its own
beside it, which holds through methods that are more than one call, and where the interpreter has no lock.
"""

from __future__ import annotations

import ctypes
import itertools
import os
import pathlib
import struct
from typing import TYPE_CHECKING, Any, Iterator

DONE, NO_MEMORY, CLOSED, NONE, CONNECTED, OTHER_KIND, OPEN, NO_ROOM, NOT_JSON, NOT_READ, OCCUPIED = range(11)
BAD_RULE, TOO_LARGE, NOT_TEXT = range(12, 15)
START_EXCLUDED, START_UNBOUNDED, END_EXCLUDED, END_UNBOUNDED = 1, 2, 4, 8

#: How many ranges a batch has at most.
BATCH = 256

#: How many ranges are taken in at once at most, where as many are stored.
LARGEST = 4096

#: How many ranges that a change meets are read at once: nearly all meet fewer.
MET = 4

#: How many keys are looked up in one call at most, whose answers stay in the cache.
LOOKED_UP = 16384

#: The size of what a key is bound to: the value, 0 where there is none, and whether there is one.
BINDING_SIZE = 16


class Handle(ctypes.Structure):
    _fields_ = [("is_open", ctypes.c_bool), ("at", ctypes.c_void_p)]


class Length(ctypes.Structure):
    _fields_ = [("high", ctypes.c_uint64), ("low", ctypes.c_uint64)]


def _load() -> ctypes.PyDLL:
    named = os.environ.get("RANGE_MAP_LIBRARY")
    path = pathlib.Path(named) if named else pathlib.Path(__file__).with_name("libbtree_range_map.so")
    if not path.exists():
        raise ImportError(f"{path} is missing: install the wheel, or set RANGE_MAP_LIBRARY to libbtree_range_map.so")
    return ctypes.PyDLL(str(path))


library = _load()


#: the code of keys of 128 bits, as `struct` has them
WIDE = "16s"


class WideForm:
    """Two keys of 128 bits and what follows them, as `struct.Struct` has narrower ones; in the library they begin at `least`."""

    def __init__(self, rest: str, least: int) -> None:
        self._form, self._least = struct.Struct(f"{WIDE}{WIDE}{rest}"), least
        self.size = self._form.size

    def pack(self, start: int, end: int, *rest: int) -> bytes:
        return self._form.pack(wide_key(start, self._least), wide_key(end, self._least), *rest)

    def _numbers(self, start: bytes, end: bytes, *rest: int) -> tuple[int, ...]:
        least = self._least
        return (int.from_bytes(start, "little") + least, int.from_bytes(end, "little") + least, *rest)

    def unpack_from(self, buffer: Any, offset: int = 0) -> tuple[int, ...]:
        return self._numbers(*self._form.unpack_from(buffer, offset))

    def iter_unpack(self, buffer: Any) -> Iterator[tuple[int, ...]]:
        return itertools.starmap(self._numbers, self._form.iter_unpack(buffer))


def wide_key(number: int, least: int) -> bytes:
    """A key of 128 bits as it lies in memory."""
    return (number - least).to_bytes(16, "little")


def _form(key: str, rest: str, least: int) -> struct.Struct | WideForm:
    """The form of two keys and what follows them."""
    return WideForm(rest, least) if key == WIDE else struct.Struct(f"{key}{key}{rest}")


class WideKey:
    """The type of a parameter that is a pointer to a key of 128 bits."""

    def __init__(self, least: int) -> None:
        self._least = least

    def from_param(self, number: int) -> bytes:
        return wide_key(number, self._least)


class Kind:
    """The calls on one kind of collection, and how its ranges lie in memory."""

    if TYPE_CHECKING:

        def __getattr__(self, name: str) -> Any: ...

    def __init__(self, name: str, key: str, has_values: bool, least: int = 0) -> None:
        #: whether keys have 128 bits
        self.is_wide = key == WIDE
        of_key: Any = WideKey(least) if self.is_wide else {"q": ctypes.c_int64, "Q": ctypes.c_uint64}[key]
        value_code = "Q" if has_values else ""
        #: start, end, flags, and the value where there is one
        self.form = _form(key, f"I4x{value_code}", least)
        self.range_form = _form(key, "I4x", least)
        #: start, end, flags and the value, 0 where there is none
        self.piece_form = _form(key, "I4xQ8x", least)
        #: how many words `form` has, and which of them is the first with the flags
        self.width = self.form.size // 8
        self.flags_at = 4 if self.is_wide else 2
        #: a whole batch, as `form` reads it
        self.whole_form = struct.Struct(self.form.format * BATCH) if isinstance(self.form, struct.Struct) else None
        self.key_code = key
        handle, buffer, size = ctypes.POINTER(Handle), ctypes.c_char_p, ctypes.c_size_t
        sized = ctypes.POINTER(size)
        value = [ctypes.c_uint64] if has_values else []
        parameters: dict[str, list[Any]] = {
            "create": [handle],
            "insert": [handle, buffer, *value],
            "try_insert": [handle, buffer, *value],
            "remove": [handle, buffer],
            "get": [handle, of_key, buffer],
            "contains": [handle, of_key],
            "intersects": [handle, buffer],
            "len": [handle, ctypes.POINTER(Length)],
            "first": [handle, buffer],
            "last": [handle, buffer],
            "next": [handle, of_key, buffer],
            "previous": [handle, of_key, buffer],
            "pop_first": [handle, buffer],
            "pop_last": [handle, buffer],
            "read": [handle, of_key, buffer, size, sized],
            "read_back": [handle, of_key, buffer, size, sized],
            "overlapping": [handle, buffer, buffer, size, sized],
            "gaps": [handle, buffer, buffer, size, sized],
            "insert_many": [handle, buffer, size, sized],
        }
        if has_values:
            parameters["insert_disconnected"] = parameters["insert"]
            parameters["split_off"] = [handle, of_key, handle]
            parameters["pieces"] = parameters["overlapping"]
            parameters["get_many"] = [handle, buffer, size, buffer, size]
        else:
            for call in ("union", "intersection", "difference", "symmetric_difference"):
                parameters[call] = [handle, handle, handle]
            parameters |= {"complement": [handle, handle], "is_subset": [handle, handle], "is_disjoint": [handle, handle]}
        # the calls on sets of any keys, and those of one kind that stand under another name in the header
        of_sets = {"union", "intersection", "difference", "symmetric_difference", "complement", "is_subset", "is_disjoint"}
        raw = {"split_off", "get_many"}
        if self.is_wide:
            # which only the header has of such keys
            parameters.pop("len")
            parameters.pop("get_many", None)
        for call, kinds in parameters.items():
            of_kind = f"{'raw_' if call in raw else ''}{name}_{call}"
            # a new one each time, since two kinds may have one call with other types of keys
            function = library[f"brm_raw_set_{call}" if call in of_sets else f"brm_{of_kind}"]
            function.argtypes, function.restype = kinds, ctypes.c_uint32
            setattr(self, call, function)


def _declare(name: str, parameters: list[Any], result: object = ctypes.c_uint32) -> None:
    function = getattr(library, name)
    function.argtypes, function.restype = parameters, result


_HANDLE = ctypes.POINTER(Handle)
_declare("brm_raw_destroy", [_HANDLE], None)
_declare("brm_raw_clone", [_HANDLE, _HANDLE])
_declare("brm_raw_equal", [_HANDLE, _HANDLE])
_declare("brm_raw_overlay", [_HANDLE, _HANDLE, _HANDLE])
_declare("brm_raw_restrict", [_HANDLE, _HANDLE, _HANDLE])
_declare("brm_raw_without", [_HANDLE, _HANDLE, _HANDLE])
_declare("brm_clear", [_HANDLE])
_declare("brm_count", [_HANDLE], ctypes.c_size_t)
_declare("brm_save", [_HANDLE, ctypes.c_char_p, ctypes.c_size_t, ctypes.POINTER(ctypes.c_size_t)])
_declare("brm_load", [_HANDLE, ctypes.c_char_p, ctypes.c_size_t])

#: the kinds of maps and sets, by whether keys have 128 bits, and whether they are signed
MAPS = {
    (False, False): Kind("map_u64", "Q", True),
    (False, True): Kind("map_i64", "q", True),
    (True, False): Kind("map_u128", WIDE, True),
    (True, True): Kind("map_u128", WIDE, True, -(2**127)),
}
SETS = {
    (False, False): Kind("set_u64", "Q", False),
    (False, True): Kind("set_i64", "q", False),
    (True, False): Kind("set_u128", WIDE, False),
    (True, True): Kind("set_u128", WIDE, False, -(2**127)),
}
