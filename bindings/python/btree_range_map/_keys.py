"""What kinds of keys there are, each as numbers of the library: whole ones, so that neighbours have neighbouring numbers."""

from __future__ import annotations

import datetime
import ipaddress
import operator
import struct
import uuid
from typing import Any, Callable, Literal

#: the names of kinds, by the types of their keys
IntegerKind = Literal["u8", "u16", "u32", "u64", "u128", "i8", "i16", "i32", "i64", "i128"]
TimeKind = Literal["datetime", "utc"]


class Keys:
    """A kind of keys by their numbers, which lie between two bounds. This one is of integers, whose numbers are they."""

    #: whether a key is its number, and so has one before and after it, whatever the kind
    is_plain = True

    def __init__(self, name: str, least: int, greatest: int) -> None:
        self.name, self.least, self.greatest = name, least, greatest
        #: whether the library has maps of just these keys
        self.is_native = name in ("u64", "i64", "u128", "i128")
        self.is_signed = least < 0
        #: whether numbers have 128 bits
        self.is_wide = greatest - least >= 2**64

    def number(self, key: Any) -> int:
        """The number of a key; `TypeError` and `OverflowError` where it is none."""
        number = operator.index(key)
        if not self.least <= number <= self.greatest:
            raise OverflowError(f"no {self.name} key: {key!r}")
        return number

    def key(self, number: int) -> Any:
        return number

    def stop(self, number: int) -> Any:
        """The key of the number after the last one of a range; `None` where there is no such key."""
        return number

    def to_json(self, key: Any) -> Any:
        return key

    def of_json(self, key: Any) -> Any:
        return key

    def to_text(self, number: int) -> Any:
        """The number as it stands in the library's JSON: one of 128 bits is the text of an address."""
        if not self.is_wide:
            return number
        return str(ipaddress.IPv6Address(number + 2**127 if self.is_signed else number))

    def of_text(self, side: Any) -> int:
        """The other way round."""
        if not self.is_wide:
            return operator.index(side)
        return int(ipaddress.IPv6Address(side)) - (2**127 if self.is_signed else 0)


class _Indexed(Keys):
    """Keys of another type, which have no numbers beyond their kind."""

    is_plain = False

    def stop(self, number: int) -> Any:
        return None if number > self.greatest else self.key(number)


class Characters(_Indexed):
    """Characters: the code points that are none are left out, so that their neighbours are neighbours."""

    _FIRST_SURROGATE, _SURROGATES = 0xD800, 0x800

    def __init__(self) -> None:
        super().__init__("char", 0, 0x10FFFF - self._SURROGATES)

    def number(self, key: Any) -> int:
        if not isinstance(key, str) or len(key) != 1:
            raise TypeError(f"a key is one character, not {key!r}")
        code = ord(key)
        if code < self._FIRST_SURROGATE:
            return code
        if code < self._FIRST_SURROGATE + self._SURROGATES:
            raise OverflowError(f"no character: {key!r}")
        return code - self._SURROGATES

    def key(self, number: int) -> str:
        return chr(number if number < self._FIRST_SURROGATE else number + self._SURROGATES)


class Dates(_Indexed):
    """Days, by how many there are up to them."""

    def __init__(self) -> None:
        super().__init__("date", datetime.date.min.toordinal(), datetime.date.max.toordinal())

    def number(self, key: Any) -> int:
        if not isinstance(key, datetime.date) or isinstance(key, datetime.datetime):
            raise TypeError(f"a key is a date, not {key!r}")
        return key.toordinal()

    def key(self, number: int) -> datetime.date:
        return datetime.date.fromordinal(number)

    def to_json(self, key: Any) -> Any:
        return key.isoformat()

    def of_json(self, key: Any) -> Any:
        return datetime.date.fromisoformat(key)


class Times(_Indexed):
    """Microseconds, by how many there are before them: without a time zone, or by the clock of UTC."""

    _MICROSECOND = datetime.timedelta(microseconds=1)

    def __init__(self, name: str, zone: datetime.timezone | None) -> None:
        self._zone = zone
        self._least = datetime.datetime.min.replace(tzinfo=zone)
        super().__init__(name, 0, (datetime.datetime.max - datetime.datetime.min) // self._MICROSECOND)

    def number(self, key: Any) -> int:
        if not isinstance(key, datetime.datetime) or (key.utcoffset() is None) != (self._zone is None):
            raise TypeError(f"a key is a datetime {'without' if self._zone is None else 'with'} a time zone, not {key!r}")
        return (key - self._least) // self._MICROSECOND

    def key(self, number: int) -> datetime.datetime:
        return self._least + self._MICROSECOND * number

    def to_json(self, key: Any) -> Any:
        return key.isoformat()

    def of_json(self, key: Any) -> Any:
        return datetime.datetime.fromisoformat(key)


class Addresses(_Indexed):
    """Addresses of one version of the internet protocol, without a scope, which is of one machine alone."""

    def __init__(self, name: str, of_type: type[ipaddress.IPv4Address] | type[ipaddress.IPv6Address]) -> None:
        self._type = of_type
        super().__init__(name, 0, 2 ** of_type(0).max_prefixlen - 1)

    def number(self, key: Any) -> int:
        if not isinstance(key, self._type) or getattr(key, "scope_id", None) is not None:
            raise TypeError(f"a key is an {self._type.__name__}{' without a scope' if self.is_wide else ''}, not {key!r}")
        return int(key)

    def key(self, number: int) -> Any:
        return self._type(number)

    def to_json(self, key: Any) -> Any:
        return str(key)

    def of_json(self, key: Any) -> Any:
        return self._type(key)


class Identifiers(_Indexed):
    """Universally unique identifiers, in the order of their bytes."""

    def __init__(self) -> None:
        super().__init__("uuid", 0, 2**128 - 1)

    def number(self, key: Any) -> int:
        if not isinstance(key, uuid.UUID):
            raise TypeError(f"a key is a UUID, not {key!r}")
        return key.int

    def key(self, number: int) -> uuid.UUID:
        return uuid.UUID(int=number)

    def to_json(self, key: Any) -> Any:
        return str(key)

    def of_json(self, key: Any) -> Any:
        return uuid.UUID(key)


class Floats(_Indexed):
    """Floats and both infinities, one after the other as they lie: 0.0 and -0.0 are one, and what is not a number is none."""

    _ZERO = 2**63
    _DOUBLE, _BITS = struct.Struct("<d"), struct.Struct("<Q")
    _INFINITY = 0x7FF0_0000_0000_0000

    def __init__(self) -> None:
        super().__init__("float", self._ZERO - self._INFINITY, self._ZERO + self._INFINITY)

    def number(self, key: Any) -> int:
        if not isinstance(key, (float, int)):
            raise TypeError(f"a key is a float, not {key!r}")
        try:
            (bits,) = self._BITS.unpack(self._DOUBLE.pack(key))
        except OverflowError:
            bits = self._INFINITY
        if key != key or float(self.key_of(bits)) != key:
            raise OverflowError(f"no float key: {key!r}")
        number: int = self._ZERO + bits if bits < self._ZERO else 2 * self._ZERO - bits
        return number

    def key_of(self, bits: int) -> float:
        """The float of these bits."""
        key: float = self._DOUBLE.unpack(self._BITS.pack(bits))[0]
        return key

    def key(self, number: int) -> float:
        return self.key_of(number - self._ZERO if number >= self._ZERO else 2 * self._ZERO - number)

    def to_json(self, key: Any) -> Any:
        return key if abs(key) != float("inf") else str(key)

    def of_json(self, key: Any) -> Any:
        return float(key) if key in ("inf", "-inf") else key


class _Integers(Keys):
    """Integers without bounds, of ranges that are of no collection."""

    def number(self, key: Any) -> int:
        return operator.index(key)


INTEGERS = _Integers("int", 0, 0)

KEYS: dict[str, Keys] = {}
for _bits in (8, 16, 32, 64, 128):
    KEYS[f"u{_bits}"] = Keys(f"u{_bits}", 0, 2**_bits - 1)
    KEYS[f"i{_bits}"] = Keys(f"i{_bits}", -(2 ** (_bits - 1)), 2 ** (_bits - 1) - 1)
KEYS["char"] = Characters()
KEYS["date"] = Dates()
KEYS["datetime"] = Times("datetime", None)
KEYS["utc"] = Times("utc", datetime.timezone.utc)
KEYS["ipv4"] = Addresses("ipv4", ipaddress.IPv4Address)
KEYS["ipv6"] = Addresses("ipv6", ipaddress.IPv6Address)
KEYS["uuid"] = Identifiers()
KEYS["float"] = Floats()


def kind_named(name: str) -> Keys:
    """The kind of this name; `KeyError` where there is none."""
    try:
        return KEYS[name]
    except (KeyError, TypeError):
        raise KeyError(f"no kind of keys: {name!r}; there are {', '.join(KEYS)}") from None


_OF_TYPES: dict[type, Callable[[Any], Keys]] = {
    str: lambda key: KEYS["char"],
    datetime.date: lambda key: KEYS["date"],
    datetime.datetime: lambda key: KEYS["datetime" if key.utcoffset() is None else "utc"],
    ipaddress.IPv4Address: lambda key: KEYS["ipv4"],
    ipaddress.IPv6Address: lambda key: KEYS["ipv6"],
    uuid.UUID: lambda key: KEYS["uuid"],
    float: lambda key: KEYS["float"],
}


def kind_of(key: Any) -> Keys:
    """The kind that a key is of by its type: `INTEGERS` of whole numbers; `TypeError` where it is of none."""
    for of_type in type(key).__mro__:
        if of_type in _OF_TYPES:
            return _OF_TYPES[of_type](key)
    operator.index(key)
    return INTEGERS
