"""Lexers: texts cut into tokens by rules."""

from __future__ import annotations

import ctypes
from typing import Iterable, Iterator, NamedTuple, Optional, Union

from ._library import BAD_RULE, DONE, NOT_TEXT, TOO_LARGE, Handle, library

#: How many states a lexer has at most, unless it is told otherwise.
STATES = 10_000

#: How many bytes of what is wrong with a pattern are read at most.
MESSAGE = 256

#: The reason of a rule whose pattern is none.
SYNTAX = 1


class Rule(NamedTuple):
    """A rule of a lexer: how it is called, the pattern that its tokens match, and whether they are left out."""

    name: str
    pattern: str
    skip: bool = False


class Token(NamedTuple):
    """A piece of a text, by the rule that matches it. Of a `str` both `start` and `end` count characters, of bytes bytes."""

    name: str
    text: str
    rule: int
    start: int
    end: int
    line: int
    column: int


class BadRule(ValueError):
    """A rule of a lexer is not taken: the first such `rule`, by its number, the `reason`, and the `span` of characters in its
    pattern that are wrong, where it is no pattern."""

    def __init__(self, rule: int, reason: str, span: Optional[tuple[int, int]]) -> None:
        super().__init__(f"rule {rule}: {reason}")
        self.rule, self.reason, self.span = rule, reason, span


class LexerTooLarge(ValueError):
    """The lexer would have more states than its budget."""


class NoToken(ValueError):
    """No rule matches anything from a place of the text on."""

    def __init__(self, start: int, line: int, column: int) -> None:
        super().__init__(f"{line}:{column}: no token begins here")
        self.start, self.line, self.column = start, line, column


class _Rule(ctypes.Structure):
    _fields_ = [
        ("name", ctypes.c_char_p),
        ("name_size", ctypes.c_size_t),
        ("pattern", ctypes.c_char_p),
        ("pattern_size", ctypes.c_size_t),
        ("is_skipped", ctypes.c_bool),
    ]


class _Fault(ctypes.Structure):
    _fields_ = [(name, ctypes.c_size_t) for name in ("rule", "start", "end", "text_size")] + [("reason", ctypes.c_uint32)]


class _Token(ctypes.Structure):
    _fields_ = [(name, ctypes.c_size_t) for name in ("start", "end", "line", "column")]
    _fields_ += [("rule", ctypes.c_uint32), ("is_token", ctypes.c_bool)]


_size = ctypes.c_size_t
_create, _cut, _destroy = library.brm_lexer_create, library.brm_lexer_tokens, library.brm_raw_destroy
_create.argtypes = [ctypes.POINTER(Handle), ctypes.POINTER(_Rule), _size, ctypes.c_uint32]
_create.argtypes += [ctypes.POINTER(_Fault), ctypes.c_char_p, _size]
_cut.argtypes = [ctypes.POINTER(Handle), ctypes.c_char_p, _size, ctypes.POINTER(_Token), _size, ctypes.POINTER(_size)]
_create.restype = _cut.restype = ctypes.c_uint32


class Tokens(Iterator[Token]):
    """The tokens that are left of a text. Where no rule matches anything, `next` raises `NoToken`, and the one after it goes on
    behind the character there."""

    def __init__(self, text: bytes, counts_bytes: bool, names: list[str], found: ctypes.Array[_Token], count: int) -> None:
        self._text, self._counts_bytes, self._names = text, counts_bytes, names
        self._found, self._count, self._next = found, count, 0
        # a place in bytes that was passed, and the same in characters
        self._passed = self._passed_characters = 0

    def __length_hint__(self) -> int:
        return self._count - self._next

    def _place(self, at: int) -> int:
        """The place of a byte, which lies behind those that were asked for."""
        if self._counts_bytes:
            return at
        self._passed_characters += len(self._text[self._passed : at].decode())
        self._passed = at
        return self._passed_characters

    def __next__(self) -> Token:
        if self._next == self._count:
            raise StopIteration
        it = self._found[self._next]
        self._next += 1
        start = self._place(it.start)
        if not it.is_token:
            raise NoToken(start, it.line, it.column)
        text = self._text[it.start : it.end].decode()
        return Token(self._names[it.rule], text, it.rule, start, self._place(it.end), it.line, it.column)


class Lexer:
    """Cuts texts into tokens: each is the longest piece from its place on that the pattern of a rule matches, by the first such
    rule.

        >>> lexer = Lexer([("word", "[a-z]+"), ("number", "[0-9]+"), Rule("space", r"\\s+", skip=True)])
        >>> [(token.name, token.text) for token in lexer.tokens("route 66")]
        [('word', 'route'), ('number', '66')]
        >>> Lexer([("word", "[a-z]+"), ("open", "(")])
        Traceback (most recent call last):
        ...
        btree_range_map._lexer.BadRule: rule 1: unclosed group

    Patterns are those of Rust's crate `regex`, without assertions. The lexer has at most `states` states.
    """

    def __init__(self, rules: Iterable[Union[Rule, tuple[str, str], tuple[str, str, bool]]], *, states: int = STATES) -> None:
        self._handle = Handle()
        if not 0 <= states < 2**32:
            raise OverflowError("states are a number of 32 bits")
        self._rules = [Rule(*rule) for rule in rules]
        texts = [(rule.name.encode(), rule.pattern.encode()) for rule in self._rules]
        rows = [
            _Rule(name, len(name), pattern, len(pattern), rule.skip)
            for (name, pattern), rule in zip(texts, self._rules)
        ]
        fault, message = _Fault(), ctypes.create_string_buffer(MESSAGE)
        # one more, since no pointer to the rules is null
        array = (_Rule * (len(rows) + 1))(*rows)
        status = _create(self._handle, array, len(rows), states, fault, message, MESSAGE)
        if status == BAD_RULE:
            raise self._bad_rule(fault, message.raw[: fault.text_size].decode(errors="replace"))
        if status == TOO_LARGE:
            raise LexerTooLarge(f"the lexer would have more than {states} states")
        if status != DONE:
            raise MemoryError

    def _bad_rule(self, fault: _Fault, reason: str) -> BadRule:
        if fault.reason != SYNTAX:
            return BadRule(fault.rule, reason, None)
        pattern = self._rules[fault.rule].pattern.encode()
        start, end = (len(pattern[:at].decode()) for at in (fault.start, fault.end))
        return BadRule(fault.rule, reason, (start, end))

    @property
    def rules(self) -> list[Rule]:
        """The rules, whose numbers are their places."""
        return list(self._rules)

    def tokens(self, text: Union[str, bytes]) -> Tokens:
        """The tokens of the text, but for those that are left out. They are found at once, before the first is asked for.

        Bytes that are no UTF-8 raise `UnicodeDecodeError`, and a string with surrogates `UnicodeEncodeError`.
        """
        data = text.encode() if isinstance(text, str) else bytes(text)
        count, room = _size(), len(data) // 4 + 16
        while True:
            found = (_Token * room)()
            status = _cut(self._handle, data, len(data), found, room, count)
            if status == NOT_TEXT:
                data.decode()
            if count.value <= room:
                return Tokens(data, not isinstance(text, str), [rule.name for rule in self._rules], found, count.value)
            room = count.value

    def __repr__(self) -> str:
        return f"Lexer({[tuple(rule) for rule in self._rules]})"

    def __del__(self, _destroy: object = _destroy) -> None:
        handle = getattr(self, "_handle", None)
        if handle is not None and callable(_destroy):
            _destroy(handle)
