"""Tests of lexers: python3 -m unittest in this folder, with the package installed or RANGE_MAP_LIBRARY set."""

import doctest
import pathlib
import re
import unittest

from btree_range_map import BadRule, Lexer, LexerTooLarge, NoToken, Rule, Token, _lexer

#: the files of rules that come with the program `tokens`, where the repository is at hand
FILES = pathlib.Path(__file__).resolve().parents[3] / "crates/tokens/data"


def rules_of(text):
    """The rules of a file as the program `tokens` reads it, without modes."""
    lines = [line.split(None, 1) for line in text.splitlines() if line.strip() and not line.startswith("#")]
    return [Rule(name, pattern.strip(), name == "skip") for name, pattern in lines]


def lines_of(lexer, text):
    """What the program `tokens` prints of the text with `--raw`, where each token is of one line."""
    return [f"{it.line}:{it.column} {it.name} {it.text}" for it in lexer.tokens(text)]


class Lexers(unittest.TestCase):
    def test_examples(self):
        self.assertEqual(doctest.testmod(_lexer).failed, 0)

    def test_tokens(self):
        lexer = Lexer([("if", "if"), ("word", r"\w+"), Rule("space", r"\s+", skip=True)])
        self.assertEqual(
            list(lexer.tokens("if ifs\nß ")),
            [Token("if", "if", 0, 0, 2, 1, 1), Token("word", "ifs", 1, 3, 6, 1, 4), Token("word", "ß", 1, 7, 8, 2, 1)],
        )
        self.assertEqual([(it.start, it.end) for it in lexer.tokens("ßß if")], [(0, 2), (3, 5)])
        self.assertEqual([(it.start, it.end) for it in lexer.tokens("ßß if".encode())], [(0, 4), (5, 7)])
        self.assertEqual(list(lexer.tokens("")), [])
        self.assertEqual(list(lexer.tokens(b"  ")), [])
        self.assertEqual([rule.name for rule in lexer.rules], ["if", "word", "space"])

    def test_text_that_no_rule_takes(self):
        tokens = Lexer([("number", "[0-9]+")]).tokens("ß7\n€")
        found = []
        for _ in range(4):
            try:
                found.append(next(tokens))
            except NoToken as error:
                found.append((error.start, error.line, error.column))
        self.assertEqual(found, [(0, 1, 1), Token("number", "7", 0, 1, 2, 1, 2), (2, 1, 3), (3, 2, 1)])
        with self.assertRaises(StopIteration):
            next(tokens)
        with self.assertRaises(NoToken):
            list(Lexer([]).tokens("a"))

    def test_bytes_that_are_no_text(self):
        lexer = Lexer([("any", "(?s:.)")])
        for text in (b"\xff", b"a\xc3", b"\xed\xa0\x80"):
            with self.assertRaises(UnicodeDecodeError):
                lexer.tokens(text)
        with self.assertRaises(UnicodeEncodeError):
            lexer.tokens("\ud800")
        self.assertEqual([it.text for it in lexer.tokens("\0\U0010ffff")], ["\0", "\U0010ffff"])

    def test_rules_that_are_not_taken(self):
        for pattern, reason, span in (
            ("xß(y", "unclosed group", (2, 3)),
            ("^x", "assertions are not taken", None),
            ("(?:[a-z]{1000}){1000}", "the pattern is too large", None),
        ):
            with self.subTest(pattern), self.assertRaises(BadRule) as caught:
                Lexer([("a", "a"), ("b", pattern), ("c", "(")])
            self.assertEqual((caught.exception.rule, caught.exception.reason, caught.exception.span), (1, reason, span))
        large = [("large", "(?:a|b)*a(?:a|b){12}")]
        with self.assertRaises(LexerTooLarge):
            Lexer(large, states=1000)
        self.assertEqual(len(list(Lexer(large, states=100_000).tokens("b" + "a" * 13))), 1)
        for states in (-1, 2**32):
            with self.assertRaises(OverflowError):
                Lexer(large, states=states)

    def test_more_tokens_than_were_expected(self):
        text = "abc" * 10_000
        tokens = list(Lexer([("letter", "[a-z]")]).tokens(text))
        self.assertEqual("".join(it.text for it in tokens), text)
        self.assertEqual([it.start for it in tokens], list(range(len(text))))

    def test_beside_the_module_re(self):
        rules = [Rule("name", "[a-z_]+"), Rule("number", "[0-9]+"), Rule("skip", "[ \n]+", True), Rule("sign", "[-+*/()]")]
        whole = re.compile("|".join(f"(?P<{rule.name}>{rule.pattern})" for rule in rules))
        text = "a_b + 12*(c - 345)\n" * 50
        expected = [(it.lastgroup, it[0], it.start(), it.end()) for it in whole.finditer(text) if it.lastgroup != "skip"]
        self.assertEqual([(it.name, it.text, it.start, it.end) for it in Lexer(rules).tokens(text)], expected)

    @unittest.skipUnless(FILES.exists(), "the files of rules are not at hand")
    def test_files_of_rules(self):
        json = Lexer(rules_of((FILES / "json").read_text()))
        self.assertEqual(
            lines_of(json, '[1, 2.5e3, "a\\nß"]'),
            ["1:1 mark [", "1:2 number 1", "1:3 mark ,", "1:5 number 2.5e3", "1:10 mark ,"]
            + ['1:12 string "a\\nß"', "1:18 mark ]"],
        )
        code = "#define A 1 /* don't */\nint f(void) { return 0x1.8p3; } // ß\n"
        names = [(it.name, it.text) for it in Lexer(rules_of((FILES / "c").read_text())).tokens(code)]
        self.assertEqual(names[:4], [("punctuator", "#"), ("identifier", "define"), ("identifier", "A"), ("number", "1")])
        self.assertEqual(names[-4:], [("keyword", "return"), ("number", "0x1.8p3"), ("punctuator", ";"), ("punctuator", "}")])


if __name__ == "__main__":
    unittest.main()
