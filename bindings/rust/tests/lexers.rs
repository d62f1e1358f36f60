//! Lexers: tokens of rules beside those that the program `tokens` prints, faults, and texts at the ends.
use btree_range_map_proved::{Lexer, NoToken, NotBuilt, Rule, Token};
use std::fmt::Write;

const JSON: &str = include_str!("../../../crates/tokens/data/json");
const SUM: &str = "[1, 2.5e3, \"a\\nß\", true]\n";

/// The rules of a file as the program `tokens` reads it, without modes.
fn rules_of(file: &str) -> Vec<Rule<'_>> {
    let lines = file.lines().filter(|line| !line.trim().is_empty() && !line.starts_with('#'));
    lines
        .map(|line| match line.split_once(' ') {
            Some(("skip", pattern)) => Rule::skip(pattern.trim()),
            Some((name, pattern)) => Rule::new(name, pattern.trim()),
            None => panic!("{line} is no rule"),
        })
        .collect()
}

#[test]
fn tokens_of_a_file_of_rules() -> Result<(), Box<dyn std::error::Error>> {
    let lexer = Lexer::new(&rules_of(JSON))?;
    let mut shown = String::new();
    for token in lexer.tokens(SUM) {
        let Token { rule, text, line, column, .. } = token?;
        writeln!(shown, "{line}:{column} {} {text}", lexer.name(rule).unwrap_or("?"))?;
    }
    assert_eq!(
        shown,
        "1:1 mark [\n1:2 number 1\n1:3 mark ,\n1:5 number 2.5e3\n1:10 mark ,\n1:12 string \"a\\nß\"\n\
         1:18 mark ,\n1:20 literal true\n1:24 mark ]\n"
    );
    Ok(())
}

#[test]
fn text_that_no_rule_takes() -> Result<(), NotBuilt> {
    let lexer = Lexer::new(&[Rule::new("number", "[0-9]+")])?;
    let found: Vec<_> = lexer.tokens("ß7\n€").collect();
    let seven = Token { rule: 0, text: "7", start: 2, end: 3, line: 1, column: 2 };
    let missing = |start, line, column| Err(NoToken { start, line, column });
    assert_eq!(found, [missing(0, 1, 1), Ok(seven), missing(3, 1, 3), missing(4, 2, 1)]);
    assert_eq!(lexer.tokens("").len(), 0);
    assert!(Lexer::new(&[])?.tokens("a").all(|found| found.is_err()));
    Ok(())
}

#[test]
fn more_tokens_than_were_expected() -> Result<(), NotBuilt> {
    let lexer = Lexer::new(&[Rule::new("letter", "[a-z]")])?;
    let text = "abcdefghijklmnopqrstuvwxyz".repeat(1000);
    let mut tokens = lexer.tokens(&text);
    assert_eq!(tokens.len(), text.len());
    assert!(
        tokens
            .by_ref()
            .enumerate()
            .all(|(at, found)| found.is_ok_and(|it| it.start == at && it.text.len() == 1))
    );
    assert_eq!(tokens.next(), None);
    Ok(())
}

#[test]
fn rules_that_are_not_taken() {
    let refused =
        |pattern| Lexer::new(&[Rule::new("a", "a"), Rule::new("b", pattern), Rule::new("c", "(")]).err();
    let bad = |reason: &str, span| Some(NotBuilt::BadRule { rule: 1, reason: reason.into(), span });
    assert_eq!(refused("x(y"), bad("unclosed group", Some(1..2)));
    assert_eq!(refused(r"\bx"), bad("assertions are not taken", None));
    assert_eq!(refused("(?:[a-z]{1000}){1000}"), bad("the pattern is too large", None));
    let large = [Rule::new("large", "(?:a|b)*a(?:a|b){12}")];
    assert_eq!(Lexer::with_budget(&large, 1000).err(), Some(NotBuilt::TooLarge));
    assert!(Lexer::with_budget(&large, 100_000).is_ok());
}
