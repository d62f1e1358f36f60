//! Lexers: texts cut into tokens by rules.
use crate::ffi::{self, Handle, RawFault, RawRule, RawToken};
use std::fmt;
use std::ops::Range;

/// How many states a lexer has at most, unless it is told otherwise.
const STATES: u32 = 10_000;

/// How many bytes of what is wrong with a pattern are read at most.
const MESSAGE: usize = 256;

/// A rule of a lexer: how it is called, the pattern that its tokens match, and whether they are left out.
#[derive(Clone, Copy, Debug, PartialEq, Eq)]
pub struct Rule<'a> {
    /// How it is called.
    pub name: &'a str,
    /// What its tokens match, as the crate `regex` writes it, without assertions.
    pub pattern: &'a str,
    /// Whether its tokens are left out.
    pub is_skipped: bool,
}

impl<'a> Rule<'a> {
    /// A rule whose tokens are given.
    pub const fn new(name: &'a str, pattern: &'a str) -> Rule<'a> {
        Rule { name, pattern, is_skipped: false }
    }

    /// A rule whose tokens are left out.
    pub const fn skip(pattern: &'a str) -> Rule<'a> {
        Rule { name: "skip", pattern, is_skipped: true }
    }
}

/// Why there is no lexer of some rules.
#[derive(Clone, Debug, PartialEq, Eq)]
pub enum NotBuilt {
    /// The first rule that is not taken, by its number, and why.
    BadRule {
        /// Its number from 0 on.
        rule: usize,
        /// What is wrong.
        reason: String,
        /// The bytes of its pattern that are wrong, where it is no pattern.
        span: Option<Range<usize>>,
    },
    /// The lexer would have more states than its budget.
    TooLarge,
    /// There was not enough memory.
    NoMemory,
}

impl fmt::Display for NotBuilt {
    fn fmt(&self, f: &mut fmt::Formatter<'_>) -> fmt::Result {
        match self {
            NotBuilt::BadRule { rule, reason, .. } => write!(f, "rule {rule}: {reason}"),
            NotBuilt::TooLarge => f.write_str("the lexer would have too many states"),
            NotBuilt::NoMemory => f.write_str("out of memory"),
        }
    }
}

impl std::error::Error for NotBuilt {}

/// A piece of a text, by the rule that matches it.
#[derive(Clone, Copy, Debug, PartialEq, Eq)]
pub struct Token<'t> {
    /// The number of the rule, as they stood.
    pub rule: usize,
    /// The piece.
    pub text: &'t str,
    /// Its first byte.
    pub start: usize,
    /// The byte behind it.
    pub end: usize,
    /// The line where it begins, from 1.
    pub line: usize,
    /// The column where it begins, in characters, from 1.
    pub column: usize,
}

/// No rule matches anything from a place on.
#[derive(Clone, Copy, Debug, PartialEq, Eq)]
pub struct NoToken {
    /// The byte there.
    pub start: usize,
    /// Its line, from 1.
    pub line: usize,
    /// Its column, in characters, from 1.
    pub column: usize,
}

impl fmt::Display for NoToken {
    fn fmt(&self, f: &mut fmt::Formatter<'_>) -> fmt::Result {
        write!(f, "{}:{}: no token begins here", self.line, self.column)
    }
}

impl std::error::Error for NoToken {}

/// Cuts texts into tokens: each is the longest piece from its place on that the pattern of a rule matches, by the first such
/// rule.
///
/// ```
/// use btree_range_map_proved::{Lexer, Rule};
///
/// let lexer = Lexer::new(&[
///     Rule::new("word", "[a-z]+"),
///     Rule::new("number", "[0-9]+"),
///     Rule::skip(r"\s+"),
/// ])?;
/// let tokens: Result<Vec<_>, _> = lexer.tokens("route 66").collect();
/// let tokens = tokens?;
/// assert_eq!((tokens[1].text, lexer.name(tokens[1].rule)), ("66", Some("number")));
/// # Ok::<(), Box<dyn std::error::Error>>(())
/// ```
pub struct Lexer {
    handle: Handle,
    names: Vec<String>,
}

impl Lexer {
    /// The lexer of the rules, which has at most 10,000 states.
    pub fn new(rules: &[Rule<'_>]) -> Result<Lexer, NotBuilt> {
        Lexer::with_budget(rules, STATES)
    }

    /// The lexer of the rules, which has at most so many states.
    pub fn with_budget(rules: &[Rule<'_>], budget: u32) -> Result<Lexer, NotBuilt> {
        let raw: Vec<RawRule> = rules.iter().map(raw).collect();
        let mut fault = RawFault::default();
        let mut message = [0u8; MESSAGE];
        let mut handle = Handle::closed();
        // SAFETY: the handle is closed and this function's own, and the rules, the fault and the message are initialised and
        // as long as is said; the rules' texts live as long as `rules`.
        let status = unsafe {
            ffi::brm_lexer_create(
                handle.get_mut(),
                raw.as_ptr(),
                raw.len(),
                budget,
                &mut fault,
                message.as_mut_ptr(),
                message.len(),
            )
        };
        match status {
            ffi::DONE => Ok(Lexer { handle, names: rules.iter().map(|rule| rule.name.to_owned()).collect() }),
            ffi::BAD_RULE => Err(bad_rule(&fault, &message)),
            ffi::TOO_LARGE => Err(NotBuilt::TooLarge),
            _ => Err(NotBuilt::NoMemory),
        }
    }

    /// The name of the rule of this number.
    pub fn name(&self, rule: usize) -> Option<&str> {
        self.names.get(rule).map(String::as_str)
    }

    /// The tokens of the text, but for those that are left out. Where no rule matches anything, the item says so, and the text
    /// goes on behind the character there.
    ///
    /// They are found at once, before the first is asked for.
    pub fn tokens<'t>(&self, text: &'t str) -> Tokens<'t> {
        let mut room = text.len() / 4 + 16;
        loop {
            let mut found = vec![RawToken::default(); room];
            let mut count = 0;
            // SAFETY: the handle is open on a lexer and written by no call, by the reference to it; the text and the array are
            // initialised and as long as is said.
            unsafe {
                ffi::brm_lexer_tokens(
                    self.handle.get(),
                    text.as_ptr(),
                    text.len(),
                    found.as_mut_ptr(),
                    found.len(),
                    &mut count,
                );
            }
            if count <= room {
                found.truncate(count);
                return Tokens { text, found: found.into_iter() };
            }
            room = count;
        }
    }
}

impl fmt::Debug for Lexer {
    fn fmt(&self, f: &mut fmt::Formatter<'_>) -> fmt::Result {
        f.debug_struct("Lexer").field("names", &self.names).finish_non_exhaustive()
    }
}

fn raw(rule: &Rule<'_>) -> RawRule {
    RawRule {
        name: rule.name.as_ptr(),
        name_size: rule.name.len(),
        pattern: rule.pattern.as_ptr(),
        pattern_size: rule.pattern.len(),
        is_skipped: rule.is_skipped,
    }
}

fn bad_rule(fault: &RawFault, message: &[u8]) -> NotBuilt {
    NotBuilt::BadRule {
        rule: fault.rule,
        reason: String::from_utf8_lossy(&message[..fault.text_size]).into_owned(),
        span: (fault.reason == ffi::SYNTAX).then_some(fault.start..fault.end),
    }
}

/// The tokens of a text, one after the other. See [`Lexer::tokens`].
#[derive(Clone, Debug)]
pub struct Tokens<'t> {
    text: &'t str,
    found: std::vec::IntoIter<RawToken>,
}

impl<'t> Iterator for Tokens<'t> {
    type Item = Result<Token<'t>, NoToken>;

    fn next(&mut self) -> Option<Result<Token<'t>, NoToken>> {
        let RawToken { start, end, line, column, rule, is_token } = self.found.next()?;
        Some(if is_token {
            Ok(Token { rule: rule as usize, text: &self.text[start..end], start, end, line, column })
        } else {
            Err(NoToken { start, line, column })
        })
    }

    fn size_hint(&self) -> (usize, Option<usize>) {
        self.found.size_hint()
    }
}

impl ExactSizeIterator for Tokens<'_> {}

impl std::iter::FusedIterator for Tokens<'_> {}
