//! A line of text as words and symbols, and what is wrong with it.

use crate::names;

/// What is wrong with a text, and where: the line, and the characters that are meant, all counted from 1. Line 0 is the text as a whole.
#[derive(Clone, Debug, PartialEq, Eq)]
pub struct Mistake {
    pub line: usize,
    pub column: usize,
    pub width: usize,
    pub message: String,
}

/// A line is shown up to so many characters.
const SHOWN: usize = 120;

impl Mistake {
    /// A mistake that stands on no line.
    pub fn of_all(message: &str) -> Mistake {
        Mistake {
            line: 0,
            column: 0,
            width: 0,
            message: message.to_string(),
        }
    }

    /// The mistake as it is said about a file: where and what, then the line and under it the mark.
    pub fn report(&self, name: &str, text: &str) -> String {
        let Some(line) = self.line.checked_sub(1) else {
            return format!("{name}: {}", self.message);
        };
        let line = text.lines().nth(line).unwrap_or("");
        // Of a long line the part is shown that has the mark in it.
        let left_out = match line.chars().count() > SHOWN {
            true => (self.column - 1).saturating_sub(SHOWN / 2),
            false => 0,
        };
        let line: String = line.chars().skip(left_out).take(SHOWN).collect();
        let line = plain(&line);
        let before = self.column - 1 - left_out;
        let mark = " ".repeat(before) + &"^".repeat(self.width.min(SHOWN - before).max(1));
        let (number, column, message) = (self.line, self.column, &self.message);
        let margin = " ".repeat(number.to_string().len());
        format!("{name}:{number}:{column}: {message}\n  {number} | {line}\n  {margin} | {mark}")
    }
}

/// A text with a space for each character that is not seen or that moves others.
pub fn plain(text: &str) -> String {
    text.replace(|x| !is_seen(x), " ")
}

/// Whether a character is one that a reader sees.
fn is_seen(x: char) -> bool {
    x.escape_debug().len() == 1 || matches!(x, '\'' | '"' | '\\')
}

/// A word or a symbol, with the column where it begins.
#[derive(Clone, Copy, Debug)]
struct Token<'a> {
    text: &'a str,
    column: usize,
}

impl Token<'_> {
    /// The text as far as it is short, or the number of a character that isn't seen.
    fn shown(&self) -> String {
        match self.text.chars().next() {
            Some(x) if !is_seen(x) => format!("U+{:04X}", u32::from(x)),
            _ => self.text.chars().take(SHOWN / 4).collect(),
        }
    }
}

/// Expressions may stand in each other up to this depth.
const DEEPEST: usize = 32;

/// A line has at most so many characters.
const LONGEST: usize = 4096;

/// The lines of a text that say something, in their order.
pub fn lines(text: &str) -> impl Iterator<Item = Result<Line<'_>, Mistake>> {
    let text = text.trim_start_matches('\u{feff}');
    let line = |(number, text)| Line::new(number, text);
    let says = |line: &Result<Line, Mistake>| !line.as_ref().is_ok_and(|x| x.tokens.is_empty());
    (1..).zip(text.lines()).map(line).filter(says)
}

/// A line that is read from the left.
pub struct Line<'a> {
    pub number: usize,
    tokens: Vec<Token<'a>>,
    /// How many of them were read.
    read: usize,
    /// The column after the last one.
    end: usize,
    depth: usize,
}

fn is_word(x: char) -> bool {
    x.is_ascii_alphanumeric() || matches!(x, '_' | '.' | '-')
}

/// The words and symbols of a text.
fn tokens(text: &str) -> Vec<Token<'_>> {
    let mut tokens = vec![];
    let mut rest = text.char_indices().enumerate().peekable();
    while let Some((place, (start, first))) = rest.next() {
        let mut end = start + first.len_utf8();
        while let Some((_, (at, _))) = rest.next_if(|&(_, (_, x))| is_word(first) && is_word(x)) {
            end = at + 1;
        }
        if !first.is_whitespace() {
            let (text, column) = (&text[start..end], place + 1);
            tokens.push(Token { text, column });
        }
    }
    tokens
}

impl<'a> Line<'a> {
    /// The words and symbols of a line; a comment begins with `#`.
    pub fn new(number: usize, line: &'a str) -> Result<Line<'a>, Mistake> {
        let text = line.split('#').next().unwrap_or("");
        if text.chars().nth(LONGEST).is_some() {
            return Err(Mistake {
                line: number,
                column: LONGEST + 1,
                width: 1,
                message: format!("a line has at most {LONGEST} characters"),
            });
        }
        let tokens = tokens(text);
        let end = |last: &Token| last.column + last.text.chars().count();
        Ok(Line {
            number,
            end: tokens.last().map_or(1, end),
            tokens,
            read: 0,
            depth: 0,
        })
    }

    /// The next word or symbol.
    pub fn peek(&self) -> Option<&'a str> {
        self.tokens.get(self.read).map(|token| token.text)
    }

    pub fn skip(&mut self) {
        self.read += 1;
    }

    /// Whether the next word or symbol is this one, which is then read.
    pub fn take(&mut self, text: &str) -> bool {
        let is_next = self.peek() == Some(text);
        self.read += usize::from(is_next);
        is_next
    }

    /// Whether the line goes on with these words, and how many they are.
    pub fn starts_with(&self, words: &str) -> Option<usize> {
        let words: Vec<&str> = words.split(' ').collect();
        let rest = &self.tokens[self.read..];
        let starts =
            rest.len() >= words.len() && rest.iter().zip(&words).all(|(x, y)| x.text == *y);
        starts.then_some(words.len())
    }

    /// A mistake at the next word or symbol, or at the end of the line.
    pub fn mistake(&self, message: &str) -> Mistake {
        let (column, width, found) = match self.tokens.get(self.read) {
            Some(token) => {
                let width = token.text.chars().count();
                (token.column, width, format!("`{}`", token.shown()))
            }
            None => (self.end, 1, "the line ends here".to_string()),
        };
        Mistake {
            line: self.number,
            column,
            width,
            message: format!("{found}: {message}"),
        }
    }

    /// Nothing may be left.
    pub fn ended(&self) -> Result<(), Mistake> {
        match self.peek() {
            None => Ok(()),
            Some(_) => Err(self.mistake("nothing more stands on such a line")),
        }
    }

    /// What stands in something else.
    pub fn deeper<T>(
        &mut self,
        inside: impl FnOnce(&mut Line<'a>) -> Result<T, Mistake>,
    ) -> Result<T, Mistake> {
        if self.depth == DEEPEST {
            return Err(self.mistake(&format!("more than {DEEPEST} expressions in each other")));
        }
        self.depth += 1;
        let found = inside(self);
        self.depth -= 1;
        found
    }

    /// A number up to a greatest one.
    pub fn number(&mut self, greatest: usize) -> Result<usize, Mistake> {
        let number = self.peek().and_then(names::number);
        let number = number.filter(|&number| number <= greatest);
        let mistake = || self.mistake(&format!("a number from 0 to {greatest} is due"));
        let number = number.ok_or_else(mistake)?;
        self.skip();
        Ok(number)
    }
}
