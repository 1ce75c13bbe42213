//! A table's contents as text: an expression over the pins of its letter where a short one is found, else hexadecimal digits.

use model::layout::*;

use crate::lines::{Line, Mistake};

/// For each pin of a table the word that is 1 where the pin is.
const PIN_WORDS: [u64; TABLE_PINS] = [
    0xAAAA_AAAA_AAAA_AAAA,
    0xCCCC_CCCC_CCCC_CCCC,
    0xF0F0_F0F0_F0F0_F0F0,
    0xFF00_FF00_FF00_FF00,
    0xFFFF_0000_FFFF_0000,
    0xFFFF_FFFF_0000_0000,
];

/// An expression is shown up to this many characters.
const SHORT: usize = 40;

/// So many multiplexers may stand in each other in an expression that is shown.
const DEEP: usize = 2;

/// The contents of a letter's table in a slice's body. What a memory or a shift register holds at power-up is no function of its pins.
pub fn text(body: &[u8], letter: usize) -> String {
    let word = contents(body, letter);
    let expression = match body[MODE + letter] {
        0 => found(word, DEEP).map(|expression| expression.text(letter)),
        _ => None,
    };
    let short = expression.filter(|text| text.len() <= SHORT);
    short.unwrap_or_else(|| format!("{word:#x}"))
}

/// Reads the contents of a letter's table.
pub fn parse(line: &mut Line, letter: usize) -> Result<u64, Mistake> {
    match line.peek().and_then(|word| word.strip_prefix("0x")) {
        Some(digits) => {
            let is_word = (1..=16).contains(&digits.len());
            let word = u64::from_str_radix(digits, 16);
            let word = word.ok().filter(|_| is_word);
            let word = word.ok_or(line.mistake("not 1 to 16 hexadecimal digits after 0x"))?;
            line.skip();
            Ok(word)
        }
        None => expression(line, letter),
    }
}

/// A whole expression.
fn expression(line: &mut Line, letter: usize) -> Result<u64, Mistake> {
    line.deeper(|line| selected(line, letter))
}

/// `a ? b : c`, or what binds more tightly.
fn selected(line: &mut Line, letter: usize) -> Result<u64, Mistake> {
    let select = joined(line, letter, &Operator::ALL)?;
    if !line.take("?") {
        return Ok(select);
    }
    let one = expression(line, letter)?;
    if !line.take(":") {
        return Err(line.mistake("a `:` is due, as in `A1 ? A2 : A3`"));
    }
    let zero = expression(line, letter)?;
    Ok(select & one | !select & zero)
}

#[derive(Clone, Copy, Debug, PartialEq)]
enum Operator {
    Or,
    Xor,
    And,
}

impl Operator {
    /// The one that binds most loosely first.
    const ALL: [Operator; 3] = [Operator::Or, Operator::Xor, Operator::And];

    fn symbol(self) -> &'static str {
        match self {
            Operator::Or => "|",
            Operator::Xor => "^",
            Operator::And => "&",
        }
    }

    fn apply(self, a: u64, b: u64) -> u64 {
        match self {
            Operator::Or => a | b,
            Operator::Xor => a ^ b,
            Operator::And => a & b,
        }
    }
}

/// Operands joined by the first of these operators, each of them joined by the others.
fn joined(line: &mut Line, letter: usize, operators: &[Operator]) -> Result<u64, Mistake> {
    let Some((operator, others)) = operators.split_first() else {
        return operand(line, letter);
    };
    let mut word = joined(line, letter, others)?;
    while line.take(operator.symbol()) {
        word = operator.apply(word, joined(line, letter, others)?);
    }
    Ok(word)
}

/// A pin, a constant or an expression in brackets, after any number of `!`.
fn operand(line: &mut Line, letter: usize) -> Result<u64, Mistake> {
    let mut turned = 0;
    while line.take("!") {
        turned = !turned;
    }
    Ok(turned ^ positive(line, letter)?)
}

fn positive(line: &mut Line, letter: usize) -> Result<u64, Mistake> {
    if line.take("(") {
        let word = expression(line, letter)?;
        return match line.take(")") {
            true => Ok(word),
            false => Err(line.mistake("a `)` is due")),
        };
    }
    let pins = (0..TABLE_PINS).map(|i| (pin_name(letter, i), PIN_WORDS[i]));
    let constants = [("0", 0), ("1", u64::MAX)];
    let mut operands = pins.chain(constants);
    let found = operands.find(|(name, _)| line.peek() == Some(name));
    let name = LETTER_NAMES[letter];
    let (_, word) = found.ok_or(line.mistake(&format!(
        "an operand is {name}1 to {name}6, 0, 1 or an expression in brackets; a word is 0x and hexadecimal digits"
    )))?;
    line.skip();
    Ok(word)
}

fn pin_name(letter: usize, i: usize) -> &'static str {
    PIN_NAMES[table_pin(letter, i + 1)]
}

/// An expression over a table's pins, by their places.
#[derive(Clone, Debug, PartialEq)]
enum Expression {
    Constant(bool),
    Pin(usize),
    Not(usize),
    Joined(Operator, Box<(Expression, Expression)>),
    /// By the pin that selects, the side for 1 first.
    Selected(usize, Box<(Expression, Expression)>),
}

impl Expression {
    fn text(&self, letter: usize) -> String {
        match self {
            Expression::Constant(bit) => u8::from(*bit).to_string(),
            Expression::Pin(i) => pin_name(letter, *i).to_string(),
            Expression::Not(i) => format!("!{}", pin_name(letter, *i)),
            Expression::Joined(operator, sides) => {
                let side = |side: &Expression| side.bracketed(letter, side.is_apart(*operator));
                format!(
                    "{} {} {}",
                    side(&sides.0),
                    operator.symbol(),
                    side(&sides.1)
                )
            }
            Expression::Selected(i, sides) => {
                let side = |side: &Expression| side.bracketed(letter, side.selects());
                format!(
                    "{} ? {} : {}",
                    pin_name(letter, *i),
                    side(&sides.0),
                    side(&sides.1)
                )
            }
        }
    }

    fn bracketed(&self, letter: usize, brackets: bool) -> String {
        match brackets {
            true => format!("({})", self.text(letter)),
            false => self.text(letter),
        }
    }

    fn selects(&self) -> bool {
        matches!(self, Expression::Selected(..))
    }

    /// Whether it stands in brackets beside an operator: what is joined by another one does, but for `&` beside `|`, which everybody reads.
    fn is_apart(&self, operator: Operator) -> bool {
        match self {
            Expression::Joined(own, _) => {
                *own != operator && (operator, *own) != (Operator::Or, Operator::And)
            }
            _ => self.selects(),
        }
    }

    /// How much there is to read: the pins that it names.
    fn size(&self) -> usize {
        match self {
            Expression::Constant(_) => 0,
            Expression::Pin(_) | Expression::Not(_) => 1,
            Expression::Joined(_, sides) => sides.0.size() + sides.1.size(),
            Expression::Selected(_, sides) => 1 + sides.0.size() + sides.1.size(),
        }
    }
}

/// The word with a pin held at 0 or at 1.
fn held(word: u64, i: usize, bit: bool) -> u64 {
    let step = 1 << i;
    match bit {
        false => {
            let zeros = word & !PIN_WORDS[i];
            zeros | zeros << step
        }
        true => {
            let ones = word & PIN_WORDS[i];
            ones | ones >> step
        }
    }
}

/// A set of pins, a bit for each.
type Pins = usize;

fn pins_of(set: Pins) -> impl DoubleEndedIterator<Item = usize> {
    (0..TABLE_PINS).filter(move |i| set >> i & 1 == 1)
}

/// An expression for a word, if it falls apart into operators over disjoint pins and at most so many multiplexers in each other.
fn found(word: u64, muxes: usize) -> Option<Expression> {
    let reads = |&i: &usize| held(word, i, false) != held(word, i, true);
    let pins: Vec<usize> = (0..TABLE_PINS).filter(reads).collect();
    match pins[..] {
        [] => Some(Expression::Constant(word != 0)),
        [i] if word == PIN_WORDS[i] => Some(Expression::Pin(i)),
        [i] => Some(Expression::Not(i)),
        _ => {
            let set = pins.iter().map(|i| 1 << i).sum();
            split(word, set, muxes).or_else(|| selection(word, set, muxes.checked_sub(1)?))
        }
    }
}

/// By a multiplexer, with the pin as its select that leaves least to read.
fn selection(word: u64, set: Pins, muxes: usize) -> Option<Expression> {
    let by = |i: usize| {
        let one = found(held(word, i, true), muxes)?;
        let zero = found(held(word, i, false), muxes)?;
        Some(Expression::Selected(i, Box::new((one, zero))))
    };
    pins_of(set)
        .rev()
        .filter_map(by)
        .min_by_key(Expression::size)
}

/// By an operator whose sides read disjoint sets of the pins. The first pin is on the left side.
fn split(word: u64, set: Pins, muxes: usize) -> Option<Expression> {
    let first = 1 << set.trailing_zeros();
    let lefts = (0..set).filter(|left| left & !set == 0 && left & first != 0);
    let ways = lefts.flat_map(|left| Operator::ALL.map(|operator| (left, operator)));
    let mut joined = ways.filter_map(|(left, operator)| {
        let (a, b) = sides(word, operator, left, set & !left);
        if operator.apply(a, b) != word {
            return None;
        }
        let sides = (found(a, muxes)?, found(b, muxes)?);
        Some(Expression::Joined(operator, Box::new(sides)))
    });
    joined.next()
}

/// The words that an operator would have to join.
fn sides(word: u64, operator: Operator, left: Pins, right: Pins) -> (u64, u64) {
    let without = |word: u64, set: Pins| {
        pins_of(set).fold(word, |word, i| {
            let (zero, one) = (held(word, i, false), held(word, i, true));
            match operator {
                Operator::Or => zero & one,
                Operator::And => zero | one,
                Operator::Xor => zero,
            }
        })
    };
    let (a, b) = (without(word, right), without(word, left));
    match operator {
        // Where all pins are 0 the word has its lowest bit, and only one side may have it.
        Operator::Xor => (a, b ^ without(a, left)),
        Operator::Or | Operator::And => (a, b),
    }
}

#[cfg(test)]
mod tests {
    use super::*;
    use testkit::prng::Prng;

    fn word(text: &str) -> u64 {
        let mut line = Line::new(1, text).expect("a line");
        parse(&mut line, A).expect("contents")
    }

    /// What is shown of a word in table A.
    fn shown(word: u64) -> String {
        let mut body = [0; SLICE_BODY];
        body[contents_bytes(A)].copy_from_slice(&word.to_le_bytes());
        text(&body, A)
    }

    #[test]
    fn expressions_are_evaluated() {
        for (text, expected) in [
            ("0x0", 0),
            ("0xFEDCBA9876543210", 0xFEDC_BA98_7654_3210),
            ("0", 0),
            ("1", u64::MAX),
            ("A1", 0xAAAA_AAAA_AAAA_AAAA),
            ("!A1", 0x5555_5555_5555_5555),
            ("A1 & A2", 0x8888_8888_8888_8888),
            ("A1 & !A2 | A3", 0xF2F2_F2F2_F2F2_F2F2),
            ("A1 | A2 & A3", 0xEAEA_EAEA_EAEA_EAEA),
            ("(A1 | A2) & A3", 0xE0E0_E0E0_E0E0_E0E0),
            ("A1 ^ A2 & A3", 0x6A6A_6A6A_6A6A_6A6A),
            ("A1 ^ A2 | A3", 0xF6F6_F6F6_F6F6_F6F6),
            ("!(A1 ^ A2)", 0x9999_9999_9999_9999),
            ("A6 ? A1 : A2", 0xAAAA_AAAA_CCCC_CCCC),
            ("A6 ? A5 ? 1 : 0 : A1 ? 0 : 1", 0xFFFF_0000_5555_5555),
            ("A1&A2&A3&A4&A5&A6", 0x8000_0000_0000_0000),
        ] {
            assert_eq!(word(text), expected, "{text}");
        }
    }

    /// What is shown of words that people write; each is read back as the word.
    #[test]
    fn short_expressions_are_found() {
        for text in [
            "0",
            "1",
            "A3",
            "!A6",
            "A1 & !A2 | A3",
            "A1 & A2 | A3 & A4",
            "(A1 | A2) & (A3 | A4)",
            "A1 ^ A2 ^ A3",
            "A1 ? A2 | A3 : A2 & A3",
            "A1 & A2 & A3 & A4 & A5 & A6",
        ] {
            let shown = shown(word(text));
            assert_eq!(word(&shown), word(text), "{text} as {shown}");
            assert!(shown.len() <= text.len(), "{text} as {shown}");
        }
    }

    /// Whatever the word, what is shown of it gives it again. Of few pins many have an expression, of six few.
    #[test]
    fn shown_words_are_read_back() {
        let mut rng = Prng::new(1);
        let mut expressions = 0;
        for _ in 0..20_000 {
            let held_pins = [(); 3].map(|()| rng.below(TABLE_PINS));
            let hold = |word, &i: &usize| held(word, i, true);
            let random = held_pins.iter().fold(rng.number(), hold);
            let shown = shown(random);
            assert_eq!(word(&shown), random, "{shown}");
            expressions += usize::from(!shown.starts_with("0x"));
        }
        println!("{expressions} expressions");
        assert!((5_000..19_000).contains(&expressions));
    }
}
