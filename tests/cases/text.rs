//! How cases are written; the words are those of a `Call`.
//!
//! A statement is a word at the start of a line and its values, which may go on in indented lines
//! below. `#` begins a comment. Bytes are written in hexadecimal with blanks anywhere between
//! them; `00*16` is sixteen of them. Other numbers are decimal, CCW addresses hexadecimal. `case`
//! and a name begin a case: what stands above the first is lent in every case of the text.

use super::{Call, Case};

/// A case of which some is said; by default, of which nothing is.
#[derive(Clone, Default)]
struct Draft<C: Call> {
    lent: C::Lent,
    said: C,
    /// What is left of areas, each with its word.
    left: Vec<(&'static str, Vec<u8>)>,
}

impl<C: Call> Draft<C> {
    fn take(&mut self, statement: &Statement) -> Result<(), String> {
        let word = statement.word;
        if let Some(area) = C::only_read(&mut self.lent, word) {
            *area = statement.bytes()?;
            return Ok(());
        }
        for area in C::written(&mut self.lent) {
            if area.lent == word {
                *area.bytes = statement.bytes()?;
                return Ok(());
            }
            if area.left == word {
                self.left.push((area.left, statement.bytes()?));
                return Ok(());
            }
        }
        self.said.take(&mut self.lent, statement)
    }

    fn case(self, name: String) -> Case<C> {
        let mut left = self.lent.clone();
        for (word, bytes) in self.left {
            let mut written = C::written(&mut left).into_iter();
            let area = written.find(|area| area.left == word);
            *area.expect("the word of an area").bytes = bytes;
        }
        Case {
            name,
            lent: self.lent,
            answer: self.said.answer(),
            left,
        }
    }
}

/// The cases of a text, or what is wrong with it.
pub fn read<C: Call>(text: &str) -> Result<Vec<Case<C>>, String> {
    let statements = statements(text)?;
    let first_case = statements
        .iter()
        .position(|statement| statement.word == "case");
    let (common, own) = statements.split_at(first_case.unwrap_or(statements.len()));
    let shared = taken::<C>(Draft::default(), common)?;
    own.chunk_by(|_, next| next.word != "case")
        .map(|of_case| {
            let (case, said) = of_case.split_first().expect("chunks are not empty");
            let name = case.values.join(" ");
            let draft = taken(shared.clone(), said)?;
            let answers = said
                .iter()
                .filter(|statement| C::ANSWERS.contains(&statement.word));
            if answers.count() != 1 {
                return Err(format!("{name}: one answer is wanted"));
            }
            Ok(draft.case(name))
        })
        .collect()
}

fn taken<C: Call>(mut draft: Draft<C>, statements: &[Statement]) -> Result<Draft<C>, String> {
    for (at, statement) in statements.iter().enumerate() {
        let said_before = |before: &Statement| before.word == statement.word;
        if !C::REPEATED.contains(&statement.word) && statements[..at].iter().any(said_before) {
            return Err(statement.error("said twice"));
        }
        draft.take(statement)?;
    }
    Ok(draft)
}

pub struct Statement<'t> {
    line: usize,
    pub word: &'t str,
    pub values: Vec<&'t str>,
}

fn statements(text: &str) -> Result<Vec<Statement<'_>>, String> {
    let mut statements: Vec<Statement> = Vec::new();
    for (at, line) in text.lines().enumerate() {
        let said = line.split('#').next().unwrap_or("");
        let mut values = said.split_whitespace();
        if said.starts_with(char::is_whitespace) {
            match statements.last_mut() {
                Some(statement) => statement.values.extend(values),
                None if values.next().is_none() => (),
                None => return Err(format!("line {}: no statement goes on here", at + 1)),
            }
        } else if let Some(word) = values.next() {
            statements.push(Statement {
                line: at + 1,
                word,
                values: values.collect(),
            });
        }
    }
    Ok(statements)
}

impl Statement<'_> {
    pub fn error(&self, what: &str) -> String {
        format!("line {}, {}: {what}", self.line, self.word)
    }

    pub fn bytes(&self) -> Result<Vec<u8>, String> {
        let mut bytes = Vec::new();
        for value in &self.values {
            let (digits, times) = value.split_once('*').unwrap_or((value, "1"));
            let once = hexadecimal(digits);
            let (Some(once), Ok(times)) = (once, times.parse()) else {
                return Err(self.error(&format!("{value} is not bytes")));
            };
            bytes.extend(once.repeat(times));
        }
        Ok(bytes)
    }

    pub fn bytes_of<const LENGTH: usize>(&self) -> Result<[u8; LENGTH], String> {
        let bytes = self.bytes()?;
        let length = bytes.len();
        bytes
            .try_into()
            .map_err(|_| self.error(&format!("{length} bytes instead of {LENGTH}")))
    }

    pub fn number(&self) -> Result<usize, String> {
        match self.values[..] {
            [value] => value.parse().map_err(|_| self.error("no decimal number")),
            _ => Err(self.error("one number is wanted")),
        }
    }

    /// A decimal number that one byte can hold.
    pub fn byte_number(&self) -> Result<u8, String> {
        let number = self.number()?;
        u8::try_from(number).map_err(|_| self.error("no number up to 255"))
    }

    /// A decimal number, and what stands behind it.
    pub fn number_first(&self) -> Result<(usize, Statement<'_>), String> {
        let Some((value, rest)) = self.values.split_first() else {
            return Err(self.error("a number is wanted"));
        };
        let number = value.parse().map_err(|_| self.error("no decimal number"))?;
        let rest = Statement {
            values: rest.to_vec(),
            ..*self
        };
        Ok((number, rest))
    }

    /// The seven bytes behind the first one, 00.
    pub fn csw(&self) -> Result<[u8; 8], String> {
        let mut csw = [0; 8];
        csw[1..].copy_from_slice(&self.bytes_of::<7>()?);
        Ok(csw)
    }
}

/// Pairs of hexadecimal digits.
fn hexadecimal(digits: &str) -> Option<Vec<u8>> {
    let digits: Option<Vec<u8>> = digits
        .chars()
        .map(|digit| digit.to_digit(16).map(|digit| digit as u8))
        .collect();
    let pairs = digits.filter(|digits| digits.len() % 2 == 0)?;
    Some(pairs.chunks(2).map(|pair| pair[0] << 4 | pair[1]).collect())
}
