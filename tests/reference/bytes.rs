//! Numbers and bytes as the page writes them.

pub type Checked = Result<(), String>;

/// A decimal number, with commas between thousands or without.
pub fn number(text: &str) -> Result<usize, String> {
    let digits = text.replace(',', "");
    digits
        .parse()
        .map_err(|_| format!("'{text}' is no decimal number"))
}

pub fn hex(text: &str) -> Result<usize, String> {
    usize::from_str_radix(text, 16).map_err(|_| format!("'{text}' is no hexadecimal number"))
}

pub fn byte(text: &str) -> Result<u8, String> {
    match bytes(text)?[..] {
        [byte] => Ok(byte),
        _ => Err(format!("'{text}' is not one byte")),
    }
}

/// Hexadecimal bytes, with spaces between them or without.
pub fn bytes(text: &str) -> Result<Vec<u8>, String> {
    let digits: String = text.split_whitespace().collect();
    let no_bytes = || format!("'{text}' is no row of hexadecimal bytes");
    if !digits.is_ascii() || digits.len() % 2 != 0 {
        return Err(no_bytes());
    }
    let pairs = (0..digits.len()).step_by(2).map(|at| &digits[at..at + 2]);
    pairs
        .map(|pair| u8::from_str_radix(pair, 16).map_err(|_| no_bytes()))
        .collect()
}

/// "0 to 18", or one number alone.
pub fn range(text: &str) -> Result<(usize, usize), String> {
    match text.split_once(" to ") {
        Some((first, last)) => Ok((number(first)?, number(last)?)),
        None => number(text).map(|only| (only, only)),
    }
}

/// A range on this model: "0 to 410, on model 11 to 814", or one that both have.
pub fn range_on(model: u8, text: &str) -> Result<(usize, usize), String> {
    match text.split_once(", on model 11 to ") {
        Some((first, last)) if model == 11 => Ok((range(first)?.0, number(last)?)),
        Some((both, _)) => range(both),
        None => range(text),
    }
}

/// A number in so many bytes, the highest first.
pub fn big_endian(value: usize, length: usize) -> Vec<u8> {
    (0..length)
        .rev()
        .map(|at| (value >> (8 * at)) as u8)
        .collect()
}

pub fn value(bytes: &[u8]) -> usize {
    bytes
        .iter()
        .fold(0, |value, &byte| value * 256 + usize::from(byte))
}

/// The bytes of a sample: hexadecimal, a comment behind `#`.
pub fn sample(path: &str) -> Result<Vec<u8>, String> {
    let text = source(path)?;
    let plain: Vec<&str> = text
        .lines()
        .map(|line| line.split('#').next().unwrap_or(""))
        .collect();
    bytes(&plain.join(" "))
}

pub fn source(path: &str) -> Result<String, String> {
    std::fs::read_to_string(path).map_err(|error| format!("{path}: {error}"))
}

/// Asks that a number from `smallest` to `largest` is taken, and that those beside are refused.
pub fn bounds(
    what: &str,
    (smallest, largest): (usize, usize),
    refusal: u8,
    mut trial: impl FnMut(usize) -> Result<u8, String>,
) -> Checked {
    let below = smallest.checked_sub(1).map(|number| (number, refusal));
    let asked = [(smallest, 0), (largest, 0), (largest + 1, refusal)];
    for (number, expected) in asked.into_iter().chain(below) {
        let answer = trial(number)?;
        ensure!(
            answer == expected,
            "{what}: {number} is answered by {answer}, not by {expected}"
        );
    }
    Ok(())
}
