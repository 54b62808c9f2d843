//! The tokens of a line: words of a form, numbers, words of 64 bits and bytes.

use super::{Quoted, Reason, LIST_WORDS};

/// A token: bytes without spaces, tabs and the start of a comment.
pub type Token<'a> = &'a [u8];

/// As many arguments as a form has.
pub fn exactly<T: Copy, const COUNT: usize>(form: &str, tokens: &[T]) -> Result<[T; COUNT], Reason> {
    let form = || form.to_string();
    if tokens.len() > COUNT {
        return Err(Reason::TooMany { form: form() });
    }
    <[T; COUNT]>::try_from(tokens).map_err(|_| Reason::TooFew { form: form() })
}

/// The word that a form has next, one of several, and what follows it.
pub fn forms_word<'a, 'b>(
    expected: &'static str,
    words: &[&'static str],
    tokens: &'a [Token<'b>],
) -> Result<(&'static str, &'a [Token<'b>]), Reason> {
    let found = tokens.first();
    let word = found.and_then(|found| words.iter().find(|word| word.as_bytes() == *found));
    match word {
        Some(word) => Ok((word, &tokens[1..])),
        None => Err(Reason::UnexpectedWord { expected, found: found.map(|found| Quoted::new(found)) }),
    }
}

/// A number from 0 to the most: 1 to 20 decimal digits.
pub fn number_to(most: u64, name: &'static str, token: Token) -> Result<u64, Reason> {
    let decimal = token.len() <= 20 && token.iter().all(u8::is_ascii_digit);
    let value = std::str::from_utf8(token).ok().filter(|_| decimal).and_then(|digits| digits.parse().ok());
    value.filter(|value| *value <= most).ok_or_else(|| Reason::Number {
        name,
        most,
        found: Quoted::new(token),
    })
}

/// A number below 2^64.
pub fn number(name: &'static str, token: Token) -> Result<u64, Reason> {
    number_to(u64::MAX, name, token)
}

/// A number below 2^32.
pub fn number_32(name: &'static str, token: Token) -> Result<u32, Reason> {
    number_to(u32::MAX.into(), name, token).map(|value| value as u32)
}

/// A number below a limit.
pub fn index(limit: usize, name: &'static str, token: Token) -> Result<usize, Reason> {
    number_to(limit as u64 - 1, name, token).map(|value| value as usize)
}

/// A list of words.
pub fn words(tokens: &[Token]) -> Result<Vec<u64>, Reason> {
    list("words", tokens, word)
}

/// A list of words or bytes.
pub fn list<T>(
    of: &'static str,
    tokens: &[Token],
    read: fn(Token) -> Result<T, Reason>,
) -> Result<Vec<T>, Reason> {
    if tokens.len() > LIST_WORDS {
        return Err(Reason::LongList { of, count: tokens.len() });
    }
    tokens.iter().map(|token| read(token)).collect()
}

/// Exactly 16 hexadecimal digits.
pub fn word(token: Token) -> Result<u64, Reason> {
    hexadecimal("word", 16, token)
}

/// Exactly 2 hexadecimal digits.
pub fn byte(token: Token) -> Result<u8, Reason> {
    hexadecimal("byte", 2, token).map(|value| value as u8)
}

fn hexadecimal(of: &'static str, digits: usize, token: Token) -> Result<u64, Reason> {
    let all = token.len() == digits && token.iter().all(u8::is_ascii_hexdigit);
    let value = std::str::from_utf8(token).ok().filter(|_| all);
    value.and_then(|digits| u64::from_str_radix(digits, 16).ok()).ok_or_else(|| Reason::Digits {
        of,
        digits,
        found: Quoted::new(token),
    })
}
