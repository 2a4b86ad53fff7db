//! The words of a line in the text notation: numbers, indices, addresses, prefixes and bytes.

/// The lines of a text by number, from 1, each with its words before any comment.
pub fn lines(text: &str) -> impl Iterator<Item = (usize, Vec<&str>)> {
    (1..).zip(text.lines().map(|line| line.split('#').next().unwrap_or("").split_whitespace().collect()))
}

/// A number that fits: at most `largest`.
pub fn number(word: &str, largest: u32) -> Result<u32, String> {
    let digits = !word.is_empty() && word.chars().all(|digit| digit.is_ascii_digit());
    let value = word.parse::<u32>().ok().filter(|&value| digits && value <= largest);
    value.ok_or(format!("'{word}' is not a number from 0 to {largest}"))
}

/// A router's number.
pub fn index(word: &str) -> Result<usize, String> {
    Ok(number(word, 255)? as usize)
}

/// An id or address, dotted or as one number.
pub fn address(word: &str) -> Result<u32, String> {
    if !word.contains('.') {
        return number(word, u32::MAX);
    }
    let parts = word.split('.').map(|part| number(part, 255)).collect::<Result<Vec<u32>, String>>();
    match parts.as_deref() {
        Ok(&[a, b, c, d]) => Ok((a << 24) | (b << 16) | (c << 8) | d),
        _ => Err(format!("'{word}' is not an address such as 192.0.2.1")),
    }
}

/// A prefix of any values that fit their bytes; nothing where no '/' parts address and length.
pub fn prefix(word: &str) -> Option<Result<(u32, u8), String>> {
    let (start, length) = word.split_once('/')?;
    Some(address(start).and_then(|start| Ok((start, number(length, 255)? as u8))))
}

pub fn byte(word: &str) -> Result<u8, String> {
    let two_digits = word.len() == 2 && word.chars().all(|digit| digit.is_ascii_hexdigit());
    let byte = u8::from_str_radix(word, 16).ok().filter(|_| two_digits);
    byte.ok_or(format!("'{word}' is not a byte of two hexadecimal digits"))
}
