//! Bytes as hexadecimal text; no bytes are written as `-`, so that every field of a line has a mark.

const DIGITS: &[u8; 16] = b"0123456789abcdef";

pub fn to_hex(bytes: &[u8]) -> String {
    if bytes.is_empty() {
        return "-".to_string();
    }
    let mut text = String::with_capacity(2 * bytes.len());
    for byte in bytes {
        text.push(char::from(DIGITS[usize::from(byte >> 4)]));
        text.push(char::from(DIGITS[usize::from(byte & 15)]));
    }
    text
}

pub fn from_hex(text: &str) -> Result<Vec<u8>, String> {
    if text == "-" {
        return Ok(Vec::new());
    }
    let fault = || format!("not hexadecimal: {}", text);
    if text.len() % 2 == 1 {
        return Err(fault());
    }
    let digit = |byte: u8| char::from(byte).to_digit(16).map(|digit| digit as u8);
    let pair = |pair: &[u8]| Some(16 * digit(pair[0])? + digit(pair[1])?);
    text.as_bytes().chunks(2).map(|two| pair(two).ok_or_else(fault)).collect()
}
