//! What the peers do alike with the bytes of packets.
#![allow(dead_code)]

use std::io::BufRead;

/// The field of a packet without a checksum.
pub const NO_SUM: u16 = 0xffff;

/// The checksum by the standard's loop: for each word add it with end-around carry, and rotate left by one.
#[inline]
pub fn cycle(bytes: &[u8]) -> u16 {
    let mut sum: u32 = 0;
    for pair in bytes.chunks_exact(2) {
        sum += u32::from(u16::from_be_bytes([pair[0], pair[1]]));
        sum = (sum & 0xffff) + (sum >> 16);
        sum = ((sum << 1) & 0xffff) | (sum >> 15);
    }
    if sum == 0xffff { 0 } else { sum as u16 }
}

/// The number near the reference that leaves the field as its remainder.
#[inline]
pub fn nearest(reference: u64, field: u16) -> Option<u64> {
    let least = reference + 32768;
    (least + u64::from(field.wrapping_sub(least as u16))).checked_sub(65536)
}

/// The value of a digit of hex.
#[inline]
pub fn nibble(digit: u8) -> Option<u8> {
    match digit {
        b'0'..=b'9' => Some(digit - b'0'),
        b'a'..=b'f' => Some(digit - b'a' + 10),
        b'A'..=b'F' => Some(digit - b'A' + 10),
        _ => None,
    }
}

/// The number that the bytes are, the highest first.
#[inline]
pub fn be(bytes: &[u8]) -> u64 {
    bytes.iter().fold(0, |number, byte| number << 8 | u64::from(*byte))
}

/// Reads the next line, without its end, blanks and tabs. Whether there is one.
#[inline]
pub fn next_line(input: &mut impl BufRead, line: &mut Vec<u8>) -> bool {
    line.clear();
    if input.read_until(b'\n', line).unwrap() == 0 {
        return false;
    }
    for end in [b'\n', b'\r'] {
        if line.last() == Some(&end) {
            line.pop();
        }
    }
    line.retain(|byte| *byte != b' ' && *byte != b'\t');
    true
}

/// Appends bytes in hex, `-` for none.
#[inline]
pub fn put_hex(out: &mut Vec<u8>, bytes: &[u8]) {
    const DIGITS: &[u8; 16] = b"0123456789abcdef";
    if bytes.is_empty() {
        out.push(b'-');
    }
    for byte in bytes {
        out.push(DIGITS[usize::from(byte >> 4)]);
        out.push(DIGITS[usize::from(byte & 15)]);
    }
}

/// Appends words in hex, with a blank between them, `-` for none, and the end of the line.
#[inline]
pub fn put_words(out: &mut Vec<u8>, bytes: &[u8]) {
    if bytes.is_empty() {
        out.push(b'-');
    }
    for (place, word) in bytes.chunks(2).enumerate() {
        if place > 0 {
            out.push(b' ');
        }
        put_hex(out, word);
    }
    out.push(b'\n');
}
