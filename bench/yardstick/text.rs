//! Numbers and lines as text.

use std::io::{self, Read, Write};

/// Infinity, as a time.
pub const INF: i64 = i64::MAX;

/// How many bytes are gathered before they are written.
const PIECE: usize = 1 << 16;

/// The number, or infinity.
pub fn number_of(field: &[u8]) -> i64 {
    if field == b"inf" {
        return INF;
    }
    let (negative, digits) = match field {
        [b'-', digits @ ..] => (true, digits),
        digits => (false, digits),
    };
    let size = digits.iter().fold(0, |n, digit| n * 10 + i64::from(digit - b'0'));
    if negative { -size } else { size }
}

pub fn push_number(out: &mut Vec<u8>, number: i64) {
    let mut digits = [0u8; 20];
    let mut at = digits.len();
    let mut rest = number.unsigned_abs();
    loop {
        at -= 1;
        digits[at] = b'0' + (rest % 10) as u8;
        rest /= 10;
        if rest == 0 {
            break;
        }
    }
    if number < 0 {
        out.push(b'-');
    }
    out.extend_from_slice(&digits[at..]);
}

/// Appends numbers, each behind a comma.
pub fn push_fields(out: &mut Vec<u8>, numbers: &[i64]) {
    for number in numbers {
        out.push(b',');
        push_number(out, *number);
    }
}

pub fn push_punctuation(out: &mut Vec<u8>, time: i64) {
    out.extend_from_slice(b"*,punct,");
    if time == INF {
        out.extend_from_slice(b"inf");
    } else {
        push_number(out, time);
    }
    out.push(b'\n');
}

/// What comes in on standard input, whole.
pub fn input() -> io::Result<Vec<u8>> {
    let mut bytes = Vec::new();
    io::stdin().lock().read_to_end(&mut bytes)?;
    Ok(bytes)
}

/// The lines of the bytes, each as its fields. No field is quoted.
pub fn lines(bytes: &[u8]) -> impl Iterator<Item = Vec<&[u8]>> {
    bytes
        .split(|byte| *byte == b'\n')
        .filter(|line| !line.is_empty())
        .map(|line| line.split(|byte| *byte == b',').collect())
}

/// Writes what was gathered, where it is much.
pub fn write_much(to: &mut impl Write, out: &mut Vec<u8>) -> io::Result<()> {
    if out.len() > PIECE {
        to.write_all(out)?;
        out.clear();
    }
    Ok(())
}
