// SPDX-License-Identifier: Apache-2.0 AND BSD-3-Clause
//! Lines, words and numbers.

/// The longest line, its line feed not counted.
pub const LONGEST_LINE: usize = 4095;

/// A line as it was read, without its line feed.
pub fn without_line_feed(line: &[u8]) -> &[u8] {
    line.strip_suffix(b"\n").unwrap_or(line)
}

/// The words of a line: a comment is cut off first, since it may start inside a word.
pub fn words(line: &[u8]) -> impl Iterator<Item = &[u8]> {
    let end = line.iter().position(|byte| *byte == b'#').unwrap_or(line.len());
    line[..end].split(|byte| matches!(byte, b' ' | b'\t' | b'\r')).filter(|word| !word.is_empty())
}

/// A number of at most `largest`: decimal, or hexadecimal after `0x`.
pub fn number(word: &[u8], largest: u64) -> Option<u64> {
    let (digits, radix) = match word.strip_prefix(b"0x") {
        Some(digits) => (digits, 16),
        None => (word, 10),
    };
    if digits.is_empty() {
        return None;
    }
    let mut value: u64 = 0;
    for digit in digits {
        let digit = (*digit as char).to_digit(radix)?;
        value = value.checked_mul(u64::from(radix))?.checked_add(u64::from(digit))?;
    }
    (value <= largest).then_some(value)
}

#[cfg(test)]
mod tests {
    use super::*;

    fn split(line: &[u8]) -> Vec<&[u8]> {
        words(line).collect()
    }

    #[test]
    fn words_are_separated_by_blanks_and_end_at_a_comment() {
        assert_eq!(split(b" put\t1 \r2\r"), [&b"put"[..], b"1", b"2"]);
        assert_eq!(split(b"he#ad"), [b"he"]);
        assert_eq!(split(b"a\x0bb \xff"), [&b"a\x0bb"[..], b"\xff"]);
        assert!(split(b" # only a comment").is_empty());
    }

    #[test]
    fn numbers() {
        assert_eq!(number(b"007", 7), Some(7));
        assert_eq!(number(b"8", 7), None);
        assert_eq!(number(b"0xfF", 255), Some(255));
        assert_eq!(number(b"18446744073709551615", u64::MAX), Some(u64::MAX));
        for bad in [&b"18446744073709551616"[..], b"0x", b"0X1", b"-1", b"+1", b"-", b"1a", b"0x1g", b""] {
            assert_eq!(number(bad, u64::MAX), None);
        }
    }
}
