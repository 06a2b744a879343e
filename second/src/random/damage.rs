//! Arguments put at borders, lines written in other ways, and lines that are not read.

use super::draft::Draft;
use super::numbers::Numbers;
use crate::limits::{LINE_BYTES, PAIRS};

/// Small numbers at which some argument's range ends.
const BORDERS: [u64; 19] = [0, 1, 2, 3, 5, 6, 7, 8, 12, 13, 16, 17, 31, 32, 63, 64, 65, 128, 256];
/// Counts of bits at which some argument's range or width ends.
const WIDTHS: [u32; 7] = [8, 16, 23, 24, 31, 32, 63];

/// A number at which an argument's range may end.
fn border(numbers: &mut Numbers) -> u64 {
    match numbers.below(5) {
        0..=2 => numbers.pick(&BORDERS),
        3 => 1 << numbers.pick(&WIDTHS),
        _ => u64::MAX,
    }
}

/// Puts one of the numbers, often the pair's, at a border or beside it.
pub fn to_a_border(numbers: &mut Numbers, draft: &mut Draft) {
    if draft.numbers.is_empty() {
        return;
    }
    if numbers.one_in(4) {
        draft.numbers[0] =
            numbers.pick(&[PAIRS as u64 - 1, PAIRS as u64, PAIRS as u64 + 1, 1 << 32, u64::MAX]);
        return;
    }
    let at = numbers.below(draft.numbers.len() as u64) as usize;
    let here = if numbers.one_in(3) { draft.numbers[at] } else { border(numbers) };
    draft.numbers[at] = numbers.near(here);
}

/// The same call with other blanks and leading zeros.
pub fn restyled(numbers: &mut Numbers, draft: &Draft) -> Vec<u8> {
    let blank = |numbers: &mut Numbers| numbers.pick(&[" ", "\t", "  ", " \t "]);
    let mut line = if numbers.one_in(3) { blank(numbers).to_string() } else { String::new() };
    for (index, word) in draft.words().iter().enumerate() {
        if index > 0 {
            line += blank(numbers);
            line += &"0".repeat(numbers.pick(&[0, 0, 1, 2, 25]));
        }
        line += word;
    }
    if numbers.one_in(3) {
        line += blank(numbers);
    }
    line.into_bytes()
}

/// A line that is not read, or that says nothing.
pub fn damaged(numbers: &mut Numbers, draft: &Draft) -> Vec<u8> {
    let mut words = draft.words();
    let last = words.len() - 1;
    match numbers.below(10) {
        0 => drop(words.pop()),
        1 => words.push(numbers.pick(&["0", "1", "x", "#"]).to_string()),
        2 => words[0] = numbers.pick(&["Open", "posts", "-", "0", "\r", "emit2"]).to_string(),
        3 => words[last] += numbers.pick(&["\r", "x", ".0", "-", "\0"]),
        4 | 5 => {
            let junk = ["18446744073709551616", "99999999999999999999", "-1", "+1", "0x1", "a", "1e3"];
            words[last] = numbers.pick(&junk).to_string();
        }
        6 => words = vec![numbers.pick(&["", " ", "\t", "# a remark", "#", "  #x"]).to_string()],
        7 => return hex_line(numbers),
        8 if numbers.one_in(20) => return long_line(numbers, draft),
        _ => {
            return (0..numbers.below(30))
                .map(|_| numbers.bits(8) as u8)
                .filter(|&byte| byte != b'\n')
                .collect()
        }
    }
    words.join(" ").into_bytes()
}

fn hex_line(numbers: &mut Numbers) -> Vec<u8> {
    let lines = ["read", "read 0", "read 0g", "read - -", "read --", "read 00 00", "read 0x00"];
    numbers.pick(&lines).as_bytes().to_vec()
}

/// A call, a comment or blanks, filled up to the longest line or one byte over it.
fn long_line(numbers: &mut Numbers, draft: &Draft) -> Vec<u8> {
    let mut line = match numbers.below(3) {
        0 => b"#".to_vec(),
        1 => Vec::new(),
        _ => draft.line(),
    };
    line.resize(LINE_BYTES + numbers.bits(1) as usize, b' ');
    line
}
