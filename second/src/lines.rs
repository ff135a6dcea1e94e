//! Lines of text: seven decimal numbers parted by tabs and ended by a newline, read and written.
//! `replay` and `probe` take their records from here and write their answers with `append_line`.

use crate::answer::Refusal;

pub const RECORD_LENGTH: usize = 7;
pub const LONGEST_LINE: usize = RECORD_LENGTH * (MOST_DIGITS + 1);
/// The digits of 2^64-1.
const MOST_DIGITS: usize = 20;

pub type Record = [u64; RECORD_LENGTH];

/// Reads one whole line, its newline included and nothing after it.
pub fn read_record(line: &[u8]) -> Result<Record, Refusal> {
    let mut record = [0; RECORD_LENGTH];
    let mut rest = line;
    for (field, number) in record.iter_mut().enumerate() {
        let (read, after) = read_number(rest).ok_or(Refusal::Line)?;
        let end = if field + 1 < RECORD_LENGTH { b'\t' } else { b'\n' };
        if after.first() != Some(&end) {
            return Err(Refusal::Line);
        }
        *number = read;
        rest = &after[1..];
    }
    if rest.is_empty() {
        Ok(record)
    } else {
        Err(Refusal::Line)
    }
}

/// Reads the digits at the front: the number and what follows it, or none where no number is spelled.
fn read_number(bytes: &[u8]) -> Option<(u64, &[u8])> {
    let digits = bytes.iter().take_while(|byte| byte.is_ascii_digit()).count();
    let has_leading_zero = digits > 1 && bytes[0] == b'0';
    if digits == 0 || has_leading_zero {
        return None;
    }
    let mut number: u64 = 0;
    for digit in &bytes[..digits] {
        number = number.checked_mul(10)?.checked_add(u64::from(digit - b'0'))?;
    }
    Some((number, &bytes[digits..]))
}

/// Writes the record's line to the front of the buffer and returns its length; bytes after it stay.
pub fn write_record(record: &Record, buffer: &mut [u8]) -> Result<usize, Refusal> {
    let mut line = Vec::with_capacity(LONGEST_LINE);
    append_line(record, &mut line);
    let front = buffer.get_mut(..line.len()).ok_or(Refusal::Buffer)?;
    front.copy_from_slice(&line);
    Ok(line.len())
}

/// Adds a line of any count of numbers to the text.
pub fn append_line(numbers: &[u64], text: &mut Vec<u8>) {
    for (field, &number) in numbers.iter().enumerate() {
        if field > 0 {
            text.push(b'\t');
        }
        append_number(number, text);
    }
    text.push(b'\n');
}

fn append_number(number: u64, text: &mut Vec<u8>) {
    let mut digits = [0; MOST_DIGITS];
    let mut first = MOST_DIGITS;
    let mut rest = number;
    loop {
        first -= 1;
        digits[first] = b'0' + (rest % 10) as u8;
        rest /= 10;
        if rest == 0 {
            break;
        }
    }
    text.extend_from_slice(&digits[first..]);
}
