//! The replay program: a header, then records handed to the tables of its boxes, one answer line for each.
//! Also how both programs take lines from an input of any bytes and stop at a bad one.

use std::io::{self, BufRead, Read, Write};

use crate::answer::{self, Refusal};
use crate::event::{Event, Message};
use crate::lines::{append_line, read_record, Record, LONGEST_LINE};
use crate::step::{step, Answer};
use crate::table::{fresh_table, Head};

pub const HEADER_WORD: &[u8] = b"boxes\t";
const BAD_LINE: u64 = Refusal::Line as u64;

/// The lines of an input, counted from 1, each held only while it is read.
pub struct Lines<R> {
    input: R,
    line: Vec<u8>,
    pub count: u64,
}

impl<R: BufRead> Lines<R> {
    pub fn new(input: R) -> Lines<R> {
        Lines { input, line: Vec::with_capacity(LONGEST_LINE), count: 0 }
    }

    /// The next line with its newline, or none at the end. A line too long to be a record is cut, and so reads as bad.
    pub fn next_line(&mut self) -> io::Result<Option<&[u8]>> {
        self.line.clear();
        self.input.by_ref().take(LONGEST_LINE as u64).read_until(b'\n', &mut self.line)?;
        self.count += 1;
        Ok(if self.line.is_empty() { None } else { Some(&self.line) })
    }
}

pub fn replay(input: impl BufRead, mut output: impl Write) -> io::Result<()> {
    let mut lines = Lines::new(input);
    let boxes = match lines.next_line()?.and_then(read_header) {
        Some(boxes) => boxes,
        None => return write_bad_line(lines.count, &mut output),
    };
    let mut tables: Vec<Vec<u64>> = (0..boxes).map(|index| fresh_table(Head { boxes, index })).collect();
    let mut text = Vec::new();
    while let Some(line) = lines.next_line()? {
        let record = match read_record(line) {
            Ok(record) => record,
            Err(_) => return write_bad_line(lines.count, &mut output),
        };
        text.clear();
        append_answer(&replay_record(&mut tables, record), &mut text);
        output.write_all(&text)?;
    }
    output.flush()
}

/// The box count of the header line, or none where it is no header.
pub fn read_header(line: &[u8]) -> Option<u64> {
    match line.strip_prefix(HEADER_WORD) {
        Some([digit @ b'1'..=b'7', b'\n']) => Some(u64::from(digit - b'0')),
        _ => None,
    }
}

fn replay_record(tables: &mut [Vec<u64>], record: Record) -> Answer {
    let [index, kind, slot, from, ballot, second, value] = record;
    if index >= tables.len() as u64 {
        return Err(Refusal::Request);
    }
    step(&mut tables[index as usize], Event { kind, slot, from, ballot, second, value })
}

/// The answer and the seven message numbers, which are zeros after a refusal.
pub fn answer_numbers(answer: &Answer) -> [u64; 8] {
    let [to, kind, slot, from, ballot, second, value] = answer.unwrap_or(Message::NONE).numbers();
    [answer::number(answer), to, kind, slot, from, ballot, second, value]
}

fn append_answer(answer: &Answer, text: &mut Vec<u8>) {
    append_line(&answer_numbers(answer), text);
}

pub fn write_bad_line(line_number: u64, output: &mut impl Write) -> io::Result<()> {
    let mut text = Vec::new();
    append_line(&[BAD_LINE, line_number], &mut text);
    output.write_all(&text)?;
    output.flush()
}
