//! The probe: single calls of step, board, read and write on a table and a buffer of any contents.
//! Its first fields are the operations below; `probes` writes inputs for it and runs one along to know the state.

use std::io::{self, BufRead, Write};

use crate::answer;
use crate::board;
use crate::event::Event;
use crate::lines::{append_line, read_record, write_record, Record, RECORD_LENGTH};
use crate::replay::{answer_numbers, write_bad_line, Lines};
use crate::step::step;
use crate::table::{BOX_COUNT_PLACE, INDEX_PLACE};

pub const MAKE_TABLE: u64 = 0;
pub const SET_NUMBER: u64 = 1;
pub const STEP: u64 = 2;
pub const ASK_BOARD: u64 = 3;
pub const SET_BYTES: u64 = 4;
pub const READ_LINE: u64 = 5;
pub const WRITE_LINE: u64 = 6;

pub const TABLE_CAPACITY: usize = 1024;
pub const BUFFER_LENGTH: usize = 256;
const UNKNOWN_OPERATION: u64 = 2;
const DIGEST_ROTATION: u32 = 7;

pub struct Probe {
    pub table: Vec<u64>,
    pub buffer: [u8; BUFFER_LENGTH],
}

impl Default for Probe {
    fn default() -> Probe {
        Probe { table: Vec::with_capacity(TABLE_CAPACITY), buffer: [0; BUFFER_LENGTH] }
    }
}

impl Probe {
    /// Does one operation and returns the numbers it writes; none for an operation that writes no line.
    pub fn take(&mut self, record: Record) -> Vec<u64> {
        let [operation, first, second, third, ..] = record;
        match operation {
            MAKE_TABLE => self.make_table(first, second, third),
            SET_NUMBER => self.set_number(first, second),
            STEP => return self.step(record),
            ASK_BOARD => return self.ask_board(first),
            SET_BYTES => self.set_bytes(first, &record[2..]),
            READ_LINE => return self.read_line(first),
            WRITE_LINE => return self.write_line(first),
            _ => return vec![UNKNOWN_OPERATION],
        }
        Vec::new()
    }

    fn make_table(&mut self, length: u64, boxes: u64, index: u64) {
        self.table.clear();
        self.table.resize(length.min(TABLE_CAPACITY as u64) as usize, 0);
        self.set_number(BOX_COUNT_PLACE as u64, boxes);
        self.set_number(INDEX_PLACE as u64, index);
    }

    fn set_number(&mut self, place: u64, value: u64) {
        if place < self.table.len() as u64 {
            self.table[place as usize] = value;
        }
    }

    fn step(&mut self, record: Record) -> Vec<u64> {
        let [_, kind, slot, from, ballot, second, value] = record;
        let answer = step(&mut self.table, Event { kind, slot, from, ballot, second, value });
        let mut numbers = answer_numbers(&answer).to_vec();
        numbers.push(digest(self.table.iter().copied()));
        numbers
    }

    fn ask_board(&self, link: u64) -> Vec<u64> {
        let answer = board::ask(&self.table, link);
        let standing = answer.unwrap_or_default();
        vec![answer::number(&answer), standing.owner, standing.revision, standing.ticket]
    }

    /// Places do not wrap: a byte whose place is past the buffer goes nowhere.
    fn set_bytes(&mut self, place: u64, bytes: &[u64]) {
        let start = place.min(BUFFER_LENGTH as u64) as usize;
        for (cell, byte) in self.buffer[start..].iter_mut().zip(bytes) {
            *cell = *byte as u8;
        }
    }

    fn read_line(&self, length: u64) -> Vec<u64> {
        let answer = read_record(&self.buffer[..buffer_length(length)]);
        let mut numbers = vec![answer::number(&answer)];
        numbers.extend(answer.unwrap_or_default());
        numbers
    }

    fn write_line(&mut self, length: u64) -> Vec<u64> {
        let record = self.front_of_table();
        let answer = write_record(&record, &mut self.buffer[..buffer_length(length)]);
        let bytes = self.buffer.iter().map(|&byte| u64::from(byte));
        vec![answer::number(&answer), answer.unwrap_or(0) as u64, digest(bytes)]
    }

    fn front_of_table(&self) -> Record {
        let mut record = [0; RECORD_LENGTH];
        for (field, number) in record.iter_mut().zip(&self.table) {
            *field = *number;
        }
        record
    }
}

fn buffer_length(length: u64) -> usize {
    length.min(BUFFER_LENGTH as u64) as usize
}

fn digest(numbers: impl ExactSizeIterator<Item = u64>) -> u64 {
    let length = numbers.len() as u64;
    numbers.fold(length, |digest, number| digest.rotate_left(DIGEST_ROTATION) ^ number)
}

pub fn probe(input: impl BufRead, mut output: impl Write) -> io::Result<()> {
    let mut lines = Lines::new(input);
    let mut probe = Probe::default();
    let mut text = Vec::new();
    while let Some(line) = lines.next_line()? {
        let record = match read_record(line) {
            Ok(record) => record,
            Err(_) => return write_bad_line(lines.count, &mut output),
        };
        let numbers = probe.take(record);
        if !numbers.is_empty() {
            text.clear();
            append_line(&numbers, &mut text);
            output.write_all(&text)?;
        }
    }
    output.flush()
}
