//! A probe input in the making: it writes operations and runs a probe along, so that its author knows the state.
//! It stops by itself after the wished count of calls, which are the operations that write a line.

use crate::event::Event;
use crate::lines::{append_line, Record};
use crate::probe::{Probe, ASK_BOARD, MAKE_TABLE, READ_LINE, SET_BYTES, SET_NUMBER, STEP, WRITE_LINE};
use crate::table::{BOX_COUNT_PLACE, HEAD_LENGTH, INDEX_PLACE};

const BYTES_PER_OPERATION: usize = 5;

pub struct Script {
    pub text: Vec<u8>,
    pub probe: Probe,
    pub calls_left: u64,
}

impl Script {
    pub fn new(calls: u64) -> Script {
        Script { text: Vec::new(), probe: Probe::default(), calls_left: calls }
    }

    pub fn add(&mut self, record: Record) {
        if self.calls_left == 0 {
            return;
        }
        append_line(&record, &mut self.text);
        if !self.probe.take(record).is_empty() {
            self.calls_left -= 1;
        }
    }

    /// The probe's table becomes this one; only numbers that are not zero take an operation.
    pub fn make_table(&mut self, table: &[u64]) {
        let head = |place: usize| table.get(place).copied().unwrap_or(0);
        let length = table.len() as u64;
        self.add([MAKE_TABLE, length, head(BOX_COUNT_PLACE), head(INDEX_PLACE), 0, 0, 0]);
        for (place, &number) in table.iter().enumerate().skip(HEAD_LENGTH) {
            if number != 0 {
                self.set_number(place, number);
            }
        }
    }

    pub fn set_number(&mut self, place: usize, number: u64) {
        self.add([SET_NUMBER, place as u64, number, 0, 0, 0, 0]);
    }

    pub fn step(&mut self, event: Event) {
        let [kind, slot, from, ballot, second, value] = event.numbers();
        self.add([STEP, kind, slot, from, ballot, second, value]);
    }

    pub fn ask_board(&mut self, link: u64) {
        self.add([ASK_BOARD, link, 0, 0, 0, 0, 0]);
    }

    /// The bytes stand at the front of the buffer; up to four zeros may follow them.
    pub fn set_bytes(&mut self, bytes: &[u8]) {
        for (count, chunk) in bytes.chunks(BYTES_PER_OPERATION).enumerate() {
            let mut record = [0; 7];
            record[0] = SET_BYTES;
            record[1] = (count * BYTES_PER_OPERATION) as u64;
            for (field, &byte) in record[2..].iter_mut().zip(chunk) {
                *field = u64::from(byte);
            }
            self.add(record);
        }
    }

    pub fn read_line(&mut self, length: u64) {
        self.add([READ_LINE, length, 0, 0, 0, 0, 0]);
    }

    pub fn write_line(&mut self, length: u64) {
        self.add([WRITE_LINE, length, 0, 0, 0, 0, 0]);
    }
}
