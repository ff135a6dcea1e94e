//! Scenes of the probe for lines: records spelled well, spelled wrong in each way the rules name, and written.
//! A written line is read again, so that each undoes the other.

use crate::lines::{append_line, Record, RECORD_LENGTH};
use crate::probe::BUFFER_LENGTH;
use crate::random::Random;
use crate::script::Script;

const LINES_PER_SCENE: u64 = 3;
const WELL_SPELLED_ONE_IN: u64 = 5;
const LONG_NUMBERS: [&str; 10] = [
    "18446744073709551615",
    "18446744073709551616",
    "18446744073709551617",
    "18446744073709551619",
    "18446744073709551620",
    "18446744073709551625",
    "20000000000000000000",
    "99999999999999999999",
    "100000000000000000000",
    "36893488147419103233",
];
/// Bytes next to the digits, and other bytes a careless reader may let through.
const OTHER_BYTES: [u8; 14] = [b'/', b':', b'+', b'-', b' ', b'\r', 0, 0x0b, 0x0c, b'_', b'.', b'a', 0xb0, 0xff];

pub fn read_scene(random: &mut Random, script: &mut Script) {
    for _ in 0..LINES_PER_SCENE {
        read_line(random, script);
    }
}

fn read_line(random: &mut Random, script: &mut Script) {
    let mut fields = some_fields(random);
    let line = if random.one_in(WELL_SPELLED_ONE_IN) { spell(&fields) } else { misspell(random, &mut fields) };
    script.set_bytes(&line);
    let length = line.len() as u64;
    script.read_line(length);
    match random.below(8) {
        0 => script.read_line(length.saturating_sub(1)),
        1 => script.read_line(length + 1),
        2 => script.read_line(0),
        3 => script.read_line(BUFFER_LENGTH as u64),
        4 => script.read_line(random.below(length + 1)),
        5 => script.read_line(random.number()),
        _ => {}
    }
}

pub fn write_scene(random: &mut Random, script: &mut Script) {
    let record = some_record(random);
    let length = random.pick(&[0, 1, 2, 6, 7, 7, 7, 8, 13, 706]);
    let mut table = vec![0; length];
    for (cell, number) in table.iter_mut().zip(record) {
        *cell = number;
    }
    script.make_table(&table);
    let exact = line_length(&table);
    for _ in 0..4 {
        let wanted = [exact, exact, exact - 1, exact + 1, 0, 1, 255, 256, 257, u64::MAX, random.below(exact)];
        script.write_line(random.pick(&wanted));
        script.read_line(exact);
    }
}

fn line_length(table: &[u64]) -> u64 {
    let mut record = [0; RECORD_LENGTH];
    for (field, &number) in record.iter_mut().zip(table) {
        *field = number;
    }
    let mut line = Vec::new();
    append_line(&record, &mut line);
    line.len() as u64
}

fn some_record(random: &mut Random) -> Record {
    let long = random.one_in(8);
    let mut record = [u64::MAX; RECORD_LENGTH];
    if !long {
        record.fill_with(|| some_number(random));
    }
    record
}

fn some_number(random: &mut Random) -> u64 {
    let power = 10_u64.pow(random.below(20) as u32);
    let any = random.any_size();
    random.pick(&[0, 1, 9, power, power - 1, power + 1, any, any, u64::MAX, u64::MAX - 1])
}

fn some_fields(random: &mut Random) -> Vec<Vec<u8>> {
    some_record(random).iter().map(|number| number.to_string().into_bytes()).collect()
}

fn spell(fields: &[Vec<u8>]) -> Vec<u8> {
    let mut line = fields.join(&b'\t');
    line.push(b'\n');
    line
}

/// One fault in the fields or in the bytes between and after them.
fn misspell(random: &mut Random, fields: &mut Vec<Vec<u8>>) -> Vec<u8> {
    if random.one_in(2) {
        harm_fields(random, fields);
        spell(fields)
    } else {
        let mut line = spell(fields);
        harm_bytes(random, &mut line);
        line
    }
}

fn harm_fields(random: &mut Random, fields: &mut Vec<Vec<u8>>) {
    let place = random.index(RECORD_LENGTH);
    let field = &mut fields[place];
    match random.below(10) {
        0 => field.insert(0, b'0'),
        1 => field.clear(),
        2 => field.insert(0, random.pick(b"+-")),
        3 => field.insert(0, b' '),
        4 => field.push(b' '),
        5 | 6 => *field = random.pick(&LONG_NUMBERS).as_bytes().to_vec(),
        7 => field.extend(random.pick(&["0", "00", "000000000000000000000"]).bytes()),
        8 => drop(fields.remove(place)),
        _ => fields.insert(place, b"0".to_vec()),
    }
}

fn harm_bytes(random: &mut Random, line: &mut Vec<u8>) {
    let place = random.index(line.len());
    let end = line.len() - 1;
    match random.below(13) {
        0 => line.clear(),
        1 => line.truncate(end),
        2 => line.push(b'\n'),
        3 => line.insert(end, b'\r'),
        4 => line[end] = b'\r',
        5 => line.insert(end, b'\t'),
        6 => line.insert(0, random.pick(b"\t\n ")),
        7 => line[place] = random.pick(&OTHER_BYTES),
        8 => line[place] = random.number() as u8,
        9 => line.insert(place, random.pick(b"\t\n 0")),
        10 => line.push(random.pick(&OTHER_BYTES)),
        11 => line.extend_from_within(..),
        _ => line[place] ^= 1 << random.below(8),
    }
}
