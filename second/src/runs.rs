//! `second runs`: the replay input of an honest run.
//! Also the writing of a header and of records, which `edges` shares.

use std::io::{self, Write};

use crate::lines::append_line;
use crate::random::Random;
use crate::run::{Handed, Run};

pub fn write_runs(seed: u64, boxes: u64, records: u64, output: &mut impl Write) -> io::Result<()> {
    let mut random = Random::new(seed);
    let mut run = Run::new(boxes);
    write_header(boxes, output)?;
    for _ in 0..records {
        let handed = run.choose(&mut random);
        write_handed(handed, output)?;
        // A refusal is part of the run: the input shows it to the program that is compared.
        let _ = run.hand(handed, &mut random);
    }
    output.flush()
}

pub fn write_header(boxes: u64, output: &mut impl Write) -> io::Result<()> {
    writeln!(output, "boxes\t{}", boxes)
}

pub fn write_handed(handed: Handed, output: &mut impl Write) -> io::Result<()> {
    let (index, event) = handed;
    let [kind, slot, from, ballot, second, value] = event.numbers();
    let mut text = Vec::new();
    append_line(&[index, kind, slot, from, ballot, second, value], &mut text);
    output.write_all(&text)
}
