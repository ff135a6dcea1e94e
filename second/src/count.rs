//! `second count`: how often each answer and each kind occurs in an input and the output made from it.
//! Answers are the first numbers of output lines; a kind counts where its event has an output line.

use std::io::{self, BufRead, Write};

use crate::event::KINDS;
use crate::lines::read_record;
use crate::probe::{MAKE_TABLE, SET_BYTES, SET_NUMBER, STEP};
use crate::replay::{Lines, HEADER_WORD};

const ANSWERS: usize = 10;

#[derive(Default)]
pub struct Counts {
    pub answers: [u64; ANSWERS],
    pub kinds: [u64; KINDS as usize],
    pub calls: u64,
}

impl Counts {
    fn add_answer(&mut self, line: &[u8]) {
        let digit = line.first().copied().unwrap_or_default();
        let answer = usize::from(digit.wrapping_sub(b'0'));
        if answer < ANSWERS {
            self.answers[answer] += 1;
        }
        self.calls += 1;
    }

    fn add_kind(&mut self, kind: u64) {
        if (1..=KINDS).contains(&kind) {
            self.kinds[kind as usize - 1] += 1;
        }
    }

    pub fn write(&self, output: &mut impl Write) -> io::Result<()> {
        for (answer, times) in self.answers.iter().enumerate() {
            writeln!(output, "answer {} {}", answer, times)?;
        }
        for (kind, times) in (1..).zip(&self.kinds) {
            writeln!(output, "kind {} {}", kind, times)?;
        }
        writeln!(output, "calls {}", self.calls)?;
        output.flush()
    }
}

pub fn count(input: impl BufRead, output: impl BufRead) -> io::Result<Counts> {
    let mut counts = Counts::default();
    for line in output.split(b'\n') {
        counts.add_answer(&line?);
    }
    count_kinds(&mut counts, input)?;
    Ok(counts)
}

/// The first line tells a replay input from a probe input: only the former has a header.
fn count_kinds(counts: &mut Counts, mut input: impl BufRead) -> io::Result<()> {
    let of_replay = input.fill_buf()?.starts_with(HEADER_WORD);
    let mut lines = Lines::new(input);
    if of_replay {
        lines.next_line()?;
    }
    let mut unpaired = counts.calls;
    while unpaired > 0 {
        match lines.next_line()?.map(|line| asked_by(line, of_replay)) {
            None => break,
            Some(Asked::Nothing) => continue,
            Some(Asked::Step(kind)) => counts.add_kind(kind),
            Some(Asked::Other) => {}
        }
        unpaired -= 1;
    }
    Ok(())
}

/// What an input line asks for: a line of output for an event, for something else, or none.
enum Asked {
    Step(u64),
    Other,
    Nothing,
}

fn asked_by(line: &[u8], of_replay: bool) -> Asked {
    match read_record(line) {
        Ok([_, kind, ..]) if of_replay => Asked::Step(kind),
        Ok([STEP, kind, ..]) => Asked::Step(kind),
        Ok([MAKE_TABLE | SET_NUMBER | SET_BYTES, ..]) => Asked::Nothing,
        _ => Asked::Other,
    }
}
