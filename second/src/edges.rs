//! `second edges`: a replay input with forged events mixed into a run.
//! The run goes on from whatever the forged events have made of its boxes.

use std::io::{self, Write};

use crate::aim::{aim_at, busy_slot};
use crate::event::Event;
use crate::forge::{damaged, fitting, is_near_top};
use crate::random::Random;
use crate::run::{Handed, Run};
use crate::runs::{write_handed, write_header};
use crate::table::{Head, SLOTS};

const HONEST_ONE_IN: u64 = 3;
const DAMAGED_ONE_IN: u64 = 3;
const WRONG_BOX_ONE_IN: u64 = 80;
const LOW_SLOTS: u64 = 6;
/// Ballots near the top mostly stay in the last slots: a slot that has promised one has no rounds left to try.
const TOP_SLOTS: u64 = 8;
const TOP_ANYWHERE_ONE_IN: u64 = 64;

pub fn write_edges(seed: u64, boxes: u64, records: u64, output: &mut impl Write) -> io::Result<()> {
    let mut random = Random::new(seed);
    let mut run = Run::new(boxes);
    write_header(boxes, output)?;
    for _ in 0..records {
        let handed = choose(&mut run, &mut random);
        write_handed(handed, output)?;
        if handed.0 < boxes {
            // Refusals are what an edge is for; the run goes on after them.
            let _ = run.hand(handed, &mut random);
        }
    }
    output.flush()
}

/// The next event of a run with forgers in it; its box may be one that does not exist.
pub fn choose(run: &mut Run, random: &mut Random) -> Handed {
    let (index, event) = if random.one_in(HONEST_ONE_IN) { run.choose(random) } else { forged(run, random) };
    if random.one_in(WRONG_BOX_ONE_IN) {
        let huge = random.number();
        return (random.pick(&[run.boxes, run.boxes + 1, 7, 8, u64::MAX, huge]), event);
    }
    (index, event)
}

fn forged(run: &Run, random: &mut Random) -> Handed {
    let index = random.below(run.boxes);
    let table = &run.tables[index as usize];
    let head = Head { boxes: run.boxes, index };
    let slot_number = if random.one_in(2) { busy_slot(random, table) } else { random.below(LOW_SLOTS) };
    let aim = aim_at(table, head, slot_number);
    let event = fitting(random, &aim);
    let event = if random.one_in(DAMAGED_ONE_IN) { damaged(random, &aim, event) } else { event };
    (index, keep_top_apart(random, event))
}

fn keep_top_apart(random: &mut Random, event: Event) -> Event {
    let first = SLOTS as u64 - TOP_SLOTS;
    if event.slot < first && is_near_top(&event) && !random.one_in(TOP_ANYWHERE_ONE_IN) {
        Event { slot: first + random.below(TOP_SLOTS), ..event }
    } else {
        event
    }
}
