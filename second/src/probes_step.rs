//! Scenes of the probe for the step: tables from runs or invented, damaged or not, with events that fit or not.
//! A damage is undone after its call, so that one table serves many.

use crate::aim::{aim_at, busy_slot, some_slot};
use crate::edges;
use crate::event::{Event, RESTART};
use crate::forge::{damaged, fitting};
use crate::harm::{harm_head, harm_saved, harm_slot, invented_slot, Harm};
use crate::random::Random;
use crate::run::Run;
use crate::script::Script;
use crate::table::{fresh_table, slot_numbers_mut, Head};

const LONGEST_RUN: u64 = 160;
const MOST_INVENTED: u64 = 4;
const FEWEST_CALLS: u64 = 6;
const MORE_CALLS: u64 = 14;
const WRONG_LENGTH_ONE_IN: u64 = 16;
const HARMED_ONE_IN: u64 = 3;
const MANY_HARMS_ONE_IN: u64 = 6;
const DAMAGED_EVENT_ONE_IN: u64 = 4;
const WRONG_LENGTHS: [usize; 9] = [0, 1, 2, 3, 13, 705, 707, 708, 1024];

pub fn step_scene(random: &mut Random, script: &mut Script) {
    let head = some_head(random);
    let mut table = some_table(random, head);
    if random.one_in(WRONG_LENGTH_ONE_IN) {
        table.resize(random.pick(&WRONG_LENGTHS), 0);
    }
    script.make_table(&table);
    let mut slot_number = busy_slot(random, &table);
    for _ in 0..FEWEST_CALLS + random.below(MORE_CALLS) {
        if random.one_in(4) {
            slot_number = busy_slot(random, &script.probe.table);
        }
        if random.one_in(HARMED_ONE_IN) {
            harmed_call(random, script, head, slot_number);
        } else {
            call(random, script, head, slot_number);
        }
    }
}

/// A Restart on saved numbers that may be damaged, in any slot.
pub fn restart_scene(random: &mut Random, script: &mut Script) {
    let head = some_head(random);
    script.make_table(&some_table(random, head));
    for _ in 0..FEWEST_CALLS {
        let slot_number = some_slot(random) as u64;
        let aim = aim_at(&script.probe.table, head, slot_number);
        let harm = if random.one_in(4) { harm_slot(random, &aim) } else { harm_saved(random, &aim) };
        let undo = apply(script, harm);
        script.step(Event { kind: RESTART, ..Event::default() });
        apply(script, undo);
    }
}

pub fn some_head(random: &mut Random) -> Head {
    let boxes = 1 + random.below(7);
    Head { boxes, index: random.below(boxes) }
}

/// A well kept table: fresh, out of an honest or a forged run, or invented.
fn some_table(random: &mut Random, head: Head) -> Vec<u64> {
    match random.below(8) {
        0 => fresh_table(head),
        1 | 2 => table_of_run(random, head, |run, random| run.choose(random)),
        3 | 4 => table_of_run(random, head, edges::choose),
        _ => invented_table(random, head),
    }
}

type Chooser = fn(&mut Run, &mut Random) -> (u64, Event);

fn table_of_run(random: &mut Random, head: Head, choose: Chooser) -> Vec<u64> {
    let mut run = Run::new(head.boxes);
    for _ in 0..random.below(LONGEST_RUN) {
        let handed = choose(&mut run, random);
        if handed.0 < head.boxes {
            // Only the state that the run reaches matters here.
            let _ = run.hand(handed, random);
        }
    }
    run.tables.swap_remove(head.index as usize)
}

fn invented_table(random: &mut Random, head: Head) -> Vec<u64> {
    let mut table = fresh_table(head);
    for _ in 0..1 + random.below(MOST_INVENTED) {
        let slot_number = some_slot(random);
        let slot = invented_slot(random, head);
        slot_numbers_mut(&mut table, slot_number).copy_from_slice(&slot.numbers());
    }
    table
}

fn call(random: &mut Random, script: &mut Script, head: Head, slot_number: u64) {
    let aim = aim_at(&script.probe.table, head, slot_number);
    let event = fitting(random, &aim);
    let event = if random.one_in(DAMAGED_EVENT_ONE_IN) { damaged(random, &aim, event) } else { event };
    script.step(event);
}

fn harmed_call(random: &mut Random, script: &mut Script, head: Head, slot_number: u64) {
    let harms = if random.one_in(MANY_HARMS_ONE_IN) { 2 + random.below(4) } else { 1 };
    let mut undos = Vec::new();
    for _ in 0..harms {
        let aim = aim_at(&script.probe.table, head, slot_number);
        let harm = if random.one_in(8) { harm_head(random, head) } else { harm_slot(random, &aim) };
        undos.push(apply(script, harm));
    }
    call(random, script, head, slot_number);
    if random.one_in(2) {
        call(random, script, head, slot_number);
    }
    for undo in undos.into_iter().rev() {
        apply(script, undo);
    }
}

/// Puts the number at its place and returns what stood there.
fn apply(script: &mut Script, harm: Harm) -> Harm {
    let (place, number) = harm;
    let before = script.probe.table.get(place).copied().unwrap_or(0);
    script.set_number(place, number);
    (place, before)
}
