//! Damage to tables: one number of the head or of a slot put where its rule may break, on either side of the edge.
//! Also slots invented within the rules, which reach corners that no run visits.

use crate::aim::Aim;
use crate::ballot::{ballot, is_majority, HIGHEST_X, LOWEST_X};
use crate::forge::edge_ballot;
use crate::random::Random;
use crate::table::{
    slot_place, Head, Slot, BEGUN, BOX_COUNT_PLACE, COLLECTING, IDLE, INDEX_PLACE, MOST_BOXES, SAVED_LENGTH,
    SLOT_LENGTH,
};

const PHASE_PLACE: usize = 3;
const LASTS_PLACE: usize = 8;
const ACCEPTS_PLACE: usize = 9;
const FEW_X: u64 = 3;

/// A place of the table and the number that goes there.
pub type Harm = (usize, u64);

pub fn harm_head(random: &mut Random, head: Head) -> Harm {
    let Head { boxes, index } = head;
    let huge = random.number();
    if random.one_in(2) {
        let count = [0, index, index + 1, boxes + 1, MOST_BOXES, MOST_BOXES + 1, 64, 1 << 32 | boxes, u64::MAX, huge];
        (BOX_COUNT_PLACE, random.pick(&count))
    } else {
        (INDEX_PLACE, random.pick(&[0, boxes - 1, boxes, boxes + 1, MOST_BOXES, 1 << 32, u64::MAX, huge]))
    }
}

pub fn harm_slot(random: &mut Random, aim: &Aim) -> Harm {
    let place = random.index(SLOT_LENGTH);
    harm_number(random, aim, place)
}

pub fn harm_saved(random: &mut Random, aim: &Aim) -> Harm {
    let place = random.index(SAVED_LENGTH);
    harm_number(random, aim, place)
}

fn harm_number(random: &mut Random, aim: &Aim, place: usize) -> Harm {
    let number = match place {
        PHASE_PLACE => random.pick(&[IDLE, COLLECTING, BEGUN, BEGUN + 1, 1 << 32 | COLLECTING, u64::MAX]),
        LASTS_PLACE | ACCEPTS_PLACE => harmed_set(random, aim),
        _ => harmed_plain(random, aim, place),
    };
    (slot_place(aim.slot_number as usize) + place, number)
}

fn harmed_set(random: &mut Random, aim: &Aim) -> u64 {
    let limit = 1 << aim.head.boxes;
    let within = random.below(limit);
    let beyond = 1 << (aim.head.boxes + random.below(64 - aim.head.boxes));
    random.pick(&[0, 1, limit - 1, limit, limit | within, within, within, beyond, u64::MAX])
}

fn harmed_plain(random: &mut Random, aim: &Aim, place: usize) -> u64 {
    let slot = &aim.slot;
    let present = slot.numbers()[place];
    let near = random.pick(&[slot.promised, slot.own_ballot, slot.accepted_ballot, slot.best_ballot]);
    let edge = edge_ballot(random, aim, near);
    let flipped = present ^ 1 << random.below(64);
    let next = near.wrapping_add(8);
    random.pick(&[0, 0, 1, near, near, next, edge, edge, flipped, u64::MAX])
}

/// A well kept slot of any phase, with ballots that meet often.
pub fn invented_slot(random: &mut Random, head: Head) -> Slot {
    let mut slot = Slot { promised: some_ballot(random, head), ..Slot::default() };
    if random.one_in(2) {
        slot.accepted_ballot = some_ballot(random, head).min(slot.promised);
        slot.accepted_value = some_value(random);
    }
    match random.pick(&[IDLE, COLLECTING, COLLECTING, BEGUN, BEGUN]) {
        COLLECTING => invent_collecting(random, head, &mut slot),
        BEGUN => invent_begun(random, head, &mut slot),
        _ if random.one_in(2) => slot.agreed = some_value(random),
        _ if random.one_in(4) => slot = Slot { agreed: slot.agreed, ..Slot::default() },
        _ => {}
    }
    slot
}

fn invent_round(random: &mut Random, head: Head, slot: &mut Slot, phase: u64) {
    let x = some_x(random);
    slot.phase = phase;
    slot.own_ballot = ballot(x, head.index);
    slot.own_value = some_value(random);
    slot.promised = slot.promised.max(slot.own_ballot);
}

fn invent_collecting(random: &mut Random, head: Head, slot: &mut Slot) {
    invent_round(random, head, slot, COLLECTING);
    slot.lasts = minority(random, head.boxes);
    if random.one_in(2) {
        slot.best_ballot = some_ballot(random, head).min(slot.own_ballot);
        slot.best_value = some_value(random);
    }
}

fn invent_begun(random: &mut Random, head: Head, slot: &mut Slot) {
    invent_round(random, head, slot, BEGUN);
    slot.accepts = minority(random, head.boxes);
}

/// A set of boxes that is no majority, often as large as it may be.
fn minority(random: &mut Random, boxes: u64) -> u64 {
    let mut set = random.below(1 << boxes) | random.below(1 << boxes);
    while is_majority(set, boxes) {
        set &= !(1 << random.below(boxes));
    }
    set
}

fn some_x(random: &mut Random) -> u64 {
    match random.below(8) {
        0 => HIGHEST_X,
        1 => HIGHEST_X - 1,
        2 => 1 + random.any_size() % HIGHEST_X,
        _ => LOWEST_X + random.below(FEW_X),
    }
}

fn some_ballot(random: &mut Random, head: Head) -> u64 {
    ballot(some_x(random), random.below(head.boxes))
}

fn some_value(random: &mut Random) -> u64 {
    let plain = 1 + random.below(FEW_X);
    let any = random.number().max(1);
    random.pick(&[plain, plain, any, u64::MAX])
}
