//! Forged events: ones that fit the present state of a slot, and the same with one field put to an edge of its rule.
//! `edges` mixes them into a run and `probes` tries them on tables of every sort.

use crate::aim::Aim;
use crate::ballot::{ballot, maker_of, x_of, HIGHEST_X, LOWEST_X};
use crate::event::{Event, ACCEPT, BEGIN, COLLECT, KINDS, LAST, OLD_ROUND, PROPOSE, RESTART, SUCCESS};
use crate::random::Random;
use crate::table::{Slot, BEGUN, COLLECTING};

const ADVANCE_ONE_IN: u64 = 2;
const RESTART_ONE_IN: u64 = 32;
const TOP_BALLOT_ONE_IN: u64 = 24;
const STRAY_BALLOT_ONE_IN: u64 = 10;
const FEW_VALUES: u64 = 4;

/// An event that keeps the rules and is likely to be taken.
pub fn fitting(random: &mut Random, aim: &Aim) -> Event {
    let kind = fitting_kind(random, &aim.slot);
    of_kind(random, aim, kind)
}

fn fitting_kind(random: &mut Random, slot: &Slot) -> u64 {
    if random.one_in(RESTART_ONE_IN) {
        return RESTART;
    }
    if !random.one_in(ADVANCE_ONE_IN) {
        return PROPOSE + random.below(KINDS - 1);
    }
    match slot.phase {
        COLLECTING => LAST,
        BEGUN => ACCEPT,
        _ if slot.agreed != 0 => SUCCESS,
        _ => PROPOSE,
    }
}

pub fn of_kind(random: &mut Random, aim: &Aim, kind: u64) -> Event {
    let blank = Event { kind, slot: aim.slot_number, from: some_box(random, aim), ..Event::default() };
    match kind {
        PROPOSE => Event { from: 0, value: some_value(random, aim), ..blank },
        COLLECT => about_promised(random, aim, blank),
        BEGIN => Event { value: some_value(random, aim), ..about_promised(random, aim, blank) },
        LAST => last(random, aim, blank),
        ACCEPT => Event { ballot: running_ballot(random, aim), ..blank },
        SUCCESS => Event { value: some_value(random, aim), ..blank },
        OLD_ROUND => {
            let ballot = running_ballot(random, aim);
            Event { ballot, second: ballot_above(random, aim, ballot), ..blank }
        }
        _ => Event { kind, ..Event::default() },
    }
}

fn about_promised(random: &mut Random, aim: &Aim, blank: Event) -> Event {
    let ballot = ballot_near(random, aim, aim.slot.promised);
    Event { from: maker_of(ballot), ballot, ..blank }
}

fn last(random: &mut Random, aim: &Aim, blank: Event) -> Event {
    let ballot = running_ballot(random, aim);
    let second = ballot_at_most(random, aim, ballot);
    let value = if second == 0 { 0 } else { some_value(random, aim) };
    Event { ballot, second, value, ..blank }
}

fn some_box(random: &mut Random, aim: &Aim) -> u64 {
    random.below(aim.head.boxes)
}

/// One of a few values, so that equal ones meet, or one the slot holds already.
fn some_value(random: &mut Random, aim: &Aim) -> u64 {
    let held = random.pick(&[aim.slot.agreed, aim.slot.accepted_value, aim.slot.own_value]);
    if held != 0 && random.one_in(2) {
        held
    } else if random.one_in(4) {
        random.number().max(1)
    } else {
        1 + random.below(FEW_VALUES)
    }
}

fn bounded_ballot(x: u64, maker: u64) -> u64 {
    ballot(x.clamp(LOWEST_X, HIGHEST_X), maker)
}

/// A ballot a little below, at, or a little above the given one; at times one at the top.
fn ballot_near(random: &mut Random, aim: &Aim, centre: u64) -> u64 {
    let maker = some_box(random, aim);
    if random.one_in(TOP_BALLOT_ONE_IN) {
        return ballot(HIGHEST_X - random.below(3), maker);
    }
    let same_maker = maker_of(centre) < aim.head.boxes && random.one_in(3);
    let maker = if same_maker { maker_of(centre) } else { maker };
    let x = (x_of(centre) + random.below(4)).saturating_sub(1);
    bounded_ballot(x, maker)
}

/// The ballot of the box's running round, mostly.
fn running_ballot(random: &mut Random, aim: &Aim) -> u64 {
    if aim.slot.own_ballot == 0 || random.one_in(STRAY_BALLOT_ONE_IN) {
        ballot_near(random, aim, aim.slot.promised)
    } else {
        aim.slot.own_ballot
    }
}

fn ballot_at_most(random: &mut Random, aim: &Aim, limit: u64) -> u64 {
    let low = bounded_ballot(random.below(x_of(limit).max(1)) + 1, some_box(random, aim));
    let near_best = ballot_near(random, aim, aim.slot.best_ballot);
    random.pick(&[0, 0, limit, aim.slot.best_ballot, low, near_best]).min(limit)
}

fn ballot_above(random: &mut Random, aim: &Aim, limit: u64) -> u64 {
    let near = ballot_near(random, aim, limit);
    let wanted = random.pick(&[near, near, aim.slot.promised]);
    if wanted > limit {
        wanted
    } else {
        bounded_ballot(x_of(limit) + 1, some_box(random, aim))
    }
}

/// The event with one field at an edge of its rule, on either side of it.
pub fn damaged(random: &mut Random, aim: &Aim, event: Event) -> Event {
    let mut event = event;
    match random.below(8) {
        0 => event.kind = edge_kind(random),
        1 => event.slot = edge_slot(random),
        2 => event.from = edge_from(random, aim),
        3 => event.ballot = edge_ballot(random, aim, event.ballot),
        4 | 5 => event.second = edge_second(random, aim, &event),
        6 => event.value = random.pick(&[0, 0, 1, u64::MAX, event.ballot]),
        _ => make_edge_round(random, aim, &mut event),
    }
    event
}

fn edge_kind(random: &mut Random) -> u64 {
    let any = PROPOSE + random.below(KINDS);
    let huge = random.number();
    random.pick(&[0, 9, u64::MAX, 1 << 32 | 2, huge, any, any])
}

fn edge_slot(random: &mut Random) -> u64 {
    let huge = random.number();
    random.pick(&[0, 1, 63, 63, 64, 65, 1 << 32, u64::MAX, huge])
}

fn edge_from(random: &mut Random, aim: &Aim) -> u64 {
    let boxes = aim.head.boxes;
    random.pick(&[0, boxes - 1, boxes, boxes + 1, 7, 8, 64, u64::MAX])
}

pub fn edge_ballot(random: &mut Random, aim: &Aim, near: u64) -> u64 {
    let x = random.pick(&[0, LOWEST_X, HIGHEST_X - 1, HIGHEST_X, HIGHEST_X + 1]);
    let boxes = aim.head.boxes;
    let maker = random.pick(&[0, aim.head.index, boxes - 1, boxes, 7]);
    let beside = random.pick(&[near.wrapping_sub(8), near.wrapping_sub(1), near.wrapping_add(1), near.wrapping_add(8)]);
    random.pick(&[ballot(x, maker), ballot(x, maker), beside, 0, u64::MAX])
}

/// At or just beside the ballot, or above it and no ballot.
fn edge_second(random: &mut Random, aim: &Aim, event: &Event) -> u64 {
    let edge = edge_ballot(random, aim, event.ballot);
    let next = event.ballot.wrapping_add(8);
    let made_by_none = ballot(x_of(next), aim.head.boxes);
    let beyond = ballot(HIGHEST_X + 1, aim.head.index);
    random.pick(&[event.ballot, event.ballot, next, edge, edge, 0, made_by_none, beyond])
}

/// Both ballots of an event at the same edge, so that only the edge itself decides; the sender follows the maker.
fn make_edge_round(random: &mut Random, aim: &Aim, event: &mut Event) {
    let edge = edge_ballot(random, aim, event.ballot);
    if event.ballot != 0 {
        event.ballot = edge;
        event.from = random.pick(&[maker_of(edge), maker_of(edge), event.from]);
    }
    if event.second != 0 {
        event.second = random.pick(&[edge, edge, event.second]);
    }
}

pub fn is_near_top(event: &Event) -> bool {
    x_of(event.ballot.max(event.second)) + 8 > HIGHEST_X
}
