//! The step of a box: one event on one table, for any table and any event.
//! Each kind works on a copy of its slot, which goes back to the table only when nothing is refused.

use crate::answer::Refusal;
use crate::ballot::{is_majority, next_ballot, only};
use crate::event::{Event, Message, ACCEPT, ALL_BOXES, BEGIN, COLLECT, LAST, OLD_ROUND, PROPOSE, RESTART, SUCCESS};
use crate::table::{slot_numbers, slot_numbers_mut, Head, Slot, BEGUN, COLLECTING, IDLE, SAVED_LENGTH, SLOTS};

pub type Answer = Result<Message, Refusal>;

pub fn step(table: &mut [u64], event: Event) -> Answer {
    let head = Head::of(table).ok_or(Refusal::Table)?;
    if !event.keeps_rules(head.boxes) {
        return Err(Refusal::Request);
    }
    if event.kind == RESTART {
        return restart(table, head.boxes);
    }
    let numbers = slot_numbers_mut(table, event.slot as usize);
    let mut slot = Slot::read(numbers);
    if !slot.is_well_kept(head) {
        return Err(Refusal::NotWellKept);
    }
    let message = step_slot(&mut slot, head, event)?;
    numbers.copy_from_slice(&slot.numbers());
    Ok(message)
}

fn step_slot(slot: &mut Slot, head: Head, event: Event) -> Answer {
    match event.kind {
        PROPOSE => propose(slot, head, event),
        COLLECT => collect(slot, head, event),
        LAST => last(slot, head, event),
        BEGIN => begin(slot, head, event),
        ACCEPT => accept(slot, head, event),
        SUCCESS => success(slot, event),
        OLD_ROUND => old_round(slot, event),
        _ => Err(Refusal::Request),
    }
}

fn propose(slot: &mut Slot, head: Head, event: Event) -> Answer {
    if slot.agreed != 0 {
        return Err(Refusal::Agreed);
    }
    let ballot = next_ballot(slot.promised, head.index).ok_or(Refusal::NoBallotLeft)?;
    slot.promised = ballot;
    slot.phase = COLLECTING;
    slot.own_ballot = ballot;
    slot.own_value = event.value;
    slot.forget_gathered();
    Ok(to_all(head, Event { kind: COLLECT, slot: event.slot, ballot, ..Event::default() }))
}

/// A ballot equal to the promised one is taken: a box has promised its own round before its Collect comes back.
fn collect(slot: &mut Slot, head: Head, event: Event) -> Answer {
    if event.ballot < slot.promised {
        return Ok(too_old(slot, head, event));
    }
    slot.promised = event.ballot;
    let reply = Event {
        kind: LAST,
        slot: event.slot,
        ballot: event.ballot,
        second: slot.accepted_ballot,
        value: slot.accepted_value,
        ..Event::default()
    };
    Ok(to_sender(head, event, reply))
}

fn last(slot: &mut Slot, head: Head, event: Event) -> Answer {
    let sender = only(event.from);
    if slot.phase != COLLECTING || slot.own_ballot != event.ballot || slot.lasts & sender != 0 {
        return Err(Refusal::NotFor);
    }
    slot.lasts |= sender;
    if event.second > slot.best_ballot {
        slot.best_ballot = event.second;
        slot.best_value = event.value;
    }
    if !is_majority(slot.lasts, head.boxes) {
        return Ok(Message::NONE);
    }
    if slot.best_ballot != 0 {
        slot.own_value = slot.best_value;
    }
    slot.phase = BEGUN;
    slot.forget_gathered();
    let (ballot, value) = (slot.own_ballot, slot.own_value);
    Ok(to_all(head, Event { kind: BEGIN, slot: event.slot, ballot, value, ..Event::default() }))
}

fn begin(slot: &mut Slot, head: Head, event: Event) -> Answer {
    if event.ballot < slot.promised {
        return Ok(too_old(slot, head, event));
    }
    slot.promised = event.ballot;
    slot.accepted_ballot = event.ballot;
    slot.accepted_value = event.value;
    let reply = Event { kind: ACCEPT, slot: event.slot, ballot: event.ballot, ..Event::default() };
    Ok(to_sender(head, event, reply))
}

fn accept(slot: &mut Slot, head: Head, event: Event) -> Answer {
    let sender = only(event.from);
    if slot.phase != BEGUN || slot.own_ballot != event.ballot || slot.accepts & sender != 0 {
        return Err(Refusal::NotFor);
    }
    slot.accepts |= sender;
    if !is_majority(slot.accepts, head.boxes) {
        return Ok(Message::NONE);
    }
    slot.agreed = slot.own_value;
    slot.forget_round();
    Ok(to_all(head, Event { kind: SUCCESS, slot: event.slot, value: slot.agreed, ..Event::default() }))
}

fn success(slot: &mut Slot, event: Event) -> Answer {
    if slot.agreed == event.value {
        return Err(Refusal::NotFor);
    }
    if slot.agreed != 0 {
        return Err(Refusal::OtherValue);
    }
    slot.agreed = event.value;
    slot.forget_round();
    Ok(Message::NONE)
}

fn old_round(slot: &mut Slot, event: Event) -> Answer {
    if slot.phase == IDLE || slot.own_ballot != event.ballot {
        return Err(Refusal::NotFor);
    }
    slot.promised = slot.promised.max(event.second);
    slot.forget_round();
    Ok(Message::NONE)
}

fn restart(table: &mut [u64], boxes: u64) -> Answer {
    let saved = |slot| Slot::read(slot_numbers(table, slot)).saved_is_well_kept(boxes);
    if !(0..SLOTS).all(saved) {
        return Err(Refusal::NotWellKept);
    }
    for slot in 0..SLOTS {
        slot_numbers_mut(table, slot)[SAVED_LENGTH..].fill(0);
    }
    Ok(Message::NONE)
}

/// The OldRound that tells the sender of a low ballot what is promised here.
fn too_old(slot: &Slot, head: Head, event: Event) -> Message {
    let reply =
        Event { kind: OLD_ROUND, slot: event.slot, ballot: event.ballot, second: slot.promised, ..Event::default() };
    to_sender(head, event, reply)
}

fn to_all(head: Head, event: Event) -> Message {
    Message { to: ALL_BOXES, event: Event { from: head.index, ..event } }
}

fn to_sender(head: Head, received: Event, reply: Event) -> Message {
    Message { to: received.from, event: Event { from: head.index, ..reply } }
}
