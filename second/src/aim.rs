//! What a forger aims at: one slot of one box, with the numbers that stand there.
//! Slots with a running round go first, because most rules only bite there.

use crate::random::Random;
use crate::table::{slot_numbers, slot_place, Head, Slot, IDLE, SLOTS, TABLE_LENGTH};

const ANY_SLOT_ONE_IN: u64 = 8;
const USED_SLOT_ONE_IN: u64 = 3;

#[derive(Clone, Copy)]
pub struct Aim {
    pub head: Head,
    pub slot_number: u64,
    pub slot: Slot,
}

/// Aims at a slot of a table of any length; zeros stand for a slot that the table is too short to have.
pub fn aim_at(table: &[u64], head: Head, slot_number: u64) -> Aim {
    let (place, end) = (slot_place(slot_number as usize), slot_place(slot_number as usize + 1));
    let slot = table.get(place..end).map(Slot::read).unwrap_or_default();
    Aim { head, slot_number, slot }
}

/// Any slot, the first two and the last more often than others.
pub fn some_slot(random: &mut Random) -> usize {
    let any = random.index(SLOTS);
    random.pick(&[0, 1, SLOTS - 1, any])
}

/// A slot with a running round or else one with anything in it, where there is one.
pub fn busy_slot(random: &mut Random, table: &[u64]) -> u64 {
    let any = some_slot(random) as u64;
    if table.len() < TABLE_LENGTH || random.one_in(ANY_SLOT_ONE_IN) {
        return any;
    }
    let running = slots_where(table, |slot| slot.phase != IDLE);
    let used = slots_where(table, |slot| slot != Slot::default());
    let busy = if running.is_empty() || random.one_in(USED_SLOT_ONE_IN) { used } else { running };
    if busy.is_empty() {
        any
    } else {
        random.pick(&busy)
    }
}

fn slots_where(table: &[u64], holds: impl Fn(Slot) -> bool) -> Vec<u64> {
    let slot = |number: &usize| Slot::read(slot_numbers(table, *number));
    (0..SLOTS).filter(|number| holds(slot(number))).map(|number| number as u64).collect()
}
