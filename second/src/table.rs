//! The table of a box: where its numbers stand, a slot as named numbers, and when a slot is well kept.
//! Tables are lent by others, so nothing here assumes that the numbers make sense.

use crate::ballot::{is_ballot, is_majority, is_zero_or_ballot, maker_of};

pub const MOST_BOXES: u64 = 7;
pub const SLOTS: usize = 64;
pub const HEAD_LENGTH: usize = 2;
pub const SLOT_LENGTH: usize = 11;
pub const TABLE_LENGTH: usize = HEAD_LENGTH + SLOTS * SLOT_LENGTH;

pub const BOX_COUNT_PLACE: usize = 0;
pub const INDEX_PLACE: usize = 1;
/// Where the agreed value stands within its slot.
pub const AGREED_PLACE: usize = 10;
/// The first numbers of a slot, which a restart keeps.
pub const SAVED_LENGTH: usize = 3;

pub const IDLE: u64 = 0;
pub const COLLECTING: u64 = 1;
pub const BEGUN: u64 = 2;

/// The box count and the box's own index.
#[derive(Clone, Copy, Debug, PartialEq, Eq)]
pub struct Head {
    pub boxes: u64,
    pub index: u64,
}

impl Head {
    /// The head of a table, or none where the answer is 1.
    pub fn of(table: &[u64]) -> Option<Head> {
        if table.len() != TABLE_LENGTH {
            return None;
        }
        let head = Head { boxes: table[BOX_COUNT_PLACE], index: table[INDEX_PLACE] };
        if (1..=MOST_BOXES).contains(&head.boxes) && head.index < head.boxes {
            Some(head)
        } else {
            None
        }
    }
}

pub fn fresh_table(head: Head) -> Vec<u64> {
    let mut table = vec![0; TABLE_LENGTH];
    table[BOX_COUNT_PLACE] = head.boxes;
    table[INDEX_PLACE] = head.index;
    table
}

/// Where the numbers of a slot begin.
pub fn slot_place(slot: usize) -> usize {
    HEAD_LENGTH + SLOT_LENGTH * slot
}

/// The numbers of one slot of a table that is long enough.
pub fn slot_numbers(table: &[u64], slot: usize) -> &[u64] {
    &table[slot_place(slot)..slot_place(slot + 1)]
}

pub fn slot_numbers_mut(table: &mut [u64], slot: usize) -> &mut [u64] {
    &mut table[slot_place(slot)..slot_place(slot + 1)]
}

/// The eleven numbers of a slot, in the order of the table.
#[derive(Clone, Copy, Debug, Default, PartialEq, Eq)]
pub struct Slot {
    pub promised: u64,
    pub accepted_ballot: u64,
    pub accepted_value: u64,
    pub phase: u64,
    pub own_ballot: u64,
    pub own_value: u64,
    pub best_ballot: u64,
    pub best_value: u64,
    pub lasts: u64,
    pub accepts: u64,
    pub agreed: u64,
}

impl Slot {
    pub fn read(numbers: &[u64]) -> Slot {
        Slot {
            promised: numbers[0],
            accepted_ballot: numbers[1],
            accepted_value: numbers[2],
            phase: numbers[3],
            own_ballot: numbers[4],
            own_value: numbers[5],
            best_ballot: numbers[6],
            best_value: numbers[7],
            lasts: numbers[8],
            accepts: numbers[9],
            agreed: numbers[AGREED_PLACE],
        }
    }

    pub fn numbers(&self) -> [u64; SLOT_LENGTH] {
        [
            self.promised,
            self.accepted_ballot,
            self.accepted_value,
            self.phase,
            self.own_ballot,
            self.own_value,
            self.best_ballot,
            self.best_value,
            self.lasts,
            self.accepts,
            self.agreed,
        ]
    }

    /// Numbers 6 to 9 become zero: what one phase of a round has gathered.
    pub fn forget_gathered(&mut self) {
        self.best_ballot = 0;
        self.best_value = 0;
        self.lasts = 0;
        self.accepts = 0;
    }

    /// Numbers 3 to 9 become zero: the whole round.
    pub fn forget_round(&mut self) {
        self.phase = IDLE;
        self.own_ballot = 0;
        self.own_value = 0;
        self.forget_gathered();
    }

    pub fn is_well_kept(&self, head: Head) -> bool {
        self.saved_is_well_kept(head.boxes)
            && self.round_is_in_range(head.boxes)
            && match self.phase {
                IDLE => self.idle_is_well_kept(),
                COLLECTING => self.running_is_well_kept(head) && self.collecting_is_well_kept(head.boxes),
                BEGUN => self.running_is_well_kept(head) && self.begun_is_well_kept(head.boxes),
                _ => false,
            }
    }

    /// The rules of numbers 0 to 2, the only ones a restart looks at.
    pub fn saved_is_well_kept(&self, boxes: u64) -> bool {
        is_zero_or_ballot(self.promised, boxes)
            && is_zero_or_ballot(self.accepted_ballot, boxes)
            && self.accepted_ballot <= self.promised
            && (self.accepted_value == 0) == (self.accepted_ballot == 0)
    }

    fn round_is_in_range(&self, boxes: u64) -> bool {
        is_zero_or_ballot(self.own_ballot, boxes)
            && is_zero_or_ballot(self.best_ballot, boxes)
            && self.lasts >> boxes == 0
            && self.accepts >> boxes == 0
    }

    fn idle_is_well_kept(&self) -> bool {
        self.numbers()[4..AGREED_PLACE].iter().all(|&number| number == 0)
    }

    /// Zero is no ballot and so made by no box, not even by box 0.
    fn running_is_well_kept(&self, head: Head) -> bool {
        is_ballot(self.own_ballot, head.boxes)
            && maker_of(self.own_ballot) == head.index
            && self.own_ballot <= self.promised
            && self.own_value != 0
            && self.agreed == 0
    }

    fn collecting_is_well_kept(&self, boxes: u64) -> bool {
        self.best_ballot <= self.own_ballot
            && (self.best_value == 0) == (self.best_ballot == 0)
            && self.accepts == 0
            && !is_majority(self.lasts, boxes)
    }

    fn begun_is_well_kept(&self, boxes: u64) -> bool {
        self.best_ballot == 0 && self.best_value == 0 && self.lasts == 0 && !is_majority(self.accepts, boxes)
    }
}
