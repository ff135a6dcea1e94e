//! Events and messages: six numbers, the fields each kind uses, and what the rules ask of them.
//! `step` refuses an event that breaks these rules with answer 2.

use crate::ballot::{is_ballot, is_zero_or_ballot, maker_of};
use crate::table::SLOTS;

pub const PROPOSE: u64 = 1;
pub const COLLECT: u64 = 2;
pub const LAST: u64 = 3;
pub const BEGIN: u64 = 4;
pub const ACCEPT: u64 = 5;
pub const SUCCESS: u64 = 6;
pub const OLD_ROUND: u64 = 7;
pub const RESTART: u64 = 8;
pub const KINDS: u64 = 8;

/// The fields used by each kind: slot, from, ballot, second, value.
const USED: [[bool; 5]; KINDS as usize] = [
    [true, false, false, false, true],
    [true, true, true, false, false],
    [true, true, true, true, true],
    [true, true, true, false, true],
    [true, true, true, false, false],
    [true, true, false, false, true],
    [true, true, true, true, false],
    [false, false, false, false, false],
];
const BALLOT_FIELD: usize = 2;
const VALUE_FIELD: usize = 4;

#[derive(Clone, Copy, Debug, Default, PartialEq, Eq)]
pub struct Event {
    pub kind: u64,
    pub slot: u64,
    pub from: u64,
    pub ballot: u64,
    pub second: u64,
    pub value: u64,
}

impl Event {
    pub fn of(numbers: [u64; 6]) -> Event {
        let [kind, slot, from, ballot, second, value] = numbers;
        Event { kind, slot, from, ballot, second, value }
    }

    pub fn numbers(&self) -> [u64; 6] {
        [self.kind, self.slot, self.from, self.ballot, self.second, self.value]
    }

    /// Whether the event keeps the section on events, for a box that knows of so many boxes.
    pub fn keeps_rules(&self, boxes: u64) -> bool {
        if !(1..=KINDS).contains(&self.kind) {
            return false;
        }
        let used = &USED[self.kind as usize - 1];
        self.leaves_unused_zero(used) && self.keeps_field_rules(used, boxes) && self.keeps_kind_rules(boxes)
    }

    fn leaves_unused_zero(&self, used: &[bool; 5]) -> bool {
        let fields = [self.slot, self.from, self.ballot, self.second, self.value];
        used.iter().zip(fields).all(|(&used, field)| used || field == 0)
    }

    /// An unused slot or from is zero and so passes its check by itself. The value of a Last has a rule of its own.
    fn keeps_field_rules(&self, used: &[bool; 5], boxes: u64) -> bool {
        self.slot < SLOTS as u64
            && self.from < boxes
            && (!used[BALLOT_FIELD] || is_ballot(self.ballot, boxes))
            && (!used[VALUE_FIELD] || self.kind == LAST || self.value != 0)
    }

    fn keeps_kind_rules(&self, boxes: u64) -> bool {
        match self.kind {
            COLLECT | BEGIN => maker_of(self.ballot) == self.from,
            LAST => {
                is_zero_or_ballot(self.second, boxes)
                    && self.second <= self.ballot
                    && (self.value == 0) == (self.second == 0)
            }
            OLD_ROUND => is_ballot(self.second, boxes) && self.second > self.ballot,
            _ => true,
        }
    }
}

/// The destination that stands for all boxes, the sender included.
pub const ALL_BOXES: u64 = 7;

#[derive(Clone, Copy, Debug, PartialEq, Eq)]
pub struct Message {
    pub to: u64,
    pub event: Event,
}

impl Message {
    /// No message is seven zeros.
    pub const NONE: Message =
        Message { to: 0, event: Event { kind: 0, slot: 0, from: 0, ballot: 0, second: 0, value: 0 } };

    pub fn numbers(&self) -> [u64; 7] {
        let [kind, slot, from, ballot, second, value] = self.event.numbers();
        [self.to, kind, slot, from, ballot, second, value]
    }
}
