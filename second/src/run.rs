//! A run: boxes with real tables, and the messages put out so far, each to be lost, repeated or handed over late.
//! `runs` writes what it chooses; `edges` and `probes` start from the states it reaches.

use crate::board::{self, Command, HIGHEST_LINK};
use crate::event::{Event, Message, ALL_BOXES, PROPOSE, RESTART};
use crate::random::Random;
use crate::step::{step, Answer};
use crate::table::{fresh_table, Head, SLOTS};

const RESTART_ONE_IN: u64 = 400;
const PROPOSE_ONE_IN_PER_BOX: u64 = 5;
const OLD_MESSAGE_ONE_IN: u64 = 16;
const REPEAT_ONE_IN: u64 = 10;
const LOSS_ONE_IN: u64 = 40;
const OLD_SLOT_ONE_IN: u64 = 12;
/// How far past its known prefix a box proposes: few slots, so that rounds collide.
const SLOTS_AHEAD: u64 = 2;
const RECENT_PER_BOX: usize = 3;
const IN_FLIGHT_PER_BOX: usize = 24;
const PAST_CAPACITY: usize = 4096;

const AUTHORS: u64 = 4;
const LINKS: u64 = 6;
const REVISIONS: u64 = 5;
const ODD_COMMAND_ONE_IN: u64 = 5;

/// An event and the box it is for.
pub type Handed = (u64, Event);

pub struct Run {
    pub boxes: u64,
    pub tables: Vec<Vec<u64>>,
    in_flight: Vec<Handed>,
    past: Vec<Handed>,
}

impl Run {
    pub fn new(boxes: u64) -> Run {
        let tables = (0..boxes).map(|index| fresh_table(Head { boxes, index })).collect();
        Run { boxes, tables, in_flight: Vec::new(), past: Vec::new() }
    }

    /// Hands an event to a box and keeps the message it puts out.
    pub fn hand(&mut self, handed: Handed, random: &mut Random) -> Answer {
        let (index, event) = handed;
        let answer = step(&mut self.tables[index as usize], event);
        if let Ok(message) = answer {
            self.send(message, random);
        }
        answer
    }

    fn send(&mut self, message: Message, random: &mut Random) {
        if message == Message::NONE {
            return;
        }
        let receivers = if message.to == ALL_BOXES { 0..self.boxes } else { message.to..message.to + 1 };
        for index in receivers {
            self.in_flight.push((index, message.event));
            self.remember((index, message.event), random);
        }
        let room = IN_FLIGHT_PER_BOX * self.boxes as usize;
        let lost = self.in_flight.len().saturating_sub(room);
        self.in_flight.drain(..lost);
    }

    fn remember(&mut self, handed: Handed, random: &mut Random) {
        if self.past.len() < PAST_CAPACITY {
            self.past.push(handed);
        } else {
            let place = random.index(PAST_CAPACITY);
            self.past[place] = handed;
        }
    }

    /// What happens next in an honest run.
    pub fn choose(&mut self, random: &mut Random) -> Handed {
        if random.one_in(RESTART_ONE_IN) {
            return (random.below(self.boxes), Event { kind: RESTART, ..Event::default() });
        }
        if self.in_flight.is_empty() || random.one_in(PROPOSE_ONE_IN_PER_BOX * self.boxes) {
            return self.choose_propose(random);
        }
        if random.one_in(OLD_MESSAGE_ONE_IN) {
            return random.pick(&self.past);
        }
        self.choose_recent(random)
    }

    fn choose_propose(&self, random: &mut Random) -> Handed {
        let index = random.below(self.boxes);
        let table = &self.tables[index as usize];
        let known = board::known_prefix(table).count() as u64;
        let ahead = random.below(known + 1 + SLOTS_AHEAD);
        let wanted = if random.one_in(OLD_SLOT_ONE_IN) { ahead } else { known + random.below(SLOTS_AHEAD + 1) };
        let slot = wanted.min(SLOTS as u64 - 1);
        (index, Event { kind: PROPOSE, slot, value: sensible_command(random, table), ..Event::default() })
    }

    fn choose_recent(&mut self, random: &mut Random) -> Handed {
        let length = self.in_flight.len();
        let recent = length.min(RECENT_PER_BOX * self.boxes as usize);
        let place = length - 1 - random.index(recent);
        let handed = self.in_flight[place];
        if !random.one_in(REPEAT_ONE_IN) {
            self.in_flight.remove(place);
        }
        if random.one_in(LOSS_ONE_IN) && !self.in_flight.is_empty() {
            let lost = random.index(self.in_flight.len());
            self.in_flight.remove(lost);
        }
        handed
    }
}

/// A command that mostly fits the board of the table: a claim of a free link, or its owner's next revision.
pub fn sensible_command(random: &mut Random, table: &[u64]) -> u64 {
    let link = random.below(LINKS).min(HIGHEST_LINK);
    let standing = board::ask(table, link).unwrap_or_default();
    let author = 1 + random.below(AUTHORS);
    let ticket = random.number() & 0xffff_ffff;
    if random.one_in(ODD_COMMAND_ONE_IN) {
        return Command { author, link, revision: random.below(REVISIONS), ticket }.value();
    }
    let author = if standing.owner == 0 { author } else { standing.owner };
    Command { author, link, revision: standing.revision, ticket }.value()
}
