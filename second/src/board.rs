//! The board: who owns a link, at which revision and with which ticket, read from the agreed slots of one table.
//! It reads the head and the agreed values only; whether slots are well kept is not its question.

use crate::answer::Refusal;
use crate::table::{slot_numbers, Head, AGREED_PLACE, SLOTS};

pub const HIGHEST_LINK: u64 = 255;
const HIGHEST_REVISION: u64 = 255;
const FREE: u64 = 0;
const NO_AUTHOR: u64 = 0;

/// What an agreed value says.
#[derive(Clone, Copy, Debug, PartialEq, Eq)]
pub struct Command {
    pub author: u64,
    pub link: u64,
    pub revision: u64,
    pub ticket: u64,
}

impl Command {
    pub fn of(value: u64) -> Command {
        Command {
            author: value >> 48,
            link: value >> 40 & 0xff,
            revision: value >> 32 & 0xff,
            ticket: value & 0xffff_ffff,
        }
    }

    pub fn value(&self) -> u64 {
        self.author << 48 | self.link << 40 | self.revision << 32 | self.ticket
    }
}

/// How a link stands; three zeros when it is free.
#[derive(Clone, Copy, Debug, Default, PartialEq, Eq)]
pub struct Standing {
    pub owner: u64,
    pub revision: u64,
    pub ticket: u64,
}

impl Standing {
    fn apply(&mut self, command: Command) {
        if command.author == NO_AUTHOR {
            return;
        }
        if self.owner == FREE {
            self.claim(command);
        } else {
            self.update(command);
        }
    }

    fn claim(&mut self, command: Command) {
        if command.revision == 0 {
            *self = Standing { owner: command.author, revision: 1, ticket: command.ticket };
        }
    }

    fn update(&mut self, command: Command) {
        let names_present = command.revision == self.revision && self.revision < HIGHEST_REVISION;
        if command.author == self.owner && names_present {
            self.ticket = command.ticket;
            self.revision += 1;
        }
    }
}

/// The agreed values of the known prefix, in slot order.
pub fn known_prefix(table: &[u64]) -> impl Iterator<Item = u64> + '_ {
    (0..SLOTS).map(move |slot| slot_numbers(table, slot)[AGREED_PLACE]).take_while(|&agreed| agreed != 0)
}

pub fn ask(table: &[u64], link: u64) -> Result<Standing, Refusal> {
    Head::of(table).ok_or(Refusal::Table)?;
    if link > HIGHEST_LINK {
        return Err(Refusal::Request);
    }
    let mut standing = Standing::default();
    known_prefix(table)
        .map(Command::of)
        .filter(|command| command.link == link)
        .for_each(|command| standing.apply(command));
    Ok(standing)
}
