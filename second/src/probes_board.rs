//! Scenes of the probe for the board: prefixes of commands that claim, update and contest links.
//! Gaps in the prefix, damaged heads and tables of a wrong length come in between.

use crate::board::{Command, HIGHEST_LINK};
use crate::harm::harm_head;
use crate::probes_step::some_head;
use crate::random::Random;
use crate::run::sensible_command;
use crate::script::Script;
use crate::table::{fresh_table, slot_place, AGREED_PLACE, SLOTS};

const LONG_PREFIX_ONE_IN: u64 = 8;
const SHORT_PREFIX: u64 = 14;
const GAPS_ONE_IN: u64 = 3;
const GAP_ONE_IN: u64 = 10;
const QUESTION_ONE_IN: u64 = 2;
const NOISE_ONE_IN: u64 = 10;
const LINKS: u64 = 3;

pub fn board_scene(random: &mut Random, script: &mut Script) {
    let head = some_head(random);
    script.make_table(&fresh_table(head));
    let has_gaps = random.one_in(GAPS_ONE_IN);
    for slot in 0..prefix_length(random) {
        add_noise(random, script, slot);
        if !(has_gaps && random.one_in(GAP_ONE_IN)) {
            add_agreed(random, script, slot);
        }
        if random.one_in(QUESTION_ONE_IN) {
            ask(random, script);
        }
    }
    ask_every_link(script);
    ask(random, script);
    let (place, number) = harm_head(random, head);
    script.set_number(place, number);
    ask(random, script);
    ask_wrong_length(random, script);
}

fn prefix_length(random: &mut Random) -> usize {
    if random.one_in(LONG_PREFIX_ONE_IN) {
        SLOTS
    } else {
        random.below(SHORT_PREFIX) as usize
    }
}

/// The slot's other numbers may be anything: the board must not look at them.
fn add_noise(random: &mut Random, script: &mut Script, slot: usize) {
    if random.one_in(NOISE_ONE_IN) {
        let noise = random.any_size();
        script.set_number(slot_place(slot) + random.index(AGREED_PLACE), noise);
    }
}

fn add_agreed(random: &mut Random, script: &mut Script, slot: usize) {
    let value = command(random, &script.probe.table);
    script.set_number(slot_place(slot) + AGREED_PLACE, value);
}

fn command(random: &mut Random, table: &[u64]) -> u64 {
    let mut command = Command::of(sensible_command(random, table));
    match random.below(12) {
        0 => command.author = 0,
        1 => command.author = 65_535,
        2 => command.author = random.below(3),
        3 => command.link = random.pick(&[0, HIGHEST_LINK]),
        4 => command.ticket = 0,
        5 => command.revision = random.pick(&[0, 1, 2, 254, 255]),
        6 => return random.number().max(1),
        7 | 8 => command.link %= LINKS,
        _ => {}
    }
    command.value().max(1)
}

fn ask(random: &mut Random, script: &mut Script) {
    let low = random.below(8);
    let huge = random.number();
    let choices = [low, low, low, low, HIGHEST_LINK, HIGHEST_LINK + 1, 257, 1 << 32, u64::MAX, huge];
    script.ask_board(random.pick(&choices));
}

fn ask_every_link(script: &mut Script) {
    for link in 0..6 {
        script.ask_board(link);
    }
    script.ask_board(HIGHEST_LINK);
}

fn ask_wrong_length(random: &mut Random, script: &mut Script) {
    let head = some_head(random);
    let mut table = fresh_table(head);
    table.resize(random.pick(&[0, 1, 2, 13, 705, 707, 1024]), 0);
    script.make_table(&table);
    let choices = [0, HIGHEST_LINK, HIGHEST_LINK + 1, u64::MAX];
    script.ask_board(random.pick(&choices));
}
