//! The rules' own cases: the whole case K1 byte for byte, then K2 to K13.
//! A case that starts in the middle of a slot sets the saved numbers by hand.

use second::answer::Refusal;
use second::board::{ask, Standing};
use second::event::{Event, Message, ACCEPT, BEGIN, COLLECT, LAST, OLD_ROUND, PROPOSE, SUCCESS};
use second::replay::replay;
use second::step::{step, Answer};
use second::table::{fresh_table, slot_place, Head, AGREED_PLACE, TABLE_LENGTH};

const K1_COMMAND: u64 = 283_673_999_966_215;
const K12_COMMAND: u64 = 565_153_271_644_259;
const PROMISED: usize = 0;

fn table(boxes: u64, index: u64) -> Vec<u64> {
    fresh_table(Head { boxes, index })
}

fn table_with(boxes: u64, index: u64, place: usize, number: u64) -> Vec<u64> {
    let mut table = table(boxes, index);
    table[slot_place(0) + place] = number;
    table
}

/// One event, given as kind, slot, from, ballot, second, value.
fn take(table: &mut [u64], event: [u64; 6]) -> Answer {
    step(table, Event::of(event))
}

fn sent(to: u64, event: [u64; 6]) -> Answer {
    Ok(Message { to, event: Event::of(event) })
}

fn with_tabs(text: &str) -> Vec<u8> {
    text.replace(' ', "\t").into_bytes()
}

#[test]
fn k1_whole_case() {
    let input = with_tabs(
        "boxes 1\n\
         0 1 0 0 0 0 283673999966215\n\
         0 2 0 0 8 0 0\n\
         0 3 0 0 8 0 0\n\
         0 4 0 0 8 0 283673999966215\n\
         0 5 0 0 8 0 0\n\
         0 6 0 0 0 0 283673999966215\n",
    );
    let expected = with_tabs(
        "0 7 2 0 0 8 0 0\n\
         0 0 3 0 0 8 0 0\n\
         0 7 4 0 0 8 0 283673999966215\n\
         0 0 5 0 0 8 0 0\n\
         0 7 6 0 0 0 0 283673999966215\n\
         4 0 0 0 0 0 0 0\n",
    );
    let mut output = Vec::new();
    replay(&input[..], &mut output).unwrap();
    assert_eq!(output, expected);
}

#[test]
fn k2_first_ballot() {
    let mut table = table(3, 2);
    assert_eq!(take(&mut table, [PROPOSE, 0, 0, 0, 0, 5]), sent(7, [COLLECT, 0, 2, 10, 0, 0]));
}

#[test]
fn k3_next_ballot_follows_promised() {
    let mut table = table_with(3, 0, PROMISED, 10);
    assert_eq!(take(&mut table, [PROPOSE, 0, 0, 0, 0, 5]), sent(7, [COLLECT, 0, 0, 16, 0, 0]));
}

#[test]
fn k4_collect_below_promised() {
    let mut table = table_with(3, 0, PROMISED, 16);
    let before = table.clone();
    assert_eq!(take(&mut table, [COLLECT, 0, 2, 10, 0, 0]), sent(2, [OLD_ROUND, 0, 0, 10, 16, 0]));
    assert_eq!(table, before);
}

#[test]
fn k5_collect_at_promised() {
    let mut table = table_with(3, 0, PROMISED, 16);
    assert_eq!(take(&mut table, [COLLECT, 0, 0, 16, 0, 0]), sent(0, [LAST, 0, 0, 16, 0, 0]));
}

#[test]
fn k6_four_boxes_need_three() {
    let mut table = table(4, 0);
    take(&mut table, [PROPOSE, 0, 0, 0, 0, 5]).unwrap();
    assert_eq!(take(&mut table, [LAST, 0, 0, 8, 0, 0]), Ok(Message::NONE));
    assert_eq!(take(&mut table, [LAST, 0, 1, 8, 0, 0]), Ok(Message::NONE));
    assert_eq!(take(&mut table, [LAST, 0, 2, 8, 0, 0]), sent(7, [BEGIN, 0, 0, 8, 0, 5]));
}

#[test]
fn k7_begin_carries_best_value() {
    let mut table = table_with(3, 0, PROMISED, 10);
    take(&mut table, [PROPOSE, 0, 0, 0, 0, 5]).unwrap();
    take(&mut table, [LAST, 0, 0, 16, 0, 0]).unwrap();
    assert_eq!(take(&mut table, [LAST, 0, 2, 16, 10, 9]), sent(7, [BEGIN, 0, 0, 16, 0, 9]));
}

#[test]
fn k8_no_ballot_left() {
    let mut table = table_with(7, 6, PROMISED, 34_359_738_366);
    assert_eq!(take(&mut table, [PROPOSE, 0, 0, 0, 0, 5]), Err(Refusal::NoBallotLeft));
}

#[test]
fn k9_success_with_another_value() {
    let mut table = table_with(3, 0, AGREED_PLACE, 11);
    let before = table.clone();
    assert_eq!(take(&mut table, [SUCCESS, 0, 1, 0, 0, 9]), Err(Refusal::OtherValue));
    assert_eq!(table, before);
}

#[test]
fn k10_table_too_short() {
    let mut table = table(3, 0);
    table.truncate(TABLE_LENGTH - 1);
    assert_eq!(take(&mut table, [PROPOSE, 0, 0, 0, 0, 5]), Err(Refusal::Table));
    assert_eq!(ask(&table, 0), Err(Refusal::Table));
}

#[test]
fn k11_last_slot() {
    let mut table = table(3, 0);
    assert!(take(&mut table, [PROPOSE, 63, 0, 0, 0, 5]).is_ok());
    assert_eq!(take(&mut table, [PROPOSE, 64, 0, 0, 0, 5]), Err(Refusal::Request));
}

#[test]
fn k12_owner_keeps_its_link() {
    let mut table = table(1, 0);
    table[slot_place(0) + AGREED_PLACE] = K1_COMMAND;
    table[slot_place(1) + AGREED_PLACE] = K12_COMMAND;
    assert_eq!(ask(&table, 2), Ok(Standing { owner: 1, revision: 1, ticket: 7 }));
    assert_eq!(ask(&table, 256), Err(Refusal::Request));
}

#[test]
fn k13_gap_hides_what_follows() {
    let mut table = table(1, 0);
    table[slot_place(1) + AGREED_PLACE] = K1_COMMAND;
    for link in 0..256 {
        assert_eq!(ask(&table, link), Ok(Standing::default()));
    }
}

#[test]
fn repeated_accept_counts_once() {
    let mut table = table(3, 0);
    take(&mut table, [PROPOSE, 0, 0, 0, 0, 5]).unwrap();
    take(&mut table, [LAST, 0, 0, 8, 0, 0]).unwrap();
    take(&mut table, [LAST, 0, 1, 8, 0, 0]).unwrap();
    assert_eq!(take(&mut table, [ACCEPT, 0, 1, 8, 0, 0]), Ok(Message::NONE));
    assert_eq!(take(&mut table, [ACCEPT, 0, 1, 8, 0, 0]), Err(Refusal::NotFor));
    assert_eq!(take(&mut table, [ACCEPT, 0, 2, 8, 0, 0]), sent(7, [SUCCESS, 0, 0, 0, 0, 5]));
}
