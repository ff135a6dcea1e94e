//! Honest runs over several seeds: no slot ever shows two agreed values, no call answers 3 or 6, and much is agreed.
//! Also that a generator follows from its seed, and that the written input replays to the run's own answers.

use second::answer::{number, Refusal};
use second::count::count;
use second::edges::write_edges;
use second::random::Random;
use second::replay::replay;
use second::run::Run;
use second::runs::write_runs;
use second::table::{slot_numbers, Slot, AGREED_PLACE, SLOTS};

const SEEDS: u64 = 12;
const RECORDS: u64 = 4000;
const MOST_BOXES: u64 = 7;

/// The one agreed value of each slot seen so far; zero where there is none.
type Agreed = [u64; SLOTS];

fn check_agreement(run: &Run, slot: usize, agreed: &mut Agreed, seed: u64) {
    for table in &run.tables {
        let value = slot_numbers(table, slot)[AGREED_PLACE];
        if value != 0 && agreed[slot] == 0 {
            agreed[slot] = value;
        }
        assert!(value == 0 || value == agreed[slot], "two values in slot {} of seed {}", slot, seed);
    }
}

fn check_run(seed: u64, boxes: u64) -> usize {
    let mut random = Random::new(seed);
    let mut run = Run::new(boxes);
    let mut agreed = [0; SLOTS];
    for _ in 0..RECORDS {
        let handed = run.choose(&mut random);
        let answer = run.hand(handed, &mut random);
        let refused = [Err(Refusal::NotWellKept), Err(Refusal::OtherValue)].contains(&answer);
        assert!(!refused, "answer {} in seed {} with {} boxes", number(&answer), seed, boxes);
        check_agreement(&run, handed.1.slot as usize, &mut agreed, seed);
    }
    agreed.iter().filter(|&&value| value != 0).count()
}

#[test]
fn honest_runs_agree() {
    for boxes in 1..=MOST_BOXES {
        for seed in 0..SEEDS {
            let slots = check_run(seed, boxes);
            assert!(slots >= 20, "only {} slots agreed in seed {} with {} boxes", slots, seed, boxes);
        }
    }
}

#[test]
fn forged_runs_stay_well_kept() {
    for boxes in 1..=MOST_BOXES {
        let mut random = Random::new(boxes);
        let mut run = Run::new(boxes);
        for _ in 0..RECORDS {
            let handed = second::edges::choose(&mut run, &mut random);
            if handed.0 >= boxes {
                continue;
            }
            let answer = run.hand(handed, &mut random);
            assert_ne!(answer, Err(Refusal::NotWellKept), "{:?} of {} boxes", handed, boxes);
        }
        for (index, table) in (0..).zip(&run.tables) {
            let head = second::table::Head { boxes, index };
            assert!((0..SLOTS).all(|slot| Slot::read(slot_numbers(table, slot)).is_well_kept(head)));
        }
    }
}

#[test]
fn inputs_follow_from_the_seed() {
    let written = |seed| {
        let mut text = Vec::new();
        write_runs(seed, 3, 200, &mut text).unwrap();
        write_edges(seed, 3, 200, &mut text).unwrap();
        text
    };
    assert_eq!(written(5), written(5));
    assert_ne!(written(5), written(6));
}

#[test]
fn edges_meet_every_refusal_of_a_replay() {
    let (mut input, mut output) = (Vec::new(), Vec::new());
    write_edges(1, 5, 20_000, &mut input).unwrap();
    replay(&input[..], &mut output).unwrap();
    let counts = count(&input[..], &output[..]).unwrap();
    assert_eq!(counts.calls, 20_000);
    assert!([0, 2, 4, 5, 6, 7].iter().all(|&answer: &usize| counts.answers[answer] > 0));
    assert!(counts.kinds.iter().all(|&times| times > 0));
}
