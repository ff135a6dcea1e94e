//! Generated probe inputs: exactly the wished calls, every answer and every kind, and every kind both taken and sent.
//! A comparison over inputs that miss one of these would say less than it seems to.

use second::count::count;
use second::event::{KINDS, RESTART};
use second::lines::read_record;
use second::probe::{probe, Probe, STEP};
use second::probes::write_probes;

const CALLS: u64 = 20_000;
const SEEDS: u64 = 3;

fn probes(seed: u64) -> Vec<u8> {
    let mut text = Vec::new();
    write_probes(seed, CALLS, &mut text).unwrap();
    text
}

#[test]
fn probes_have_every_answer_and_kind() {
    for seed in 0..SEEDS {
        let input = probes(seed);
        let mut output = Vec::new();
        probe(&input[..], &mut output).unwrap();
        let counts = count(&input[..], &output[..]).unwrap();
        assert_eq!(counts.calls, CALLS, "seed {}", seed);
        assert!(counts.answers.iter().all(|&times| times > 50), "{:?} of seed {}", counts.answers, seed);
        assert!(counts.kinds.iter().all(|&times| times > 500), "{:?} of seed {}", counts.kinds, seed);
    }
}

#[test]
fn probes_take_and_send_every_kind() {
    let mut taken = [0; KINDS as usize + 1];
    let mut sent = [0; KINDS as usize + 1];
    let mut state = Probe::default();
    for line in probes(1).split_inclusive(|&byte| byte == b'\n') {
        let record = read_record(line).unwrap();
        let numbers = state.take(record);
        if record[0] == STEP && numbers[0] == 0 {
            taken[record[1] as usize] += 1;
            sent[numbers[2] as usize] += 1;
        }
    }
    assert!(taken[1..].iter().all(|&times| times > 100), "{:?}", taken);
    // Nothing sends a Propose or a Restart.
    assert!(sent[2..RESTART as usize].iter().all(|&times| times > 50), "{:?}", sent);
}

#[test]
fn probes_follow_from_the_seed() {
    assert!(probes(7) == probes(7));
    assert!(probes(7) != probes(8));
}
