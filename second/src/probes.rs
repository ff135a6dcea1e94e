//! `second probes`: a probe input made of short scenes for step, board and lines, in random order.
//! Each scene sets its own state, so that one of them can be cut out and looked at alone.

use std::io::{self, Write};

use crate::probes_board::board_scene;
use crate::probes_lines::{read_scene, write_scene};
use crate::probes_step::{restart_scene, step_scene};
use crate::random::Random;
use crate::script::Script;

const UNKNOWN_OPERATION_ONE_IN: u64 = 40;
const FIRST_UNKNOWN_OPERATION: u64 = 7;

pub fn write_probes(seed: u64, calls: u64, output: &mut impl Write) -> io::Result<()> {
    let mut random = Random::new(seed);
    let mut script = Script::new(calls);
    while script.calls_left > 0 {
        some_scene(&mut random, &mut script);
        output.write_all(&script.text)?;
        script.text.clear();
    }
    output.flush()
}

fn some_scene(random: &mut Random, script: &mut Script) {
    match random.below(16) {
        0..=8 => step_scene(random, script),
        9 => restart_scene(random, script),
        10 | 11 => board_scene(random, script),
        12..=14 => read_scene(random, script),
        _ => write_scene(random, script),
    }
    if random.one_in(UNKNOWN_OPERATION_ONE_IN) {
        unknown_operation(random, script);
    }
}

fn unknown_operation(random: &mut Random, script: &mut Script) {
    let huge = random.number().max(FIRST_UNKNOWN_OPERATION);
    let operation = random.pick(&[FIRST_UNKNOWN_OPERATION, 8, u64::MAX, 1 << 32 | 2, huge]);
    let mut record = [operation; 7];
    record[1..].fill_with(|| random.any_size());
    script.add(record);
}
