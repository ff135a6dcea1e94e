//! Ballots 8x + i, and majorities of boxes. Both are plain numbers, so every check takes the box count.
//! The event check, the well-kept check and the step rely on these.

pub const LOWEST_X: u64 = 1;
pub const HIGHEST_X: u64 = 4_294_967_295;
const MAKERS: u64 = 8;

pub fn ballot(x: u64, maker: u64) -> u64 {
    MAKERS * x + maker
}

pub fn x_of(ballot: u64) -> u64 {
    ballot / MAKERS
}

pub fn maker_of(ballot: u64) -> u64 {
    ballot % MAKERS
}

pub fn is_ballot(number: u64, boxes: u64) -> bool {
    (LOWEST_X..=HIGHEST_X).contains(&x_of(number)) && maker_of(number) < boxes
}

pub fn is_zero_or_ballot(number: u64, boxes: u64) -> bool {
    number == 0 || is_ballot(number, boxes)
}

/// The ballot a box proposes next. It follows from the promised ballot alone, because that one survives a restart.
pub fn next_ballot(promised: u64, index: u64) -> Option<u64> {
    let x = x_of(promised) + 1;
    if x > HIGHEST_X {
        None
    } else {
        Some(ballot(x, index))
    }
}

/// The set that holds one box alone.
pub fn only(index: u64) -> u64 {
    1 << index
}

pub fn is_majority(set: u64, boxes: u64) -> bool {
    2 * u64::from(set.count_ones()) > boxes
}
