//! The numbered answers. Answer 0 is `Ok`; every other answer is a refusal and leaves lent memory as it was.
//! `step`, `board` and `lines` give these; `replay` and `probe` write their numbers.

#[derive(Clone, Copy, Debug, PartialEq, Eq)]
pub enum Refusal {
    /// The table is not 706 long, N is not 1 to 7, or the index is not below N.
    Table = 1,
    /// The event breaks the section on events, or the link is above 255.
    Request = 2,
    /// The slot is not well kept.
    NotWellKept = 3,
    /// The event does not meet its "for" clause, or repeats the agreed value.
    NotFor = 4,
    /// A value is agreed already, so nothing can be proposed.
    Agreed = 5,
    /// Another value is agreed.
    OtherValue = 6,
    /// No x is left for a next ballot.
    NoBallotLeft = 7,
    /// The line is not a record.
    Line = 8,
    /// The buffer is shorter than the line.
    Buffer = 9,
}

/// The answer's number in the rules.
pub fn number<T>(answer: &Result<T, Refusal>) -> u64 {
    match answer {
        Ok(_) => 0,
        Err(refusal) => *refusal as u64,
    }
}
