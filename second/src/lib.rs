//! The second, independent program of Kremulost: the rules written a second time, to be compared with.
//! `step`, `board` and `lines` are the rules; `replay` and `probe` run them; the rest makes inputs for both.

pub mod aim;
pub mod answer;
pub mod ballot;
pub mod board;
pub mod count;
pub mod edges;
pub mod event;
pub mod forge;
pub mod harm;
pub mod lines;
pub mod probe;
pub mod probes;
pub mod probes_board;
pub mod probes_lines;
pub mod probes_step;
pub mod random;
pub mod replay;
pub mod run;
pub mod runs;
pub mod script;
pub mod step;
pub mod table;
