//! The commands of the second program: replay and probe from standard input, generators, and counts of two files.
//! All work is in the library; this file reads arguments and opens streams.

use std::env;
use std::fs::File;
use std::io::{self, BufReader, BufWriter, Write};
use std::process::ExitCode;

use second::count::count;
use second::edges::write_edges;
use second::probe::probe;
use second::probes::write_probes;
use second::replay::replay;
use second::runs::write_runs;
use second::table::MOST_BOXES;

const STREAM_CAPACITY: usize = 1 << 16;
const USAGE: &str = "\
second replay < FILE
second probe < FILE
second runs SEED BOXES RECORDS
second edges SEED BOXES RECORDS
second probes SEED CALLS
second count INPUT OUTPUT";
const WRONG_USE: u8 = 2;

fn main() -> ExitCode {
    let arguments: Vec<String> = env::args().skip(1).collect();
    let arguments: Vec<&str> = arguments.iter().map(String::as_str).collect();
    match run(&arguments) {
        Some(Ok(())) => ExitCode::SUCCESS,
        // Whoever reads the output has seen enough of it.
        Some(Err(error)) if error.kind() == io::ErrorKind::BrokenPipe => ExitCode::SUCCESS,
        Some(Err(error)) => {
            eprintln!("second: {}", error);
            ExitCode::FAILURE
        }
        None => {
            eprintln!("{}", USAGE);
            ExitCode::from(WRONG_USE)
        }
    }
}

/// Does the command, or returns none where the arguments are no command.
fn run(arguments: &[&str]) -> Option<io::Result<()>> {
    let input = || BufReader::with_capacity(STREAM_CAPACITY, io::stdin().lock());
    let mut output = BufWriter::with_capacity(STREAM_CAPACITY, io::stdout().lock());
    match *arguments {
        ["replay"] => Some(replay(input(), output)),
        ["probe"] => Some(probe(input(), output)),
        ["runs", seed, boxes, records] => {
            let (seed, boxes, records) = (number(seed)?, box_count(boxes)?, number(records)?);
            Some(write_runs(seed, boxes, records, &mut output))
        }
        ["edges", seed, boxes, records] => {
            let (seed, boxes, records) = (number(seed)?, box_count(boxes)?, number(records)?);
            Some(write_edges(seed, boxes, records, &mut output))
        }
        ["probes", seed, calls] => Some(write_probes(number(seed)?, number(calls)?, &mut output)),
        ["count", input, made] => Some(count_files(input, made, &mut output)),
        _ => None,
    }
}

fn number(argument: &str) -> Option<u64> {
    argument.parse().ok()
}

fn box_count(argument: &str) -> Option<u64> {
    number(argument).filter(|boxes| (1..=MOST_BOXES).contains(boxes))
}

fn count_files(input: &str, made: &str, output: &mut impl Write) -> io::Result<()> {
    let open = |name| File::open(name).map(BufReader::new);
    count(open(input)?, open(made)?)?.write(output)
}
