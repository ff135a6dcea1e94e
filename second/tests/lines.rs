//! Lines good and bad: read and written alone, and as the replay program and the probe take them.
//! Spaces in these texts stand for tabs, except where a test says otherwise.

use second::answer::Refusal;
use second::lines::{read_record, write_record, LONGEST_LINE};
use second::probe::probe;
use second::replay::replay;

fn with_tabs(text: &str) -> Vec<u8> {
    text.replace(' ', "\t").into_bytes()
}

fn replayed(input: &[u8]) -> String {
    let mut output = Vec::new();
    replay(input, &mut output).unwrap();
    String::from_utf8(output).unwrap()
}

fn probed(text: &str) -> String {
    let mut output = Vec::new();
    probe(&with_tabs(text)[..], &mut output).unwrap();
    String::from_utf8(output).unwrap().replace('\t', " ")
}

#[test]
fn good_lines_read() {
    assert_eq!(read_record(&with_tabs("0 1 2 3 4 5 6\n")), Ok([0, 1, 2, 3, 4, 5, 6]));
    let longest = with_tabs(&(vec![u64::MAX.to_string(); 7].join(" ") + "\n"));
    assert_eq!(longest.len(), LONGEST_LINE);
    assert_eq!(read_record(&longest), Ok([u64::MAX; 7]));
}

#[test]
fn bad_lines_are_refused() {
    let bad: [&[u8]; 19] = [
        b"",
        b"\n",
        b"0\t1\t2\t3\t4\t5\t6",
        b"0\t1\t2\t3\t4\t5\t6\n\n",
        b"0\t1\t2\t3\t4\t5\t6\n0",
        b"0\t1\t2\t3\t4\t5\t06\n",
        b"00\t1\t2\t3\t4\t5\t6\n",
        b"0\t1\t\t3\t4\t5\t6\n",
        b"0\t1\t2\t3\t4\t5\t\n",
        b"0\t+1\t2\t3\t4\t5\t6\n",
        b"0\t-1\t2\t3\t4\t5\t6\n",
        b"0 1 2 3 4 5 6\n",
        b" 0\t1\t2\t3\t4\t5\t6\n",
        b"0\t1\t2\t3\t4\t5\t6\r\n",
        b"0\t1\t2\t3\t4\t5\n",
        b"0\t1\t2\t3\t4\t5\t6\t7\n",
        b"0\t1\t2\t3\t4\t5\t18446744073709551616\n",
        b"0\t1\t2\t3\t4\t5\t99999999999999999999\n",
        b"0\t1\t2\t3\t4\t5\t\xff\n",
    ];
    for line in bad {
        assert_eq!(read_record(line), Err(Refusal::Line), "{:?}", line);
    }
}

#[test]
fn writing_needs_the_whole_line() {
    let record = [0, 10, 200, u64::MAX, 4, 5, 6];
    let line = with_tabs("0 10 200 18446744073709551615 4 5 6\n");
    let mut buffer = vec![7; line.len() - 1];
    assert_eq!(write_record(&record, &mut buffer), Err(Refusal::Buffer));
    assert_eq!(buffer, vec![7; line.len() - 1]);
    let mut buffer = vec![7; line.len() + 1];
    assert_eq!(write_record(&record, &mut buffer), Ok(line.len()));
    assert_eq!(buffer[..line.len()], line);
    assert_eq!(buffer[line.len()], 7);
}

#[test]
fn replay_needs_its_header() {
    let bad: [&[u8]; 10] = [
        b"",
        b"\n",
        b"boxes\t1",
        b"boxes\t0\n",
        b"boxes\t8\n",
        b"boxes\t01\n",
        b"boxes 1\n",
        b"boxes\t1\r\n",
        b"Boxes\t1\n",
        b"0\t1\t0\t0\t0\t0\t5\n",
    ];
    for input in bad {
        assert_eq!(replayed(input), "8\t1\n", "{:?}", input);
    }
    assert_eq!(replayed(b"boxes\t7\n"), "");
}

#[test]
fn replay_stops_at_a_bad_line() {
    let answer = "0\t7\t2\t0\t0\t8\t0\t0\n";
    let record = "0\t1\t0\t0\t0\t0\t5\n";
    for bad in ["\n", "x\n", "x", "0\t1\t0\t0\t0\t0\t5\r\n", "0\t1\t0\t0\t0\t0\t5\t5\n"] {
        let input = format!("boxes\t1\n{}{}{}", record, bad, record);
        assert_eq!(replayed(input.as_bytes()), format!("{}8\t3\n", answer));
    }
    let unfinished = format!("boxes\t1\n{}{}", record, record.trim_end());
    assert_eq!(replayed(unfinished.as_bytes()), format!("{}8\t3\n", answer));
    let endless = [b"boxes\t1\n".to_vec(), vec![b'1'; 1 << 20]].concat();
    assert_eq!(replayed(&endless), "8\t2\n");
}

#[test]
fn replay_refuses_a_box_that_is_not_there() {
    let input = with_tabs("boxes 2\n2 1 0 0 0 0 5\n18446744073709551615 9 0 0 0 0 0\n1 1 0 0 0 0 5\n");
    assert_eq!(replayed(&input).replace('\t', " "), "2 0 0 0 0 0 0 0\n2 0 0 0 0 0 0 0\n0 7 2 0 1 9 0 0\n");
}

#[test]
fn probe_operations() {
    // A table of two numbers a, b has the digest rotate(rotate(2, 7) xor a, 7) xor b.
    let digest = ((2_u64 << 7 ^ 1) << 7) ^ 5;
    let expected = format!("1 0 0 0 0 0 0 0 {}\n", digest);
    assert_eq!(probed("0 2 1 4 0 0 0\n1 1 5 0 0 0 0\n1 2 9 0 0 0 0\n2 1 0 0 0 0 5\n"), expected);
    assert_eq!(
        probed("0 706 1 0 0 0 0\n1 12 283673999966215 0 0 0 0\n3 2 0 0 0 0 0\n3 256 0 0 0 0 0\n"),
        "0 1 1 7\n2 0 0 0\n"
    );
    assert_eq!(probed("4 0 48 9 49 9 50\n4 5 9 51 9 52 9\n4 10 309 9 54 10 0\n5 14 0 0 0 0 0\n"), "0 0 1 2 3 4 5 6\n");
    assert_eq!(probed("5 0 0 0 0 0 0\n7 0 0 0 0 0 0\n"), "8 0 0 0 0 0 0 0\n2\n");
    assert_eq!(probed("7 0 0 0 0 0 0\n7 0 0 0 0 0 00\n7 0 0 0 0 0 0\n"), "2\n8 2\n");
}

#[test]
fn probe_writes_only_a_line_that_fits() {
    let blank = (0..256).fold(256_u64, |digest, _| digest.rotate_left(7));
    let refused = probed("0 3 1 2 0 0 0\n6 13 0 0 0 0 0\n");
    assert_eq!(refused, format!("9 0 {}\n", blank));
    let written = probed("0 3 1 2 0 0 0\n6 14 0 0 0 0 0\n5 14 0 0 0 0 0\n");
    assert!(written.starts_with("0 14 "));
    assert!(written.ends_with("\n0 1 2 0 0 0 0 0\n"));
}
