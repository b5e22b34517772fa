//! "Events, lines and the listing": the program's text.

mod common;

use reference::listing::run;
use std::io::{self, Read};

fn listing(input: &str) -> String {
    let mut output = Vec::new();
    run(input.as_bytes(), &mut output).unwrap();
    String::from_utf8(output).unwrap()
}

const SETUP: &str = "00003c003c012c4731\n";
const SESSION: &str = "00003c003c012c4731\n020203002501000700024f4b\n1100\n\
    1219020007024139\n03\n1400\n";
const ANSWER: &str = "f000\n30020301\nf002\n322501000700024f4b\nf004\n\
    220019020007024139\nf004\n33\nf003\nf000\n";

/// "A session and its edges".
#[test]
fn session_of_01() {
    assert_eq!(listing(SESSION), ANSWER);
}

/// Gives one octet a read, with interruptions.
struct Drip<'a>(&'a [u8], bool);

impl Read for Drip<'_> {
    fn read(&mut self, room: &mut [u8]) -> io::Result<usize> {
        self.1 = !self.1;
        if self.1 {
            return Err(io::ErrorKind::Interrupted.into());
        }
        let count = self.0.len().min(1);
        room[..count].copy_from_slice(&self.0[..count]);
        self.0 = &self.0[count..];
        Ok(count)
    }
}

#[test]
fn session_octet_by_octet() {
    let mut output = Vec::new();
    run(Drip(SESSION.as_bytes(), false), &mut output).unwrap();
    assert_eq!(output, ANSWER.as_bytes());
}

/// "after any other first line, or none at all, `ff07`, and stops."
#[test]
fn other_first_lines() {
    let long = format!("00003c003c012c{}\n04\n", "41".repeat(33));
    let very_long = format!("{}\n04\n", "00".repeat(100_000));
    let endless = "0".repeat(200_000);
    let firsts = [
        "",
        "\n",
        "\n00003c003c012c4731\n",
        "00003c003c012c4731",
        "00003c003c012c473\n04\n",
        "00003C003c012c4731\n04\n",
        "00003c003c012c4731\r\n04\n",
        "00003c003c012c\n04\n",
        "000000003c012c4731\n04\n",
        "04\n04\n",
        &long,
        &very_long,
        &endless,
    ];
    for first in firsts {
        assert_eq!(listing(first), "ff07\n");
    }
}

/// "After a good setup it prints `f000`".
#[test]
fn setup_alone() {
    assert_eq!(listing(SETUP), "f000\n");
    assert_eq!(
        listing(&format!("00ffffffffffff{}\n", "ff".repeat(32))),
        "f000\n"
    );
}

/// "Later, an empty line, an odd count, a foreign character, a longer line or
/// a last line without its line feed is refusal 08."
#[test]
fn refused_lines() {
    let long = format!("{}\n", "0".repeat(4098));
    let odd = format!("{}\n", "0".repeat(4097));
    let longer = format!("{}\n", "12".repeat(300_000));
    let unended = "12".repeat(300_000);
    let lines = [
        "\n",
        "0\n",
        "040\n",
        "0g\n",
        "0A\n",
        " 04\n",
        "04 \n",
        "04\r\n",
        "\u{e9}\n",
        "04",
        "0",
        &long,
        &odd,
        &longer,
        &unended,
        "00003c003c012c4731\n",
    ];
    for line in lines {
        assert_eq!(listing(&format!("{SETUP}{line}")), "f000\nff08\nf000\n");
    }
    for line in lines.iter().filter(|line| line.ends_with('\n')) {
        let input = format!("{SETUP}10050602\n{line}03\n");
        assert_eq!(listing(&input), "f000\n3100\nf004\nff08\nf004\n33\nf003\n");
    }
}

/// 4,096 digits are still an event: here a frame over 1,024 octets.
#[test]
fn longest_line() {
    let input = format!("{SETUP}10050602{}\n", "0".repeat(4088));
    assert_eq!(listing(&input), "f000\n350b\nf000\n");
}

#[test]
fn other_refusals_are_printed() {
    let input = format!("{SETUP}03\n0105060200\n10050600\n");
    assert_eq!(
        listing(&input),
        "f000\nff01\nf000\nff02\nf000\nff08\nf000\n"
    );
}

/// Many lines, so that lines cross the ends of blocks.
#[test]
fn many_lines() {
    let data = "43".repeat(500);
    let frame = format!("a5010007 01f4 {data}").replace(' ', "");
    let event = format!("12{frame}0100\n");
    let answer = format!(
        "250001\n2105060225{}\n3219020007024731\nf004\n",
        &frame[2..]
    );
    let input = format!("{SETUP}10050602\n{}", event.repeat(1000));
    let output = format!("f000\n3100\nf004\n{}", answer.repeat(1000));
    assert!(listing(&input) == output);
}

/// A failing input or output is handed back.
#[test]
fn failures_are_handed_back() {
    struct Broken;
    impl Read for Broken {
        fn read(&mut self, _: &mut [u8]) -> io::Result<usize> {
            Err(io::ErrorKind::Other.into())
        }
    }
    let mut output = Vec::new();
    assert!(run(SETUP.as_bytes().chain(Broken), &mut output).is_err());
    assert_eq!(output, b"f000\n");
    let mut short = [0; 3];
    assert!(run(SETUP.as_bytes(), &mut short[..]).is_err());
}
