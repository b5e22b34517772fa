//! The listing program: hexadecimal events in, hexadecimal lines out, in
//! large blocks and constant memory.

use crate::unit::{self, Unit};
use crate::LENT;
use std::io::{self, Read, Write};

/// "at most 4,096 digits".
const DIGITS: usize = 4096;
const BLOCK: usize = 64 * 1024;
/// More than one event can print: two digits an octet and the line feeds.
const MOST: usize = 4 * LENT;

/// Runs a whole listing. A failure of `input` or `output` is handed back.
pub fn run<R: Read, W: Write>(input: R, output: W) -> io::Result<()> {
    let mut source = Source::new(input);
    let mut session = Session::new(output);
    let mut event = [0; DIGITS / 2];
    loop {
        let line = match source.next() {
            Next::Line(digits) => decode(digits, &mut event),
            Next::TooLong => None,
            Next::Dry => {
                session.printer.flush()?;
                if source.fill()? {
                    continue;
                }
                break;
            }
        };
        if !session.line(line)? {
            return session.printer.flush();
        }
    }
    // "a last line without its line feed", or no first line at all.
    if source.has_part() || session.unit.is_none() {
        session.line(None)?;
    }
    session.printer.flush()
}

/// The unit, once set up, and where its lines are printed.
struct Session<W> {
    unit: Option<Unit>,
    printer: Printer<W>,
    lent: [u8; LENT],
}

impl<W: Write> Session<W> {
    fn new(output: W) -> Self {
        Session {
            unit: None,
            printer: Printer::new(output),
            lent: [0; LENT],
        }
    }

    /// Takes a line's octets, or none where the line itself is refused. Says
    /// whether the listing goes on.
    #[inline]
    fn line(&mut self, event: Option<&[u8]>) -> io::Result<bool> {
        let Some(unit) = self.unit.as_mut() else {
            return self.first(event);
        };
        let answer = match event {
            Some(event) => unit::handle(unit, event, &mut self.lent),
            None => Err(8),
        };
        self.printer.make_room()?;
        match answer {
            // "it prints the output lines, or `ff` and the refusal number as
            // one octet, then `f0` and the state".
            Ok((lines, _)) => self.printer.lines(&self.lent, lines),
            Err(refusal) => self.printer.line(&[0xff, refusal]),
        }
        self.printer.line(&[0xf0, unit.state]);
        Ok(true)
    }

    /// "After a good setup it prints `f000`; after any other first line, or
    /// none at all, `ff07`, and stops."
    fn first(&mut self, event: Option<&[u8]>) -> io::Result<bool> {
        self.printer.make_room()?;
        let (unit, answer) = unit::setup(event.unwrap_or_default());
        match answer {
            Ok(()) => {
                self.unit = Some(unit);
                self.printer.line(&[0xf0, unit.state]);
            }
            Err(refusal) => self.printer.line(&[0xff, refusal]),
        }
        Ok(answer.is_ok())
    }
}

/// What the source holds next.
enum Next<'a> {
    /// A line of at most 4,096 characters, its line feed taken off.
    Line(&'a [u8]),
    /// The end of "a longer line".
    TooLong,
    /// No whole line: more input is wanted.
    Dry,
}

/// Cuts the input into lines inside one block.
struct Source<R> {
    input: R,
    block: Box<[u8]>,
    /// Where the present line begins.
    at: usize,
    /// No line feed between `at` and here.
    searched: usize,
    /// Where the octets that were read end.
    filled: usize,
    /// The present line was longer than 4,096 and its octets are dropped.
    long: bool,
}

impl<R: Read> Source<R> {
    fn new(input: R) -> Self {
        let block = vec![0; BLOCK].into_boxed_slice();
        Source {
            input,
            block,
            at: 0,
            searched: 0,
            filled: 0,
            long: false,
        }
    }

    #[inline]
    fn next(&mut self) -> Next<'_> {
        let Some(ahead) = line_feed(&self.block[self.searched..self.filled]) else {
            self.searched = self.filled;
            if self.filled - self.at > DIGITS {
                self.long = true;
                self.at = self.filled;
            }
            return Next::Dry;
        };
        let (from, to) = (self.at, self.searched + ahead);
        self.at = to + 1;
        self.searched = self.at;
        if std::mem::take(&mut self.long) || to - from > DIGITS {
            return Next::TooLong;
        }
        Next::Line(&self.block[from..to])
    }

    /// Moves the present line to the front and reads behind it. Called when
    /// dry, so that line has at most 4,096 octets. False at the input's end.
    fn fill(&mut self) -> io::Result<bool> {
        self.block.copy_within(self.at..self.filled, 0);
        self.filled -= self.at;
        self.searched -= self.at;
        self.at = 0;
        loop {
            match self.input.read(&mut self.block[self.filled..]) {
                Ok(octets) => {
                    self.filled += octets;
                    return Ok(octets != 0);
                }
                Err(error) if error.kind() == io::ErrorKind::Interrupted => {}
                Err(error) => return Err(error),
            }
        }
    }

    /// Whether a line was begun and not ended.
    fn has_part(&self) -> bool {
        self.long || self.at < self.filled
    }
}

/// The place of the first line feed, eight octets at a time: an octet of
/// `other` is 0 where a line feed stands, and the lowest that is 0 is the
/// first that borrows.
#[inline]
fn line_feed(octets: &[u8]) -> Option<usize> {
    const ONES: u64 = 0x0101_0101_0101_0101;
    let (eights, rest) = octets.as_chunks::<8>();
    for (i, eight) in eights.iter().enumerate() {
        let other = u64::from_le_bytes(*eight) ^ (ONES * b'\n' as u64);
        let found = other.wrapping_sub(ONES) & !other & (ONES << 7);
        if found != 0 {
            return Some(8 * i + found.trailing_zeros() as usize / 8);
        }
    }
    rest.iter()
        .position(|&octet| octet == b'\n')
        .map(|more| 8 * eights.len() + more)
}

/// The value of each lower-case digit; 0xff for a foreign character.
const VALUES: [u8; 256] = {
    let mut values = [0xff; 256];
    let mut value = 0;
    while value < 16 {
        values[b"0123456789abcdef"[value] as usize] = value as u8;
        value += 1;
    }
    values
};

/// The octets of a line. None for "an empty line, an odd count, a foreign
/// character".
#[inline]
fn decode<'a>(digits: &[u8], event: &'a mut [u8; DIGITS / 2]) -> Option<&'a [u8]> {
    if digits.is_empty() || !digits.len().is_multiple_of(2) {
        return None;
    }
    let event = &mut event[..digits.len() / 2];
    let mut seen = 0;
    for (octet, pair) in event.iter_mut().zip(digits.chunks_exact(2)) {
        let (high, low) = (VALUES[usize::from(pair[0])], VALUES[usize::from(pair[1])]);
        seen |= high | low;
        *octet = high << 4 | low & 0x0f;
    }
    (seen < 16).then_some(event)
}

/// The two digits of each octet.
const PAIRS: [[u8; 2]; 256] = {
    let digits = b"0123456789abcdef";
    let mut pairs = [[0; 2]; 256];
    let mut octet = 0;
    while octet < 256 {
        pairs[octet] = [digits[octet >> 4], digits[octet & 15]];
        octet += 1;
    }
    pairs
};

/// Prints "in the same hexadecimal on a line of its own", a block at a time.
struct Printer<W> {
    output: W,
    block: Box<[u8]>,
    used: usize,
}

impl<W: Write> Printer<W> {
    fn new(output: W) -> Self {
        Printer {
            output,
            block: vec![0; BLOCK].into_boxed_slice(),
            used: 0,
        }
    }

    /// Room for all that one event prints.
    #[inline]
    fn make_room(&mut self) -> io::Result<()> {
        if self.block.len() - self.used < MOST {
            self.write_out()?;
        }
        Ok(())
    }

    fn write_out(&mut self) -> io::Result<()> {
        let used = std::mem::take(&mut self.used);
        self.output.write_all(&self.block[..used])
    }

    fn flush(&mut self) -> io::Result<()> {
        if self.used != 0 {
            self.write_out()?;
        }
        self.output.flush()
    }

    /// The lines of a lent buffer, "without length octets".
    #[inline]
    fn lines(&mut self, mut lent: &[u8], count: usize) {
        for _ in 0..count {
            let (length, octets) = lent.split_at(2);
            let length = usize::from(u16::from_be_bytes([length[0], length[1]]));
            let (line, after) = octets.split_at(length);
            self.line(line);
            lent = after;
        }
    }

    #[inline]
    fn line(&mut self, octets: &[u8]) {
        let end = self.used + 2 * octets.len();
        let room = &mut self.block[self.used..=end];
        for (pair, &octet) in room.chunks_exact_mut(2).zip(octets) {
            pair.copy_from_slice(&PAIRS[usize::from(octet)]);
        }
        self.block[end] = b'\n';
        self.used = end + 1;
    }
}
