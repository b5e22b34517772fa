//! What the tests share: hexadecimal, a small unit, and a feed that checks
//! the promises every call must keep.
#![allow(dead_code)]

use reference::unit::{handle, is_sound, setup, Unit};

pub fn octets(hex: &str) -> Vec<u8> {
    let digits: Vec<u8> = hex.bytes().filter(|b| *b != b' ').collect();
    assert!(digits.len().is_multiple_of(2), "odd: {hex}");
    digits
        .chunks(2)
        .map(|pair| u8::from_str_radix(std::str::from_utf8(pair).unwrap(), 16).unwrap())
        .collect()
}

pub fn hex(octets: &[u8]) -> String {
    octets.iter().map(|octet| format!("{octet:02x}")).collect()
}

/// Start 3, end 2, inactivity 4, name "A9".
pub fn idle() -> Unit {
    let (unit, answer) = setup(&octets("00 0003 0002 0004 4139"));
    assert_eq!(answer, Ok(()));
    unit
}

/// Feeds octets: the lines, or the refusal. Checks that a refusal changes
/// nothing, that octets after the used part stay, and that the unit is sound.
pub fn feed_octets(unit: &mut Unit, event: &[u8]) -> Result<Vec<String>, u8> {
    let mut out = [0xa5; 1100];
    let before = *unit;
    match handle(unit, event, &mut out) {
        Err(refusal) => {
            assert!(*unit == before, "a refusal changed the unit");
            assert!(out.iter().all(|o| *o == 0xa5), "a refusal wrote");
            Err(refusal)
        }
        Ok((count, used)) => {
            assert!(
                out[used..].iter().all(|o| *o == 0xa5),
                "wrote past the used part"
            );
            assert!(is_sound(unit), "unsound after {}", hex(event));
            let lines = cut(&out[..used]);
            assert_eq!(lines.len(), count);
            Ok(lines)
        }
    }
}

pub fn feed(unit: &mut Unit, event: &str) -> Result<Vec<String>, u8> {
    feed_octets(unit, &octets(event))
}

fn cut(mut used: &[u8]) -> Vec<String> {
    let mut lines = Vec::new();
    while !used.is_empty() {
        let length = usize::from(used[0]) << 8 | usize::from(used[1]);
        lines.push(hex(&used[2..2 + length]));
        used = &used[2 + length..];
    }
    lines
}

/// The unit after these events, all of them taken.
pub fn after(events: &[&str]) -> Unit {
    let mut unit = idle();
    for event in events {
        feed(&mut unit, event).unwrap_or_else(|refusal| panic!("{event}: refusal {refusal}"));
    }
    unit
}

/// Feeds an event: these lines (spaces don't count), then this state.
pub fn expect(unit: &mut Unit, event: &str, lines: &[&str], state: u8) {
    let lines: Vec<String> = lines.iter().map(|line| line.replace(' ', "")).collect();
    assert_eq!(feed(unit, event), Ok(lines), "event {event}");
    assert_eq!(unit.state, state, "state after {event}");
}

/// Feeds an event that is refused.
pub fn refuse(unit: &mut Unit, event: &str, refusal: u8) {
    assert_eq!(feed(unit, event), Err(refusal), "event {event}");
}

/// Associated with terms 05 06 02, nobody waiting.
pub fn associated() -> Unit {
    after(&["10 050602"])
}

/// A small generator of numbers for the walks.
pub struct Numbers(pub u64);

impl Numbers {
    pub fn next(&mut self) -> u64 {
        self.0 ^= self.0 << 13;
        self.0 ^= self.0 >> 7;
        self.0 ^= self.0 << 17;
        self.0
    }

    pub fn below(&mut self, bound: usize) -> usize {
        (self.next() >> 11) as usize % bound
    }
}
