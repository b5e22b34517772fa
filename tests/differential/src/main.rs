//! Differential test: random events through the proved unit (its static library, the unit as an image of 618 octets), through the proved engine by value
//! (the static library of `by_value`), and through the independent implementation. After each event everything is compared, of all three: the answer, the
//! unit, and the lent buffer to its last octet, refusals included. It counts what was met and fails if a state, kind of line, refusal, reason or fault
//! was not.
//!   differential [EVENTS [AT [SIDE]]]     AT: for a trial of the test itself, the event at which an octet of an image is changed; SIDE: `embed` or `by_value`
use drawn::{frame, Draw};
use reference::unit::{handle, is_sound, setup, Unit};
use std::ops::BitXorAssign;

extern "C" {
    fn stelquorum_setup(image: *mut u8, length: usize, start: u16, end: u16, inactivity: u16, name: *const u8, letters: usize) -> u32;
    fn stelquorum_event(image: *mut u8, length: usize, event: *const u8, octets: usize, out: *mut u8, room: usize) -> u32;
    fn stelquorum_by_value(image: *mut u8, length: usize, event: *const u8, octets: usize, out: *mut u8, room: usize) -> u8;
}

const IMAGE: usize = 618;

/// The image of a unit, as docs say it: name, waiting, kept, state, limits, elapsed, terms, letters, count, octets.
fn image_of(u: &Unit) -> Vec<u8> {
    let mut s = u.name.to_vec();
    for id in u.waiting {
        s.extend(id.to_be_bytes());
    }
    s.extend(u.kept);
    s.push(u.state);
    for n in [u.start, u.end, u.quiet, u.elapsed] {
        s.extend(n.to_be_bytes());
    }
    s.extend([u.class, u.priority, u.rer, u.letters as u8, u.count as u8]);
    s.extend((u.octets as u16).to_be_bytes());
    s
}

/// The unit that an image stands for.
fn unit_of(s: &[u8]) -> Unit {
    let two = |i: usize| u16::from_be_bytes([s[i], s[i + 1]]);
    let mut u = setup(&[0]).0;
    u.name.copy_from_slice(&s[..32]);
    for i in 0..8 {
        u.waiting[i] = two(32 + 2 * i);
    }
    u.kept.copy_from_slice(&s[48..602]);
    u.state = s[602];
    (u.start, u.end, u.quiet, u.elapsed) = (two(603), two(605), two(607), two(609));
    (u.class, u.priority, u.rer) = (s[611], s[612], s[613]);
    (u.letters, u.count, u.octets) = (s[614] as usize, s[615] as usize, two(616) as usize);
    u
}

/// An event that the unit's state is likely to take; now and then any. In a busy session many confirmed transfers wait.
fn event(d: &mut Draw, u: &Unit, busy: bool) -> Vec<u8> {
    const IDS: [u16; 11] = [0, 1, 2, 3, 7, 9, 10, 11, 12, 256, 65535];
    let kinds: &[u8] = match u.state {
        0 => &[1, 2, 2, 4, 0x10, 0x10],
        1 => &[4, 0x11, 0x11, 0x15, 0x16],
        2 => &[4, 0x11, 0x11, 0x11, 0x15],
        3 => &[4, 0x12, 0x12, 0x14, 0x15, 0x16],
        _ if busy => &[2, 2, 2, 2, 2, 2, 2, 2, 1, 0x12],
        _ => &[1, 2, 2, 2, 2, 2, 2, 4, 0x12, 0x12, 0x12, 0x12, 3],
    };
    let kind = if d.chance(if busy { 98 } else { 85 }) { d.of(kinds) } else { d.of(&[1, 2, 3, 4, 0x10, 0x11, 0x12, 0x13, 0x14, 0x15, 0x16, 0x99, 0]) };
    let kind = if kind >= 0x13 && d.chance(70) && u.state == 4 { 0x12 } else { kind };
    let mut ids: Vec<u16> = IDS.to_vec();
    ids.extend(&u.waiting[..u.count.min(8)]);
    let maintained = if u.state == 0 { d.chance(60) } else { d.chance(92) };
    let mut s = vec![kind];
    match kind {
        1 | 2 => {
            s.extend(if d.chance(93) { [2, 3, d.of(&[1, 1, 0, 2])] } else { [2, 4, d.of(&[1, 3])] });
            let c = if d.chance(97) { kind - 1 } else { d.of(&[0, 1, 2, 3, 4]) };
            s.extend(frame(d, maintained, c, &ids));
        }
        0x10 => {
            s.extend([2, 3, if d.chance(96) { d.of(&[1, 1, 2]) } else { d.of(&[0, 3]) }]);
            if d.chance(50) {
                let (m, c) = (d.chance(20), d.of(&[0, 1, 1, 2]));
                s.extend(frame(d, m, c, &ids));
            }
        }
        0x11 => {
            s.push(if d.chance(97) { if u.state == 2 { d.of(&[0, 0, 0, 1]) } else { d.of(&[1, 1, 1, 0]) } } else { 2 });
            if d.chance(if u.state == 1 { 75 } else { 8 }) {
                let c = d.of(&[2, 2, 3, 4, 0]);
                s.extend(frame(d, false, c, &ids));
            }
        }
        0x12 => {
            let c = d.of(&[0, 1, 1, 2, 2, 3, 4]);
            s.extend(frame(d, maintained, c, &ids));
        }
        0x14 => s.push(if d.chance(96) { d.of(&[0, 0, 1]) } else { 2 }),
        _ => (),
    }
    match d.under(200) {
        0 => s.truncate(d.under(s.len() + 1)),
        1 => s.push(d.next() as u8),
        _ => (),
    }
    s
}

#[derive(Default)]
struct Met {
    events: u64,
    refusals: [u64; 10],
    states: [u64; 5],
    lines: std::collections::BTreeMap<u8, u64>,
    reasons: std::collections::BTreeMap<u8, u64>,
    unsound: u64,
    short: u64,
    setups: [u64; 2],
    /// for a trial of the test itself: the event at which an octet of an image is changed, and whether it is the by-value engine's
    damaged: Option<u64>,
    by_value: bool,
}

fn note(met: &mut Met, out: &[u8], count: usize) {
    let mut at = 0;
    for _ in 0..count {
        let n = u16::from_be_bytes([out[at], out[at + 1]]) as usize;
        let line = &out[at + 2..at + 2 + n];
        *met.lines.entry(line[0]).or_default() += 1;
        if line[0] == 0x24 || line[0] == 0x35 {
            *met.reasons.entry(line[1]).or_default() += 1;
        }
        at += 2 + n;
    }
}

/// One event to all three, everything compared. True where it was taken.
fn one(d: &mut Draw, met: &mut Met, u: &mut Unit, image: &mut [u8], ev: &[u8]) -> bool {
    let room = if d.chance(97) { 1024 } else { d.of(&[0, 1, 1023, 1025, 1500]) };
    let filled = d.next() as u8;
    let (mut ours, mut other, mut theirs) = (vec![filled; room], vec![filled; room], vec![filled; room]);
    let mut held = image.to_vec();
    let number = unsafe { stelquorum_by_value(held.as_mut_ptr(), held.len(), ev.as_ptr(), ev.len(), other.as_mut_ptr(), room) };
    let answer = unsafe { stelquorum_event(image.as_mut_ptr(), image.len(), ev.as_ptr(), ev.len(), ours.as_mut_ptr(), room) };
    let expected = match handle(u, ev, &mut theirs) {
        Ok((lines, octets)) => {
            note(met, &theirs, lines);
            (lines as u32) << 16 | octets as u32
        }
        Err(n) => {
            met.refusals[n as usize] += 1;
            0xffff_ff00 + n as u32
        }
    };
    met.events += 1;
    if met.damaged == Some(met.events) {
        (if met.by_value { &mut held[602] } else { &mut image[602] }).bitxor_assign(1);
    }
    met.short += (room < 1024) as u64;
    let next = image_of(u);
    if answer != expected || image != &next[..] || ours != theirs {
        println!("differ at event {}: {ev:02x?}", met.events);
        println!("answer {answer:#x}, expected {expected:#x}; image {}, buffer {}", image == &next[..], ours == theirs);
        std::process::exit(1);
    }
    let refusal = if expected < 0xffff_ff00 { 0 } else { expected as u8 };
    if number != refusal || held != next || other != theirs {
        println!("by value: differ at event {}: {ev:02x?}", met.events);
        println!("answer {number}, expected {refusal}; image {}, buffer {}", held == next, other == theirs);
        std::process::exit(1);
    }
    answer < 0xffff_ff00
}

fn session(d: &mut Draw, met: &mut Met, events: usize) {
    let limits = [d.of(&[1u16, 3, 60, 65535]), d.of(&[1, 2, 60]), d.of(&[1, 4, 300, 300])];
    let limits = if d.chance(95) { limits } else { [limits[0], d.of(&[0, limits[1]]), d.of(&[0, limits[2]])] };
    let letters = if d.chance(95) { d.of(&[1usize, 2, 32]) } else { d.of(&[0, 33]) };
    let name = d.octets(letters);
    let mut line = vec![0u8];
    for n in limits {
        line.extend(n.to_be_bytes());
    }
    line.extend(&name);
    let (mut u, set) = setup(&line);
    let mut image = d.octets(IMAGE);
    let answer = unsafe { stelquorum_setup(image.as_mut_ptr(), IMAGE, limits[0], limits[1], limits[2], name.as_ptr(), name.len()) };
    let expected = if set.is_ok() { 0 } else { 0xffff_ff07 };
    met.setups[set.is_err() as usize] += 1;
    met.refusals[7] += set.is_err() as u64;
    if answer != expected || image != image_of(&u) {
        println!("setup differs: {line:02x?}: {answer:#x}, expected {expected:#x}");
        std::process::exit(1);
    }
    let busy = d.chance(25);
    for _ in 0..events {
        let ev = event(d, &u, busy);
        if d.chance(4) {
            // an image that is damaged: both must say the same of it, and leave it as it was where it is not sound
            let mut bad = image.clone();
            for _ in 0..d.of(&[1, 1, 2]) {
                let at = if d.chance(60) { d.of(&[602, 603, 604, 609, 610, 611, 613, 614, 615, 616, 617, 32, 33, 47, 31, 48, 49]) } else { d.under(IMAGE) };
                bad[at] = d.of(&[0, 1, 2, 3, 4, 5, 8, 9, 255]);
            }
            let mut v = unit_of(&bad);
            met.unsound += !is_sound(&v) as u64;
            one(d, met, &mut v, &mut bad, &ev);
        }
        one(d, met, &mut u, &mut image, &ev);
        met.states[u.state as usize] += 1;
    }
}

fn main() {
    let total: u64 = std::env::args().nth(1).and_then(|s| s.parse().ok()).unwrap_or(1_000_000);
    let damaged = std::env::args().nth(2).and_then(|s| s.parse().ok());
    let by_value = std::env::args().nth(3).is_some_and(|side| side == "by_value");
    let (mut d, mut met) = (Draw(0x9e37_79b9_7f4a_7c15), Met { damaged, by_value, ..Met::default() });
    while met.events < total {
        session(&mut d, &mut met, 400);
    }
    // an image of another length: refusal 6 for setup, 9 for an event, nothing changed
    for n in [0, 1, 617, 619, 1000] {
        let (mut image, mut out) = (vec![7u8; n], vec![9u8; 1024]);
        let a = unsafe { stelquorum_setup(image.as_mut_ptr(), n, 60, 60, 300, b"G1".as_ptr(), 2) };
        let b = unsafe { stelquorum_event(image.as_mut_ptr(), n, [4].as_ptr(), 1, out.as_mut_ptr(), 1024) };
        let c = unsafe { stelquorum_by_value(image.as_mut_ptr(), n, [4].as_ptr(), 1, out.as_mut_ptr(), 1024) };
        assert!((a, b, c) == (0xffff_ff06, 0xffff_ff09, 9) && image == vec![7u8; n] && out == vec![9u8; 1024], "an image of {n} octets");
    }
    println!("{} events; states {:?}; refusals 1 to 9 {:?}; setups taken and refused {:?}", met.events, met.states, &met.refusals[1..], met.setups);
    println!("lines {}", met.lines.iter().map(|(kind, n)| format!("{kind:02x}: {n}")).collect::<Vec<_>>().join(", "));
    println!("reasons {:?}; unsound images {}; buffers under 1,024 octets {}", met.reasons, met.unsound, met.short);
    let mut missing = Vec::new();
    missing.extend((1..10).filter(|&n| met.refusals[n] == 0).map(|n| format!("refusal {n}")));
    missing.extend((0..5).filter(|&n| met.states[n] == 0).map(|n| format!("state {n}")));
    missing.extend((0x20..0x26).chain(0x30..0x36).filter(|n| !met.lines.contains_key(n)).map(|n| format!("line {n:02x}")));
    missing.extend([0, 1, 2, 3, 10, 11, 12, 13, 14, 15, 16].iter().filter(|n| !met.reasons.contains_key(n)).map(|n| format!("reason {n}")));
    for m in &missing {
        println!("never met: {m}");
    }
    println!("{} passed, {} failed", if missing.is_empty() { 1 } else { 0 }, missing.len());
    std::process::exit(!missing.is_empty() as i32);
}
