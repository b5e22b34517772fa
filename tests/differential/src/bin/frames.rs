//! Frames through the proved reader and writer (the static library) and through the independent implementation: every frame of up to three octets,
//! random longer ones, valid and damaged, and random messages to write. Compared: the answer, and the lent block or buffer to its last octet.
//! It counts what was met and fails if a fault was not.
use drawn::{frame, Draw};
use reference::frame::{read, write, Header, Parts};
use std::ops::Range;

extern "C" {
    fn stelquorum_read(frame: *const u8, octets: usize, block: *mut u8, room: usize) -> u32;
    fn stelquorum_write(
        flags: u8, confirmation: u8, message_type: u8, identifier: u16, reference: u16, sender: *const u8, letters: usize, data: *const u8,
        octets: usize, out: *mut u8, room: usize,
    ) -> u32;
}

/// What was met, by number: 0 for a frame taken, else the refusal or fault.
#[derive(Default)]
struct Met {
    read: [u64; 17],
    written: [u64; 17],
    extensions: u64,
    /// for a trial of the test itself: the frame at which an octet of our block is changed
    damaged: Option<u64>,
}

fn stop(what: &str, octets: &[u8], ours: u32, theirs: u32) -> ! {
    println!("{what}: {octets:02x?}: {ours:#x}, expected {theirs:#x}");
    std::process::exit(1);
}

fn refusal(n: u8) -> u32 {
    0xffff_ff00 + n as u32
}

/// The block of 26 octets, from where the reference says that the fields lie.
fn block_of(h: &Header, extensions: usize) -> [u8; 26] {
    let mut s = [0; 26];
    s[0] = h.multi_shot as u8;
    s[1] = h.confirmation;
    let mut put = |at: usize, n: usize| s[at..at + 2].copy_from_slice(&(n as u16).to_be_bytes());
    let sized = |at: Option<usize>, n: usize| at.map(|at| at..at + n);
    let fields: [Option<Range<usize>>; 5] =
        [sized(h.message_type, 1), sized(h.identifier, 2), sized(h.reference, 2), h.sender.clone(), h.user_data.clone()];
    for (i, field) in fields.iter().enumerate() {
        if let Some(place) = field {
            put(2 + 4 * i, place.start);
            put(4 + 4 * i, place.len());
        }
    }
    put(22, h.end);
    put(24, extensions);
    s
}

/// One frame to both readers.
fn reads(met: &mut Met, octets: &[u8], room: usize, filled: u8) {
    let (mut ours, mut theirs) = ([filled; 32], [filled; 32]);
    let answer = unsafe { stelquorum_read(octets.as_ptr(), octets.len(), ours.as_mut_ptr(), room) };
    let expected = match read(octets) {
        _ if room < 26 => {
            met.read[6] += 1;
            refusal(6)
        }
        Ok((h, n)) => {
            theirs[..26].copy_from_slice(&block_of(&h, n));
            met.extensions += (n > 0) as u64;
            met.read[0] += 1;
            0
        }
        Err(n) => {
            met.read[n as usize] += 1;
            refusal(n)
        }
    };
    if met.damaged == Some(met.read.iter().sum()) {
        ours[3] ^= 1;
    }
    if answer != expected || ours != theirs {
        stop("read", octets, answer, expected);
    }
}

/// One message to both writers; what they write is read.
fn writes(d: &mut Draw, met: &mut Met) {
    let bits = d.next() as u8 & if d.chance(95) { 0x7d } else { 0xff };
    let confirmation = if d.chance(95) { d.of(&[0, 1, 2, 3, 4]) } else { d.of(&[5, 255]) };
    let bits = match confirmation {
        1 if d.chance(90) => bits | 0x20,
        2..=4 if d.chance(90) => bits | 0x18,
        _ => bits,
    };
    let (letters, octets) = (d.of(&[1usize, 1, 2, 31, 32, 32, 0, 33]), d.of(&[0usize, 1, 2, 255, 256, 511, 512, 513]));
    let (sender, data) = (d.octets(letters), d.octets(octets));
    let (message_type, identifier, reference) = (d.next() as u8, d.next() as u16, d.next() as u16);
    let room = if d.chance(97) { 1024 } else { d.of(&[0, 1, 1023, 1025, 1500]) };
    let filled = d.next() as u8;
    let (mut ours, mut theirs) = (vec![filled; room], vec![filled; room]);
    let answer = unsafe {
        stelquorum_write(
            bits, confirmation, message_type, identifier, reference, sender.as_ptr(), letters, data.as_ptr(), octets, ours.as_mut_ptr(), room,
        )
    };
    let has = |bit: u8| bits & bit != 0;
    let parts = Parts {
        multi_shot: has(1),
        confirmation,
        message_type: has(0x40).then_some(message_type),
        identifier: has(0x20).then_some(identifier),
        reference: has(0x10).then_some(reference),
        sender: has(8).then_some(&sender),
        user_data: has(4).then_some(&data),
    };
    // the flags' other two bits: 13, once there is room
    let result = if room >= 1024 && has(0x82) { Err(13) } else { write(&parts, &mut theirs) };
    met.written[*result.as_ref().err().unwrap_or(&0) as usize] += 1;
    let expected = result.map_or_else(refusal, |n| n as u32);
    if answer != expected || ours != theirs {
        stop("write", &[bits, confirmation], answer, expected);
    }
    if let Ok(n) = result {
        reads(met, &ours[..n], 26, filled);
    }
}

fn main() {
    let total: u64 = std::env::args().nth(1).and_then(|s| s.parse().ok()).unwrap_or(1_000_000);
    let damaged = std::env::args().nth(2).and_then(|s| s.parse().ok());
    let (mut d, mut met) = (Draw(0x2545_f491_4f6c_dd1d), Met { damaged, ..Met::default() });
    reads(&mut met, &[], 26, 0);
    for n in 0..1u32 << 24 {
        let s = n.to_be_bytes();
        for from in 1..4 {
            // a shorter frame once, where the octets before it are 0
            if s[1..from].iter().all(|&x| x == 0) {
                reads(&mut met, &s[from..], 26, 0xa5);
            }
        }
    }
    let short = met.read.iter().sum::<u64>();
    assert_eq!(short, 1 + 256 + 65_536 + 16_777_216);
    for _ in 0..total {
        let (maintained, confirmation) = (d.chance(50), d.of(&[0, 1, 2, 3, 4]));
        let s = frame(&mut d, maintained, confirmation, &[0, 1, 7, 256, 65535]);
        let room = if d.chance(97) { 26 + d.under(7) } else { d.under(26) };
        let filled = d.next() as u8;
        reads(&mut met, &s, room, filled);
        writes(&mut d, &mut met);
    }
    println!("{short} frames of up to three octets, {total} longer ones and {total} messages written");
    println!("read: whole {}, with extension fields {}; 6 {}, 11 to 16 {:?}", met.read[0], met.extensions, met.read[6], &met.read[11..]);
    println!("written: {}; 6 {}, 13 to 15 {:?}", met.written[0], met.written[6], &met.written[13..16]);
    let mut missing: Vec<String> = [0, 6, 11, 12, 13, 14, 15, 16].iter().filter(|&&n| met.read[n] == 0).map(|n| format!("read {n}")).collect();
    missing.extend([0, 6, 13, 14, 15].iter().filter(|&&n| met.written[n] == 0).map(|n| format!("written {n}")));
    for m in &missing {
        println!("never met: {m}");
    }
    println!("{} passed, {} failed", missing.is_empty() as usize, missing.len());
    std::process::exit(!missing.is_empty() as i32);
}
