//! Benchmarks: the proved unit and frame through their static library against the independent implementation, each built for release, in one run. For
//! each case the two are run in turn, several times, and the best time of each counts. `tests/bench` runs it and adds the instructions.
//!   bench                        each case: name, ns an operation proved, ns hand-written, with tabs between
//!   bench CASE SIDE ROUNDS       one case alone, `proved` or `written`, for callgrind
//!   bench stack                  the stack that the events of each case take at most: name, octets proved, octets hand-written
use reference::frame::{read, write, Parts};
use reference::unit::{handle, setup};
use std::hint::black_box;
use std::time::Instant;

extern "C" {
    fn stelquorum_setup(image: *mut u8, length: usize, start: u16, end: u16, inactivity: u16, name: *const u8, letters: usize) -> u32;
    fn stelquorum_event(image: *mut u8, length: usize, event: *const u8, octets: usize, out: *mut u8, room: usize) -> u32;
    fn stelquorum_read(frame: *const u8, octets: usize, block: *mut u8, room: usize) -> u32;
    fn stelquorum_write(
        flags: u8, confirmation: u8, message_type: u8, identifier: u16, reference: u16, sender: *const u8, letters: usize, data: *const u8,
        octets: usize, out: *mut u8, room: usize,
    ) -> u32;
}

fn hex(s: &str) -> Vec<u8> {
    (0..s.len()).step_by(2).map(|i| u8::from_str_radix(&s[i..i + 2], 16).unwrap()).collect()
}

enum Work {
    /// the events that lead to the state, and those that are repeated
    Events(Vec<Vec<u8>>, Vec<Vec<u8>>),
    Read(Vec<u8>),
    /// octets of user data; with the other fields or without
    Write(usize, bool),
}

fn events(lead: &[&str], repeated: &[&str]) -> Work {
    Work::Events(lead.iter().map(|e| hex(e)).collect(), repeated.iter().map(|e| hex(e)).collect())
}

/// A frame with every field and so many octets of user data.
fn full(octets: usize) -> Vec<u8> {
    let mut s = hex("7d0205000700090247310000");
    let n = s.len();
    s[n - 2..].copy_from_slice(&(octets as u16).to_be_bytes());
    s.extend(vec![0x55; octets]);
    s
}

/// A frame with so many extension fields, of so many octets each.
fn extended(count: usize, octets: usize) -> Vec<u8> {
    let mut s = hex("8000");
    for _ in 0..count {
        s.extend([1, octets as u8]);
        s.extend(vec![0x55; octets]);
    }
    s
}

fn cases() -> Vec<(String, Work)> {
    let long = format!("1205000200{}", "00".repeat(512));
    let open = ["10020301"];
    let mut all = vec![
        ("tick in Idle", events(&[], &["04"])),
        ("tick in Associated, and a message", events(&open, &["04", "120100"])),
        ("no event (refusal 8)", events(&[], &["99"])),
        ("event out of turn (refusal 1)", events(&[], &["03"])),
        ("message of 2 octets given", events(&open, &["120100"])),
        ("message of 512 octets given", events(&open, &[&long])),
        ("message with two extension fields", events(&open, &["1281000102aabb0500"])),
        ("confirmed message given and acknowledged", events(&open, &["1221010007"])),
        ("transfer in Associated", events(&open, &["0102030101000000"])),
        ("confirmed transfer and its confirmation", events(&open, &["0202030121010007", "1219020007024139"])),
        ("single shot sent and answered", events(&[], &["0202030120010007", "11011802000702413900"])),
        ("single shot given and acknowledged", events(&[], &["1002030120010007"])),
        ("dialogue opened by us, ended by them", events(&[], &["010203010100", "1100", "13"])),
        ("dialogue opened by them, ended by us", events(&[], &["10020301", "03", "1400"])),
        ("dialogue lost with two waiting", events(&[], &["10020301", "0202030121010007", "0202030121010009", "16"])),
        (
            "mixed session",
            events(
                &[],
                &[
                    "020203002501000700024f4b", "1100", "1219020007024139", "04", "120500000568656c6c6f", "1221010003", "0102030101000000", "04",
                    "0202030125010009000252320000", "020203012501000900025232", "1219020009024139", "99", "03", "1400", "10020301", "120100", "13",
                ],
            ),
        ),
        ("read a frame of 2 octets", Work::Read(hex("0100"))),
        ("read an acknowledgement", Work::Read(hex("19020007024139"))),
    ];
    all.push(("read a frame cut short (fault 12)", Work::Read(hex("040002004141"))));
    all.push(("read 4 extension fields of 250 octets", Work::Read(extended(4, 250))));
    all.push(("read 511 extension fields of 0 octets", Work::Read(extended(511, 0))));
    all.push(("write a frame of 2 octets", Work::Write(0, false)));
    let mut all: Vec<(String, Work)> = all.into_iter().map(|(name, work)| (name.to_string(), work)).collect();
    for n in [0, 64, 128, 256, 512] {
        all.push((format!("read every field, {n} octets of user data"), Work::Read(full(n))));
    }
    for n in [0, 64, 128, 256, 512] {
        all.push((format!("write every field, {n} octets of user data"), Work::Write(n, true)));
    }
    all
}

/// Runs a case so many rounds on one side; ns, and operations in all.
fn run(work: &Work, proved: bool, rounds: usize) -> (f64, usize) {
    let mut out = vec![0u8; 1024];
    match work {
        Work::Events(lead, repeated) => {
            let mut u = setup(&hex("00ffffffffffff4731")).0;
            let mut image = vec![0u8; 618];
            unsafe { stelquorum_setup(image.as_mut_ptr(), 618, 65535, 65535, 65535, b"G1".as_ptr(), 2) };
            let mut ours = |e: &[u8], out: &mut [u8]| unsafe { stelquorum_event(image.as_mut_ptr(), 618, e.as_ptr(), e.len(), out.as_mut_ptr(), 1024) };
            for e in lead {
                let _ = (handle(&mut u, e, &mut out), ours(e, &mut out));
            }
            let t = Instant::now();
            for _ in 0..rounds {
                for e in repeated {
                    if proved {
                        black_box(ours(black_box(e), &mut out));
                    } else {
                        let _ = black_box(handle(&mut u, black_box(e), &mut out));
                    }
                }
            }
            (t.elapsed().as_nanos() as f64, rounds * repeated.len())
        }
        Work::Read(frame) => {
            let mut block = [0u8; 26];
            let t = Instant::now();
            for _ in 0..rounds {
                let f = black_box(&frame[..]);
                if proved {
                    black_box(unsafe { stelquorum_read(f.as_ptr(), f.len(), block.as_mut_ptr(), 26) });
                } else {
                    let _ = black_box(read(f));
                }
            }
            (t.elapsed().as_nanos() as f64, rounds)
        }
        Work::Write(octets, others) => {
            let data = vec![0x55u8; *octets];
            let t = Instant::now();
            for _ in 0..rounds {
                let d = black_box(&data[..]);
                if proved {
                    let flags = if *others { 0x7d } else { 1 };
                    black_box(unsafe {
                        stelquorum_write(flags, 0, 5, 7, 9, b"G1".as_ptr(), 2, d.as_ptr(), d.len(), out.as_mut_ptr(), 1024)
                    });
                } else {
                    let parts = if *others {
                        Parts {
                            multi_shot: true,
                            confirmation: 0,
                            message_type: Some(5),
                            identifier: Some(7),
                            reference: Some(9),
                            sender: Some(b"G1"),
                            user_data: Some(d),
                        }
                    } else {
                        Parts { multi_shot: true, ..Parts::default() }
                    };
                    let _ = black_box(write(black_box(&parts), &mut out));
                }
            }
            (t.elapsed().as_nanos() as f64, rounds)
        }
    }
}

/// Octets of stack that a call takes, by words of eight: what is below is painted before it, and looked at after it.
#[inline(never)]
fn painted(call: &mut dyn FnMut()) -> usize {
    const WORDS: usize = 1 << 12;
    let here: *mut u64;
    unsafe { std::arch::asm!("mov {}, rsp", out(reg) here) };
    for i in 1..=WORDS {
        unsafe { here.sub(i).write_volatile(0xa5c3_5a3c_a5c3_5a3c) };
    }
    call();
    (1..=WORDS).rev().find(|&i| unsafe { here.sub(i).read_volatile() } != 0xa5c3_5a3c_a5c3_5a3c).unwrap_or(0) * 8
}

/// A call that takes no stack but its return address.
#[inline(never)]
extern "C" fn nothing(image: *mut u8, length: usize, event: *const u8, octets: usize, out: *mut u8, room: usize) -> u32 {
    black_box(image as usize + length + event as usize + octets + out as usize + room) as u32
}

/// The most that an event of a case takes, on each side; what handing it over takes is not counted.
fn stack(lead: &[Vec<u8>], repeated: &[Vec<u8>]) -> (usize, usize) {
    let (mut out, mut image) = (vec![0u8; 1024], vec![0u8; 618]);
    let mut u = setup(&hex("00ffffffffffff4731")).0;
    unsafe { stelquorum_setup(image.as_mut_ptr(), 618, 65535, 65535, 65535, b"G1".as_ptr(), 2) };
    let none = painted(&mut || {
        black_box(nothing(image.as_mut_ptr(), 618, out.as_ptr(), 0, out.as_mut_ptr(), 1024));
    });
    let (mut ours, mut theirs) = (0, 0);
    for e in lead.iter().chain(repeated).map(|e| black_box(e)) {
        ours = ours.max(painted(&mut || {
            black_box(unsafe { stelquorum_event(image.as_mut_ptr(), 618, e.as_ptr(), e.len(), out.as_mut_ptr(), 1024) });
        }));
        theirs = theirs.max(painted(&mut || {
            let _ = black_box(handle(&mut u, e, &mut out));
        }));
    }
    (ours - none, theirs - none)
}

fn main() {
    let args: Vec<String> = std::env::args().skip(1).collect();
    let all = cases();
    if let [case, side, rounds] = &args[..] {
        let (_, n) = run(&all[case.parse::<usize>().unwrap()].1, side == "proved", rounds.parse().unwrap());
        return println!("{n}");
    }
    if args == ["stack"] {
        for (name, work) in &all {
            if let Work::Events(lead, repeated) = work {
                let (ours, theirs) = stack(lead, repeated);
                println!("{name}\t{ours}\t{theirs}");
            }
        }
        return;
    }
    for (name, work) in &all {
        let (mut ours, mut theirs) = (f64::MAX, f64::MAX);
        let rounds = 60_000 / run(work, true, 1).1;
        for _ in 0..9 {
            let (t, n) = run(work, true, rounds);
            ours = ours.min(t / n as f64);
            let (t, n) = run(work, false, rounds);
            theirs = theirs.min(t / n as f64);
        }
        println!("{name}\t{ours:.1}\t{theirs:.1}");
    }
}
