//! "Refusal numbers", their order, and "Sound".

mod common;

use common::{after, associated, expect, feed, feed_octets, hex, idle, octets, refuse, Numbers};
use reference::unit::{handle, is_sound, setup, Unit, ZERO};

/// A unit in each state, in the order of their numbers.
fn in_each_state() -> [Unit; 5] {
    [
        idle(),
        after(&["01 020301 0000"]),
        after(&["02 020301 2101 0007"]),
        after(&["10 050602", "03"]),
        associated(),
    ]
}

/// 1: "the state doesn't take this event".
#[test]
fn refusal_1() {
    let taken: [(&str, &[u8]); 13] = [
        ("01 050602 0000", &[0]),
        ("02 050602 2001 0001", &[0]),
        ("01 050602 0100", &[0, 4]),
        ("02 050602 2101 0001", &[0, 4]),
        ("03", &[4]),
        ("04", &[0, 1, 2, 3, 4]),
        ("10 050602", &[0]),
        ("11 00", &[1, 2]),
        ("12 0000", &[3, 4]),
        ("13", &[4]),
        ("14 00", &[3]),
        ("15", &[1, 2, 3, 4]),
        ("16", &[1, 2, 3, 4]),
    ];
    for (event, states) in taken {
        for mut unit in in_each_state() {
            let state = unit.state;
            let answer = feed(&mut unit, event);
            if states.contains(&state) {
                assert!(answer.is_ok(), "{event} in {state}");
            } else {
                assert_eq!(answer, Err(1), "{event} in {state}");
            }
        }
    }
    refuse(&mut idle(), "12", 1); // a bad frame inside an indication is no refusal
    refuse(&mut associated(), "10 050602 02", 1);
    refuse(&mut associated(), "11 01 02", 1);
}

/// 2: "the frame of 01 or 02 has a fault or extensions, or its confirmation
/// isn't 0 for 01, 1 for 02"; it comes before 1.
#[test]
fn refusal_2() {
    for mut unit in in_each_state() {
        refuse(&mut unit, "01 050602", 2);
        refuse(&mut unit, "02 050602", 2);
        refuse(&mut unit, "01 050602 02", 2);
        refuse(&mut unit, "01 050602 8100 0100", 2);
        refuse(&mut unit, "01 050602 2101 0007", 2);
        refuse(&mut unit, "02 050602 2100 0007", 2);
        refuse(&mut unit, "02 050602 0101", 2);
        refuse(&mut unit, "01 050602 1902 0007 0142", 2);
        refuse(&mut unit, "02 050602 3902 0007 0007 0142", 2);
        let long = [&[0x01, 5, 6, 2][..], &[0; 1025]].concat();
        assert_eq!(feed_octets(&mut unit, &long), Err(2));
    }
}

/// 3: "a multi-shot request in Associated has terms other than the
/// dialogue's"; after 1, before 4.
#[test]
fn refusal_3() {
    let mut unit = after(&["10 050602", "02 050602 2101 0007"]);
    for terms in ["040602", "050702", "050601", "050600"] {
        refuse(&mut unit, &format!("01 {terms} 0100"), 3);
        refuse(&mut unit, &format!("02 {terms} 2101 0007"), 3);
        refuse(&mut unit, &format!("01 {terms} 0000"), 1);
        refuse(&mut unit, &format!("01 {terms} 0101"), 2);
    }
}

/// 4: "the identifier of an 02 is already waiting"; before 5. 5: "an 02 comes
/// while eight identifiers are waiting (01 is still taken)".
#[test]
fn refusals_4_and_5() {
    let mut unit = associated();
    for identifier in 1..9 {
        let event = format!("02 050602 2101 {identifier:04x}");
        assert!(feed(&mut unit, &event).is_ok());
        refuse(&mut unit, &event, 4);
    }
    refuse(&mut unit, "02 050602 2101 0008", 4);
    refuse(&mut unit, "02 050602 2101 0000", 5);
    expect(&mut unit, "01 050602 2100 0008", &["32 2100 0008"], 4);
    // "identifier 0 [...] ordinary": an empty place isn't a waiting 0.
    let mut unit = associated();
    expect(&mut unit, "02 050602 2101 0000", &["32 2101 0000"], 4);
    refuse(&mut unit, "02 050602 2101 0000", 4);
}

/// 6: "the lent buffer has fewer than 1,024 octets"; first of all.
#[test]
fn refusal_6() {
    let mut out = [0xa5; 1023];
    for mut unit in [idle(), ZERO] {
        let before = unit;
        assert_eq!(handle(&mut unit, &[0x04], &mut out), Err(6));
        assert_eq!(handle(&mut unit, &[], &mut []), Err(6));
        assert!(unit == before && out.iter().all(|o| *o == 0xa5));
    }
    assert_eq!(handle(&mut idle(), &[0x04], &mut [0; 1024]), Ok((0, 0)));
}

/// 7: "setup is outside its limits".
#[test]
fn refusal_7() {
    let long = format!("00 0001 0001 0001 {}", "41".repeat(33));
    let setups = [
        "",
        "00",
        "00 0001 0001 0001",
        "00 0000 0001 0001 41",
        "00 0001 0000 0001 41",
        "00 0001 0001 0000 41",
        "01 0001 0001 0001 41",
        &long,
    ];
    for event in setups {
        let (unit, answer) = setup(&octets(event));
        assert_eq!(answer, Err(7), "{event}");
        assert!(unit == ZERO);
    }
}

/// 8: "event empty, kind unknown, body shorter than its fixed part, octets
/// after a kind that carries no frame, result or RER out of range".
#[test]
fn refusal_8() {
    let events = [
        "",
        "01",
        "01 0506",
        "02 05",
        "10",
        "10 0506",
        "11",
        "14", // too short
        "03 00",
        "04 00",
        "13 00",
        "14 0000",
        "15 00",
        "16 00", // too long
        "01 050603 0000",
        "02 0506ff 2001 0001",
        "10 050600",
        "10 050603", // RER
        "11 02",
        "11 ff 0000",
        "14 02", // result
    ];
    for mut unit in in_each_state() {
        for event in events {
            refuse(&mut unit, event, 8);
        }
        let known = [1, 2, 3, 4, 0x10, 0x11, 0x12, 0x13, 0x14, 0x15, 0x16];
        for kind in (0..=255).filter(|kind| !known.contains(kind)) {
            assert_eq!(feed_octets(&mut unit, &[kind]), Err(8));
            assert_eq!(feed_octets(&mut unit, &[kind, 5, 6, 1, 0, 0]), Err(8));
        }
    }
}

/// 9: "the unit handed in isn't sound"; before 8.
fn refusal_9(state: u8, what: &str, spoil: impl Fn(&mut Unit)) {
    let mut unit = in_each_state()[usize::from(state)];
    assert!(is_sound(&unit));
    spoil(&mut unit);
    assert!(!is_sound(&unit), "state {state}: {what}");
    for event in ["", "04", "15", "01 020301 0000"] {
        refuse(&mut unit, event, 9);
    }
}

#[test]
fn unsound_setup_or_state() {
    refusal_9(0, "start 0", |u| u.start = 0);
    refusal_9(0, "end 0", |u| u.end = 0);
    refusal_9(0, "inactivity 0", |u| u.quiet = 0);
    refusal_9(0, "name empty", |u| (u.letters, u.name) = (0, [0; 32]));
    refusal_9(0, "name long", |u| u.letters = 33);
    refusal_9(0, "name very long", |u| u.letters = usize::MAX);
    refusal_9(0, "name unused", |u| u.name[31] = 1);
    for state in 5..=255 {
        refusal_9(4, "state", |u| u.state = state);
    }
    refusal_9(0, "every number 0", |u| *u = ZERO);
}

#[test]
fn unsound_list() {
    for state in 0..5 {
        refusal_9(state, "unused place", |u| u.waiting[7] = 1);
        refusal_9(state, "count", |u| u.count = 9);
        refusal_9(state, "count", |u| u.count = usize::MAX);
    }
    refusal_9(0, "one in Idle", |u| u.count = 1);
    refusal_9(1, "two in Start-single", |u| {
        (u.count, u.waiting[0]) = (2, 1)
    });
    refusal_9(2, "two in Start-multi", |u| {
        (u.count, u.waiting[1]) = (2, 1)
    });
    for state in [3, 4] {
        refusal_9(state, "twice", |u| {
            (u.count, u.waiting[0], u.waiting[2]) = (3, 5, 5)
        });
        refusal_9(state, "zero twice", |u| u.count = 2);
    }
}

#[test]
fn unsound_kept_frame() {
    for state in [0, 1, 3, 4] {
        refusal_9(state, "kept octets", |u| u.octets = 1);
        refusal_9(state, "kept place", |u| u.kept[553] = 1);
    }
    refusal_9(2, "octets", |u| u.octets = 555);
    refusal_9(2, "octets", |u| u.octets = usize::MAX);
    refusal_9(2, "octets", |u| u.octets = 3);
    refusal_9(2, "empty", |u| (u.octets, u.kept) = (0, ZERO.kept));
    refusal_9(2, "unused kept place", |u| u.kept[553] = 1);
    refusal_9(2, "single", |u| u.kept[0] = 0x20);
    refusal_9(2, "faulty", |u| u.kept[1] = 5);
    refusal_9(2, "none waiting", |u| (u.count, u.waiting[0]) = (0, 0));
    refusal_9(2, "another waiting", |u| u.waiting[0] = 8);
    refusal_9(2, "unconfirmed, one waiting", |u| u.kept[1] = 0);
    let kept = |hex: &'static str| {
        move |u: &mut Unit| {
            let frame = octets(hex);
            u.kept[..frame.len()].copy_from_slice(&frame);
            u.octets = frame.len();
        }
    };
    refusal_9(2, "extensions", kept("a101 0007 0100"));
    refusal_9(2, "confirmation 2", kept("3902 0007 0007 0142"));
}

#[test]
fn unsound_terms_or_elapsed() {
    refusal_9(0, "class", |u| u.class = 1);
    refusal_9(0, "priority", |u| u.priority = 1);
    refusal_9(0, "RER", |u| u.rer = 1);
    refusal_9(0, "elapsed", |u| u.elapsed = 1);
    for state in 1..5 {
        refusal_9(state, "RER", |u| u.rer = 0);
        refusal_9(state, "RER", |u| u.rer = 3);
    }
    for (state, limit) in [(1, 3), (2, 3), (3, 2), (4, 4)] {
        refusal_9(state, "elapsed", |u| u.elapsed = limit);
        let mut unit = in_each_state()[usize::from(state)];
        unit.elapsed = limit - 1;
        assert!(is_sound(&unit));
    }
}

#[test]
fn sound_lists_and_frames() {
    let mut unit = associated();
    (unit.count, unit.waiting) = (8, [7, 6, 5, 0, 3, 2, 1, 65535]);
    assert!(is_sound(&unit));
    let mut unit = after(&["01 020301 2100 0007"]);
    assert!(is_sound(&unit));
    (unit.count, unit.waiting[0]) = (1, 7);
    assert!(!is_sound(&unit));
    let long = format!(
        "01 020301 7d00 09 0007 0008 20 {} 0200 {}",
        "42".repeat(32),
        "43".repeat(512)
    );
    assert_eq!(after(&[&long]).octets, 554);
}

/// A long walk over random events: `feed` checks that every refusal changes
/// nothing and that the unit stays sound; falls leave it as it was set up.
#[test]
fn random_walk() {
    let mut numbers = Numbers(0x2545_f491_4f6c_dd1d);
    let mut unit = idle();
    let mut refused = [0usize; 10];
    let mut visits = [0usize; 5];
    for _ in 0..400_000 {
        let event = random_event(&mut numbers);
        match feed_octets(&mut unit, &event) {
            Ok(_) => visits[usize::from(unit.state)] += 1,
            Err(refusal) => refused[usize::from(refusal)] += 1,
        }
        assert!(unit.state != 0 || unit == idle(), "after {}", hex(&event));
    }
    assert!(visits.iter().all(|count| *count > 100), "{visits:?}");
    for refusal in [1, 2, 3, 4, 8] {
        assert!(refused[refusal] > 100, "{refused:?}");
    }
}

/// Ready-made events of all kinds, parted by spaces.
const KINDS: &str = "010506020000 010506020100 0105060221000007 010506018100 03 04 04 \
    10050602 100506020000 100506022001abcd 1100 1100 1101 1101180200070142 12 120000 \
    12a10100070500 13 1400 1401 15 16 0506 110100";

fn random_event(numbers: &mut Numbers) -> Vec<u8> {
    let kinds: Vec<&str> = KINDS.split_whitespace().collect();
    let identifier = format!("{:04x}", numbers.below(12));
    let event = match numbers.below(40) {
        0..=5 => format!("020506022101{identifier}"),
        6 => format!("020506022001{identifier}"),
        7 => format!("020507022101{identifier}"),
        8..=10 => format!("1219{:02x}{identifier}0142", numbers.below(6)),
        11..=12 => format!(
            "12{}",
            ["0100", "810001000200", "6101090003"][numbers.below(3)]
        ),
        _ => kinds[numbers.below(kinds.len())].to_string(),
    };
    octets(&event)
}
