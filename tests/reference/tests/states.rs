//! "The five states", rule by rule. The unit is "A9" with start 3, end 2 and
//! inactivity 4.

mod common;

use common::{after, associated, expect, feed, feed_octets, hex, idle, octets, refuse};
use reference::unit::{setup, Unit, ZERO};

const SINGLE: &str = "01 020301 0000";
const SINGLE_CONFIRMED: &str = "02 020301 2001 0007";
const MULTI: &str = "01 020301 0100";
const MULTI_CONFIRMED: &str = "02 020301 2101 0007";

/// Associated by its own request, terms 02 03 01, with these waiting.
fn waiting(identifiers: &[u16]) -> Unit {
    let mut unit = after(&[MULTI, "1100"]);
    for identifier in identifiers {
        let event = format!("02 020301 2101 {identifier:04x}");
        let line = format!("32 2101 {identifier:04x}");
        expect(&mut unit, &event, &[line.as_str()], 4);
    }
    unit
}

#[test]
fn setup_gives_an_idle_unit() {
    let unit = idle();
    let mut wanted = ZERO;
    wanted.name[..2].copy_from_slice(b"A9");
    (wanted.start, wanted.end, wanted.quiet, wanted.letters) = (3, 2, 4, 2);
    assert!(unit == wanted);
    let (most, answer) = setup(&octets(&format!("00ffffffffffff{}", "00".repeat(32))));
    assert_eq!((answer, most.letters), (Ok(()), 32));
}

/// "Single request in 0: line 30 with the frame, to 1."
#[test]
fn single_request() {
    let mut unit = idle();
    expect(
        &mut unit,
        "01 020300 0400 0001 ff",
        &["30 020301 0400 0001 ff"],
        1,
    );
    assert_eq!(
        (unit.class, unit.priority, unit.rer, unit.count),
        (2, 3, 1, 0)
    );
    let mut unit = idle();
    expect(
        &mut unit,
        "02 020302 2001 0000",
        &["30 020302 2001 0000"],
        1,
    );
    assert_eq!((unit.rer, unit.count, unit.waiting[0]), (2, 1, 0));
}

/// "Multi in 0: keep the frame, line 30 without one, to 2."
#[test]
fn multi_request_in_idle() {
    let mut unit = idle();
    expect(&mut unit, "02 020300 2101 0007", &["30 020301"], 2);
    assert_eq!((unit.octets, unit.count, unit.waiting[0]), (4, 1, 7));
    assert_eq!(hex(&unit.kept[..4]), "21010007");
    let mut unit = idle();
    expect(&mut unit, "01 020300 2100 0007", &["30 020301"], 2);
    assert_eq!((unit.octets, unit.count), (4, 0));
}

/// "Multi in 4: line 32, elapsed 0." "A confirmed identifier joins the
/// waiting list; room is free again once it is answered."
#[test]
fn multi_request_in_associated() {
    let mut unit = associated();
    expect(&mut unit, "04", &[], 4);
    assert_eq!(unit.elapsed, 1);
    expect(&mut unit, "01 050602 2100 0001", &["32 2100 0001"], 4);
    assert_eq!((unit.elapsed, unit.count), (0, 0));
    for identifier in 0..8 {
        let event = format!("02 050602 2101 {identifier:04x}");
        assert!(feed(&mut unit, &event).is_ok());
    }
    refuse(&mut unit, "02 050602 2101 0008", 5);
    expect(&mut unit, "12 1802 0003 0142", &["22 00 1802 0003 0142"], 4);
    assert_eq!(unit.waiting, [0, 1, 2, 4, 5, 6, 7, 0]);
    expect(&mut unit, "02 050602 2101 0008", &["32 2101 0008"], 4);
    assert_eq!(unit.waiting, [0, 1, 2, 4, 5, 6, 7, 8]);
}

/// RER 0 counts as low in the comparison too.
#[test]
fn rer_not_provided_is_low() {
    let mut unit = after(&["10 050601"]);
    expect(&mut unit, "01 050600 0100", &["32 0100"], 4);
}

/// "03 in 4: 33, to 3."
#[test]
fn end_request() {
    let mut unit = associated();
    expect(&mut unit, "04", &[], 4);
    expect(&mut unit, "03", &["33"], 3);
    assert_eq!((unit.elapsed, unit.class, unit.rer), (0, 5, 2));
}

/// "10 without a frame: 31 accepted, to 4 with those terms."
#[test]
fn start_indication_without_a_frame() {
    let mut unit = idle();
    expect(&mut unit, "10 ff0002", &["31 00"], 4);
    assert_eq!((unit.class, unit.priority, unit.rer), (255, 0, 2));
}

/// "With a valid single frame: confirmation 0 gives 20, then 31 rejected; 1
/// gives 21, then 31 rejected with an acknowledgement; stay in 0."
#[test]
fn start_indication_with_a_single_frame() {
    let mut unit = idle();
    expect(&mut unit, "10 050602 0000", &["20 050602 0000", "31 01"], 0);
    let lines = ["21 050602 6001 09 0007", "31 01 5802 09 0007 02 4139"];
    expect(&mut unit, "10 050602 6001 09 0007", &lines, 0);
    let lines = [
        "25 0002",
        "21 050602 2401 0007 0000",
        "31 01 1802 0007 02 4139",
    ];
    expect(&mut unit, "10 050602 a401 0007 0000 0100 0101aa", &lines, 0);
    let lines = ["25 0001", "20 050601 0000", "31 01"];
    expect(&mut unit, "10 050601 8000 ff00", &lines, 0);
    assert!(unit == idle());
}

/// "Any other valid frame: 35 reason 10. Faulty: 35 with the fault. Both stay
/// in 0 with no line 24."
#[test]
fn start_indication_with_another_frame() {
    let mut unit = idle();
    expect(&mut unit, "10 050602 0100", &["35 0a"], 0);
    expect(&mut unit, "10 050602 2101 0007", &["35 0a"], 0);
    expect(&mut unit, "10 050602 1802 0007 0142", &["35 0a"], 0);
    expect(&mut unit, "10 050602 8100 0100", &["25 0001", "35 0a"], 0);
    expect(&mut unit, "10 050602 00", &["35 0c"], 0);
    expect(&mut unit, "10 050602 02", &["35 0d"], 0);
    expect(&mut unit, "10 050602 0800 00", &["35 0e"], 0);
    expect(&mut unit, "10 050602 0001", &["35 0f"], 0);
    expect(&mut unit, "10 050602 000000", &["35 10"], 0);
    let long = [&[0x10, 5, 6, 2][..], &[0; 1025]].concat();
    assert_eq!(feed_octets(&mut unit, &long), Ok(vec!["350b".to_string()]));
    assert!(unit == idle());
}

/// "11 in 1: rejected, to 0; if waiting, a valid frame gives 22 with 0 for
/// confirmedOk, else 1".
#[test]
fn single_rejected_with_a_frame() {
    let answers = [
        ("1802 0007 0142", "22 00 1802 0007 0142"),
        ("1803 0007 0142", "22 01 1803 0007 0142"),
        ("1804 0007 0142", "22 01 1804 0007 0142"),
        ("0000", "22 01 0000"),
        ("2001 0007", "22 01 2001 0007"),
        ("1902 0008 0142", "22 00 1902 0008 0142"), // reference and bit 0 aren't compared
    ];
    for (frame, line) in answers {
        let mut unit = after(&[SINGLE_CONFIRMED]);
        expect(&mut unit, &format!("11 01 {frame}"), &[line], 0);
        assert!(unit == idle());
    }
    let mut unit = after(&[SINGLE_CONFIRMED]);
    let lines = ["25 0001", "22 00 1802 0007 0142"];
    expect(&mut unit, "11 01 9802 0007 0142 0500", &lines, 0);
}

/// "an absent or faulty frame gives 22 uncertain".
#[test]
fn single_rejected_without_a_valid_frame() {
    for event in ["11 01", "11 01 00", "11 01 0005", "11 01 8000"] {
        let mut unit = after(&[SINGLE_CONFIRMED]);
        expect(&mut unit, event, &["22 02 1804 0007 02 4139"], 0);
        assert!(unit == idle());
    }
}

/// "If nobody waits the frame isn't read."
#[test]
fn single_rejected_and_nobody_waits() {
    for event in [
        "11 01",
        "11 01 00",
        "11 01 8000 0100",
        "11 01 1802 0007 0142",
    ] {
        let mut unit = after(&[SINGLE]);
        expect(&mut unit, event, &[], 0);
        assert!(unit == idle());
    }
}

/// "Accepted: fall with 35 reason 10, the frame unread."
#[test]
fn single_accepted() {
    for event in ["11 00", "11 00 8000 0100", "11 00 02"] {
        let mut unit = after(&[SINGLE]);
        expect(&mut unit, event, &["35 0a", "24 0a"], 0);
        let mut unit = after(&[SINGLE_CONFIRMED]);
        expect(
            &mut unit,
            event,
            &["35 0a", "22 02 1804 0007 02 4139", "24 0a"],
            0,
        );
        assert!(unit == idle());
    }
}

/// "11 in 2: accepted without a frame sends the kept frame by 32, to 4".
#[test]
fn multi_accepted() {
    let mut unit = after(&[MULTI_CONFIRMED, "04"]);
    expect(&mut unit, "11 00", &["32 2101 0007"], 4);
    assert_eq!(
        (unit.octets, unit.count, unit.elapsed, unit.rer),
        (0, 1, 0, 1)
    );
    assert!(unit.kept == ZERO.kept);
}

/// "with octets present, unread, fall with 35 reason 10."
#[test]
fn multi_accepted_with_octets() {
    for event in ["11 00 8000 0100", "11 00 00"] {
        let mut unit = after(&[MULTI_CONFIRMED]);
        expect(
            &mut unit,
            event,
            &["35 0a", "22 02 1904 0007 02 4139", "24 0a"],
            0,
        );
        assert!(unit == idle());
    }
}

/// "Rejected: any waiting identifier answered failed, line 24 reason 3, to 0;
/// the frame isn't read."
#[test]
fn multi_rejected() {
    for event in ["11 01", "11 01 8000 0100", "11 01 02"] {
        let mut unit = after(&[MULTI_CONFIRMED]);
        expect(&mut unit, event, &["22 01 1903 0007 02 4139", "24 03"], 0);
        let mut unit = after(&[MULTI]);
        expect(&mut unit, event, &["24 03"], 0);
        assert!(unit == idle());
    }
}

/// "12 in 3 or 4: a faulty frame makes a fall with 35."
#[test]
fn faulty_data() {
    for (event, fault) in [
        ("12", "0c"),
        ("12 02", "0d"),
        ("12 0001", "0f"),
        ("12 000000", "10"),
    ] {
        let (abort, lost) = (format!("35 {fault}"), format!("24 {fault}"));
        let mut unit = waiting(&[9, 3]);
        let lines = [
            &abort,
            "22 02 1904 0009 02 4139",
            "22 02 1904 0003 02 4139",
            &lost,
        ];
        expect(&mut unit, event, &lines, 0);
        assert!(unit == idle());
        let mut unit = after(&["10 050602", "03"]);
        expect(&mut unit, event, &[&abort, &lost], 0);
    }
}

/// "Otherwise elapsed 0 in state 4, unchanged in 3".
#[test]
fn data_and_elapsed() {
    let mut unit = after(&["10 050602", "04", "04"]);
    expect(&mut unit, "12 1802 0007 0142", &[], 4);
    assert_eq!(unit.elapsed, 0);
    let mut unit = after(&["10 050602", "03", "04"]);
    expect(&mut unit, "12 0000", &["20 050602 0000"], 3);
    assert_eq!(unit.elapsed, 1);
}

/// "Confirmation 0 gives 20; 1 gives 21, then in state 4 only an
/// acknowledgement by 32".
#[test]
fn data_requests() {
    let mut unit = associated();
    expect(&mut unit, "12 0100", &["20 050602 0100"], 4);
    expect(&mut unit, "12 0000", &["20 050602 0000"], 4);
    let lines = ["21 050602 6101 09 0007", "32 5902 09 0007 02 4139"];
    expect(&mut unit, "12 6101 09 0007", &lines, 4);
    let lines = ["25 0001", "21 050602 2001 0007", "32 1802 0007 02 4139"];
    expect(&mut unit, "12 a001 0007 0700", &lines, 4);
    expect(&mut unit, "03", &["33"], 3);
    expect(&mut unit, "12 6101 09 0007", &["21 050602 6101 09 0007"], 3);
    expect(&mut unit, "12 8100 0700", &["25 0001", "20 050602 0100"], 3);
}

/// "2 to 4 give 22 if the reference is waiting (0 for confirmedOk, else 1),
/// else nothing. Ending takes confirmations too".
#[test]
fn data_confirmations() {
    let mut unit = waiting(&[9, 3, 5, 7]);
    expect(&mut unit, "12 1902 0003 0142", &["22 00 1902 0003 0142"], 4);
    assert_eq!((unit.waiting, unit.count), ([9, 5, 7, 0, 0, 0, 0, 0], 3));
    expect(&mut unit, "12 1902 0003 0142", &[], 4);
    expect(&mut unit, "12 9902 0003 0142 0100", &["25 0001"], 4);
    expect(&mut unit, "12 1902 0000 0142", &[], 4); // an empty place isn't waiting
    let lines = ["25 0002", "22 01 1903 0009 0142"];
    expect(&mut unit, "12 9903 0009 0142 0100 0100", &lines, 4);
    expect(&mut unit, "03", &["33"], 3);
    expect(&mut unit, "12 1904 0007 0142", &["22 01 1904 0007 0142"], 3);
    assert_eq!((unit.waiting, unit.count), ([5, 0, 0, 0, 0, 0, 0, 0], 1));
}

/// "13: 34 accepted, all waiting answered uncertain, 23, to 0."
#[test]
fn end_indication() {
    let mut unit = waiting(&[9, 3]);
    let lines = [
        "34 00",
        "22 02 1904 0009 02 4139",
        "22 02 1904 0003 02 4139",
        "23",
    ];
    expect(&mut unit, "13", &lines, 0);
    assert!(unit == idle());
}

/// "14 accepted: all waiting answered uncertain, to 0. 14 rejected: to 4."
#[test]
fn end_confirmation() {
    let mut unit = waiting(&[9, 3]);
    expect(&mut unit, "03", &["33"], 3);
    expect(&mut unit, "04", &[], 3);
    expect(&mut unit, "14 01", &[], 4);
    assert_eq!((unit.elapsed, unit.count), (0, 2));
    expect(&mut unit, "03", &["33"], 3);
    let lines = ["22 02 1904 0009 02 4139", "22 02 1904 0003 02 4139"];
    expect(&mut unit, "14 00", &lines, 0);
    assert!(unit == idle());
}

/// "15, 16: fall without 35, reason 0 or 1."
#[test]
fn aborts() {
    for (event, reason) in [("15", "24 00"), ("16", "24 01")] {
        let mut unit = after(&[SINGLE_CONFIRMED]);
        expect(&mut unit, event, &["22 02 1804 0007 02 4139", reason], 0);
        let mut unit = after(&[MULTI_CONFIRMED]);
        expect(&mut unit, event, &["22 02 1904 0007 02 4139", reason], 0);
        let mut unit = after(&["10 050602", "03"]);
        expect(&mut unit, event, &[reason], 0);
        let mut unit = waiting(&[1]);
        expect(&mut unit, event, &["22 02 1904 0001 02 4139", reason], 0);
        assert!(unit == idle());
    }
}

/// "Tick: in 0 nothing; else elapsed grows by 1. At the limit: states 1, 2, 3
/// fall with 35 reason 2".
#[test]
fn ticks_to_a_fall() {
    let mut unit = idle();
    expect(&mut unit, "04", &[], 0);
    assert!(unit == idle());
    for (request, answer) in [(SINGLE_CONFIRMED, "1804"), (MULTI_CONFIRMED, "1904")] {
        let mut unit = after(&[request, "04", "04"]);
        assert_eq!(unit.elapsed, 2);
        let answer = format!("22 02 {answer} 0007 02 4139");
        expect(&mut unit, "04", &["35 02", &answer, "24 02"], 0);
        assert!(unit == idle());
    }
    let mut unit = after(&["10 050602", "03", "04"]);
    expect(&mut unit, "04", &["35 02", "24 02"], 0);
}

/// "state 4 gives 33, to 3".
#[test]
fn ticks_to_ending() {
    let mut unit = waiting(&[9]);
    for elapsed in 1..4 {
        expect(&mut unit, "04", &[], 4);
        assert_eq!(unit.elapsed, elapsed);
    }
    expect(&mut unit, "04", &["33"], 3);
    assert_eq!((unit.elapsed, unit.count), (0, 1));
    expect(&mut unit, "04", &[], 3);
    expect(
        &mut unit,
        "04",
        &["35 02", "22 02 1904 0009 02 4139", "24 02"],
        0,
    );
}

/// The longest limit, and a limit of one tick.
#[test]
fn edges_of_the_limits() {
    let (mut unit, _) = setup(&octets("00 0001 0001 ffff 41"));
    expect(&mut unit, SINGLE, &["30 020301 0000"], 1);
    expect(&mut unit, "04", &["35 02", "24 02"], 0);
    expect(&mut unit, "10 000001", &["31 00"], 4);
    for _ in 0..65534 {
        expect(&mut unit, "04", &[], 4);
    }
    expect(&mut unit, "04", &["33"], 3);
}

/// The fullest turns fit the smallest buffer.
#[test]
fn fullest_turns() {
    let (mut unit, _) = setup(&octets(&format!("00 0003 0002 0004 {}", "41".repeat(32))));
    expect(&mut unit, "10 050602", &["31 00"], 4);
    let body = format!(
        "09 0007 0008 20 {} 0200 {}",
        "42".repeat(32),
        "43".repeat(512)
    );
    let extra = "0100".repeat(235);
    let event = format!("12 fd01 {body} {extra}");
    let indication = format!("21 050602 7d01 {body}");
    let answer = format!("32 5902 09 0007 20 {}", "41".repeat(32));
    expect(&mut unit, &event, &["25 00eb", &indication, &answer], 4);
    for identifier in 0..8 {
        let event = format!("02 050602 2101 {identifier:04x}");
        assert!(feed(&mut unit, &event).is_ok());
    }
    assert_eq!(feed(&mut unit, "12").unwrap().len(), 10);
}
