//! The unit of one link: setup, soundness, and "The five states".

use crate::frame::{self, Header, Parts, EDITION_1};
use crate::LENT;

/// "0 Idle, 1 Start-single, 2 Start-multi, 3 Ending, 4 Associated".
pub const IDLE: u8 = 0;
pub const START_SINGLE: u8 = 1;
pub const START_MULTI: u8 = 2;
pub const ENDING: u8 = 3;
pub const ASSOCIATED: u8 = 4;

// "Result: 0 accepted, 1 rejected."
const ACCEPTED: u8 = 0;
const REJECTED: u8 = 1;

// "22 confirmation (0 successful, 1 failed, 2 uncertain [...])".
const SUCCESSFUL: u8 = 0;
const FAILED: u8 = 1;
const UNCERTAIN: u8 = 2;

// "Octet 1, confirmation: 0 unconfirmedReq, 1 confirmedReq, 2 confirmedOk,
// 3 confirmedNotOk, 4 confirmedUnknown."
const UNCONFIRMED_REQ: u8 = 0;
const CONFIRMED_REQ: u8 = 1;
const CONFIRMED_OK: u8 = 2;
const CONFIRMED_NOT_OK: u8 = 3;
const CONFIRMED_UNKNOWN: u8 = 4;

// "Reasons: 0 peer abort, 1 provider abort, 2 timer, 3 rejected, 10 frame not
// expected, 11 to 16 a frame fault."
const PEER_ABORT: u8 = 0;
const PROVIDER_ABORT: u8 = 1;
const TIMER: u8 = 2;
const WAS_REJECTED: u8 = 3;
const NOT_EXPECTED: u8 = 10;

/// "at most eight distinct identifiers waiting".
pub const PLACES: usize = 8;

/// One end of a link. Places of arrays beyond their count are 0. They come
/// first, each where sixteen octets can be taken at once.
#[derive(Clone, Copy, Debug, PartialEq, Eq)]
#[repr(C, align(16))]
pub struct Unit {
    pub name: [u8; 32],
    pub waiting: [u16; PLACES],
    pub kept: [u8; EDITION_1],
    pub state: u8,
    pub start: u16,
    pub end: u16,
    /// The inactivity limit.
    pub quiet: u16,
    pub elapsed: u16,
    pub class: u8,
    pub priority: u8,
    pub rer: u8,
    /// Octets of the name.
    pub letters: usize,
    /// Identifiers that are waiting.
    pub count: usize,
    /// Octets of the kept frame.
    pub octets: usize,
}

/// "Terms are class, priority (any octet each) and residual error rate".
#[derive(Clone, Copy, PartialEq, Eq)]
struct Terms {
    class: u8,
    priority: u8,
    rer: u8,
}

/// "a refused setup returns a unit with every number 0".
pub const ZERO: Unit = Unit {
    name: [0; 32],
    waiting: [0; PLACES],
    kept: [0; EDITION_1],
    state: IDLE,
    start: 0,
    end: 0,
    quiet: 0,
    elapsed: 0,
    class: 0,
    priority: 0,
    rer: 0,
    letters: 0,
    count: 0,
    octets: 0,
};

/// "kind 00, then start, end and inactivity limits (2 octets each,
/// 1..65,535), then the unit's name, 1..32 octets."
pub fn setup(event: &[u8]) -> (Unit, Result<(), u8>) {
    let mut unit = ZERO;
    let [0x00, s1, s0, e1, e0, q1, q0, name @ ..] = event else {
        return (ZERO, Err(7));
    };
    unit.start = u16::from_be_bytes([*s1, *s0]);
    unit.end = u16::from_be_bytes([*e1, *e0]);
    unit.quiet = u16::from_be_bytes([*q1, *q0]);
    if name.len() > unit.name.len() {
        return (ZERO, Err(7));
    }
    unit.name[..name.len()].copy_from_slice(name);
    unit.letters = name.len();
    if !within_limits(&unit) {
        return (ZERO, Err(7));
    }
    (unit, Ok(()))
}

/// "setup within limits", with the unused places of the name 0.
fn within_limits(unit: &Unit) -> bool {
    unit.start != 0
        && unit.end != 0
        && unit.quiet != 0
        && unit.letters != 0
        && unit.letters <= unit.name.len()
        && name_ends(&unit.name, unit.letters)
}

/// "Sound: setup within limits; state 0 to 4; [...] A field that the state
/// doesn't use is 0 or empty."
pub fn is_sound(unit: &Unit) -> bool {
    within_limits(unit)
        && unit.state <= ASSOCIATED
        && list_is_sound(unit)
        && kept_is_sound(unit)
        && state_is_sound(unit)
}

/// "at most eight distinct identifiers waiting, in sending order (the list's
/// own order, so not tested), none in Idle, at most one in the two start
/// states".
#[inline]
fn list_is_sound(unit: &Unit) -> bool {
    let most = match unit.state {
        IDLE => 0,
        START_SINGLE | START_MULTI => 1,
        _ => PLACES,
    };
    if unit.count > most {
        return false;
    }
    let used = &unit.waiting[..unit.count];
    list_ends(&unit.waiting, unit.count) && (1..used.len()).all(|i| !used[..i].contains(&used[i]))
}

/// "the kept frame of Start-multi is a valid edition 1 frame, maintained,
/// confirmation 0 with none waiting or 1 with its own identifier waiting";
/// outside Start-multi it is empty.
#[inline]
fn kept_is_sound(unit: &Unit) -> bool {
    if unit.state != START_MULTI {
        return unit.octets == 0 && all_blank(&unit.kept);
    }
    let Some(kept) = unit.kept.get(..unit.octets) else {
        return false;
    };
    let Ok((header, extensions)) = frame::read(kept) else {
        return false;
    };
    let waits_right = match header.confirmation {
        UNCONFIRMED_REQ => unit.count == 0,
        CONFIRMED_REQ => unit.count == 1 && header.identifier_of(kept) == Some(unit.waiting[0]),
        _ => false,
    };
    extensions == 0 && header.multi_shot && waits_right && blank(&unit.kept[unit.octets..])
}

/// "outside Idle RER is 1 or 2; elapsed ticks are under the state's limit, 0
/// in Idle." Idle uses no terms, so they are 0 there.
#[inline]
fn state_is_sound(unit: &Unit) -> bool {
    if unit.state == IDLE {
        return unit.elapsed == 0 && unit.class == 0 && unit.priority == 0 && unit.rer == 0;
    }
    matches!(unit.rer, 1 | 2) && unit.elapsed < limit(unit)
}

/// "The limit is start in 1 and 2, end in 3, inactivity in 4."
#[inline]
fn limit(unit: &Unit) -> u16 {
    match unit.state {
        START_SINGLE | START_MULTI => unit.start,
        ENDING => unit.end,
        _ => unit.quiet,
    }
}

/// Every octet 0. No early way out, so that it runs on whole words.
#[inline]
fn blank(octets: &[u8]) -> bool {
    octets.iter().fold(0, |all, &octet| all | octet) == 0
}

/// Sixteen octets from a place on, as one number.
#[inline]
fn sixteen(octets: &[u8], at: usize) -> u128 {
    u128::from_le_bytes(octets[at..at + 16].try_into().unwrap_or_default())
}

/// Every octet of a whole array 0, by sixteen; the last sixteen may overlap.
#[inline]
fn all_blank(octets: &[u8; EDITION_1]) -> bool {
    let last = sixteen(octets, EDITION_1 - 16);
    (0..EDITION_1 / 16).fold(last, |all, i| all | sixteen(octets, 16 * i)) == 0
}

/// 32 octets of zeros, then 32 of ones: from `32 - used` on, a mask of what
/// comes after the first `used` octets.
const AFTER: [u8; 64] = {
    let mut octets = [0xff; 64];
    let mut i = 0;
    while i < 32 {
        octets[i] = 0;
        i += 1;
    }
    octets
};

/// Every octet of a name after its letters 0; there are at most 32.
#[inline]
fn name_ends(name: &[u8; 32], letters: usize) -> bool {
    let from = 32 - letters;
    sixteen(name, 0) & sixteen(&AFTER, from) | sixteen(name, 16) & sixteen(&AFTER, from + 16) == 0
}

/// Every place of the list after its identifiers 0; there are at most eight.
#[inline]
fn list_ends(list: &[u16; PLACES], count: usize) -> bool {
    let four = |i: usize| {
        u128::from(list[i])
            | u128::from(list[i + 1]) << 16
            | u128::from(list[i + 2]) << 32
            | u128::from(list[i + 3]) << 48
    };
    (four(0) | four(4) << 64) & sixteen(&AFTER, 32 - 2 * count) == 0
}

/// An event whose form is right (refusal 8 is past).
enum Event<'a> {
    Request(Request<'a>),
    End,
    Tick,
    StartIndication(Terms, &'a [u8]),
    StartConfirmation(u8, &'a [u8]),
    Data(&'a [u8]),
    EndIndication,
    EndConfirmation(u8),
    Abort(u8),
}

/// Kinds 01 and 02: terms and the octets of a frame.
struct Request<'a> {
    confirmed: bool,
    terms: Terms,
    frame: &'a [u8],
}

/// Refusal 8: "event empty, kind unknown, body shorter than its fixed part,
/// octets after a kind that carries no frame, result or RER out of range".
#[inline]
fn parse(event: &[u8]) -> Result<Event<'_>, u8> {
    Ok(match *event {
        // "1 low, 2 high, 0 not provided (kinds 01 and 02 only; it counts as
        // low [...])".
        [kind @ 0x01..=0x02, class, priority, rer @ 0..=2, ref frame @ ..] => {
            let terms = Terms {
                class,
                priority,
                rer: rer.max(1),
            };
            Event::Request(Request {
                confirmed: kind == 0x02,
                terms,
                frame,
            })
        }
        [0x03] => Event::End,
        [0x04] => Event::Tick,
        [0x10, class, priority, rer @ 1..=2, ref frame @ ..] => Event::StartIndication(
            Terms {
                class,
                priority,
                rer,
            },
            frame,
        ),
        [0x11, result @ 0..=1, ref frame @ ..] => Event::StartConfirmation(result, frame),
        [0x12, ref frame @ ..] => Event::Data(frame),
        [0x13] => Event::EndIndication,
        [0x14, result @ 0..=1] => Event::EndConfirmation(result),
        [0x15] => Event::Abort(PEER_ABORT),
        [0x16] => Event::Abort(PROVIDER_ABORT),
        _ => return Err(8),
    })
}

/// Hands an event to the unit. Gives how many lines `out` received and how
/// many octets they use; "Every refusal returns its number, the unit
/// unchanged and the buffer untouched". "Order: 6, 9, 8; then for requests 2,
/// 1, 3, 4, 5; for other events 1."
pub fn handle(unit: &mut Unit, event: &[u8], out: &mut [u8]) -> Result<(usize, usize), u8> {
    let Some(out) = out.first_chunk_mut::<LENT>() else {
        return Err(6);
    };
    if !is_sound(unit) {
        return Err(9);
    }
    let event = parse(event)?;
    let mut lines = Lines {
        out,
        count: 0,
        used: 0,
    };
    turn(unit, &event, &mut lines)?;
    Ok((lines.count, lines.used))
}

/// "Taken: single-shot requests in 0; multi-shot in 0 and 4; 03 in 4; 04 in
/// all; 10 in 0; 11 in 1 and 2; 12 in 3 and 4; 13 in 4; 14 in 3; 15 and 16 in
/// 1 to 4."
fn turn(unit: &mut Unit, event: &Event, lines: &mut Lines) -> Result<(), u8> {
    match (event, unit.state) {
        (Event::Request(request), _) => return take(unit, request, lines),
        (Event::End, ASSOCIATED) => start_ending(unit, lines),
        (Event::Tick, _) => tick(unit, lines),
        (Event::StartIndication(terms, frame), IDLE) => asked(unit, *terms, frame, lines),
        (Event::StartConfirmation(result, frame), START_SINGLE) => {
            single_answered(unit, *result, frame, lines)
        }
        (Event::StartConfirmation(result, frame), START_MULTI) => {
            multi_answered(unit, *result, frame, lines)
        }
        (Event::Data(frame), ENDING | ASSOCIATED) => data(unit, frame, lines),
        (Event::EndIndication, ASSOCIATED) => peer_ends(unit, lines),
        (Event::EndConfirmation(result), ENDING) => end_answered(unit, *result, lines),
        (Event::Abort(reason), START_SINGLE..=ASSOCIATED) => fall(unit, *reason, lines),
        _ => return Err(1),
    }
    Ok(())
}

/// A request. All refusals come before the first change.
fn take(unit: &mut Unit, request: &Request, lines: &mut Lines) -> Result<(), u8> {
    let frame = request.frame;
    let header = permitted(unit, request)?;
    if request.confirmed {
        // "A confirmed identifier joins the waiting list".
        unit.waiting[unit.count] = header.identifier_of(frame).unwrap_or_default();
        unit.count += 1;
    }
    if unit.state == ASSOCIATED {
        // "Multi in 4: line 32, elapsed 0."
        lines.line([0x32], frame);
        unit.elapsed = 0;
        return Ok(());
    }
    unit.agree(request.terms);
    let Terms {
        class,
        priority,
        rer,
    } = request.terms;
    if header.multi_shot {
        // "Multi in 0: keep the frame, line 30 without one, to 2."
        unit.kept[..frame.len()].copy_from_slice(frame);
        unit.octets = frame.len();
        lines.line([0x30, class, priority, rer], &[]);
        unit.enter(START_MULTI);
    } else {
        // "Single request in 0: line 30 with the frame, to 1."
        lines.line([0x30, class, priority, rer], frame);
        unit.enter(START_SINGLE);
    }
    Ok(())
}

/// The refusals of a request in their order, "2, 1, 3, 4, 5".
#[inline]
fn permitted(unit: &Unit, request: &Request) -> Result<Header, u8> {
    // 2: "the frame of 01 or 02 has a fault or extensions, or its
    // confirmation isn't 0 for 01, 1 for 02".
    let Ok((header, 0)) = frame::read(request.frame) else {
        return Err(2);
    };
    if header.confirmation != u8::from(request.confirmed) {
        return Err(2);
    }
    // 1: "single-shot requests in 0; multi-shot in 0 and 4".
    match unit.state {
        IDLE => return Ok(header),
        ASSOCIATED if header.multi_shot => {}
        _ => return Err(1),
    }
    // 3: "a multi-shot request in Associated has terms other than the
    // dialogue's".
    if request.terms != unit.terms() {
        return Err(3);
    }
    if request.confirmed {
        // 4: "the identifier of an 02 is already waiting"; 5: "an 02 comes
        // while eight identifiers are waiting (01 is still taken)".
        let identifier = header.identifier_of(request.frame);
        if identifier.is_some_and(|identifier| unit.place_of(identifier).is_some()) {
            return Err(4);
        }
        if unit.count == PLACES {
            return Err(5);
        }
    }
    Ok(header)
}

/// "03 in 4: 33, to 3"; the inactivity limit does the same.
fn start_ending(unit: &mut Unit, lines: &mut Lines) {
    lines.line([0x33], &[]);
    unit.enter(ENDING);
}

/// "Tick: in 0 nothing; else elapsed grows by 1. At the limit: states 1, 2, 3
/// fall with 35 reason 2; state 4 gives 33, to 3."
fn tick(unit: &mut Unit, lines: &mut Lines) {
    if unit.state == IDLE {
        return;
    }
    unit.elapsed += 1; // a sound unit's is under its limit
    if unit.elapsed < limit(unit) {
        return;
    }
    match unit.state {
        ASSOCIATED => start_ending(unit, lines),
        _ => abort_and_fall(unit, TIMER, lines),
    }
}

/// "10 without a frame: 31 accepted, to 4 with those terms. With a valid
/// single frame: confirmation 0 gives 20, then 31 rejected; 1 gives 21, then
/// 31 rejected with an acknowledgement; stay in 0. Any other valid frame: 35
/// reason 10. Faulty: 35 with the fault. Both stay in 0 with no line 24."
fn asked(unit: &mut Unit, terms: Terms, frame: &[u8], lines: &mut Lines) {
    if frame.is_empty() {
        lines.line([0x31, ACCEPTED], &[]);
        unit.agree(terms);
        unit.enter(ASSOCIATED);
        return;
    }
    let (header, extensions) = match frame::read(frame) {
        Ok(answer) => answer,
        Err(fault) => return lines.line([0x35, fault], &[]),
    };
    lines.extensions_seen(extensions);
    match (header.multi_shot, header.confirmation) {
        (false, UNCONFIRMED_REQ) => {
            lines.indication(0x20, terms, frame, &header);
            lines.line([0x31, REJECTED], &[]);
        }
        (false, CONFIRMED_REQ) => {
            lines.indication(0x21, terms, frame, &header);
            lines.acknowledgement([0x31, REJECTED], unit, frame, &header);
        }
        _ => lines.line([0x35, NOT_EXPECTED], &[]),
    }
}

/// "11 in 1: rejected, to 0; if waiting, a valid frame gives 22 with 0 for
/// confirmedOk, else 1; an absent or faulty frame gives 22 uncertain. If
/// nobody waits the frame isn't read. Accepted: fall with 35 reason 10, the
/// frame unread."
fn single_answered(unit: &mut Unit, result: u8, frame: &[u8], lines: &mut Lines) {
    if result == ACCEPTED {
        return abort_and_fall(unit, NOT_EXPECTED, lines);
    }
    if unit.count != 0 {
        // An absent frame has no octets, and reads as faulty.
        match frame::read(frame) {
            Ok((header, extensions)) => {
                lines.extensions_seen(extensions);
                lines.confirmation(frame, &header);
            }
            Err(_) => answer_all(unit, UNCERTAIN, lines),
        }
    }
    unit.rest();
}

/// "11 in 2: accepted without a frame sends the kept frame by 32, to 4; with
/// octets present, unread, fall with 35 reason 10. Rejected: any waiting
/// identifier answered failed, line 24 reason 3, to 0; the frame isn't read."
fn multi_answered(unit: &mut Unit, result: u8, frame: &[u8], lines: &mut Lines) {
    if result == REJECTED {
        answer_all(unit, FAILED, lines);
        lines.line([0x24, WAS_REJECTED], &[]);
        return unit.rest();
    }
    if !frame.is_empty() {
        return abort_and_fall(unit, NOT_EXPECTED, lines);
    }
    lines.line([0x32], &unit.kept[..unit.octets]);
    unit.drop_kept();
    unit.enter(ASSOCIATED);
}

/// "12 in 3 or 4: a faulty frame makes a fall with 35. Otherwise elapsed 0 in
/// state 4, unchanged in 3. Confirmation 0 gives 20; 1 gives 21, then in
/// state 4 only an acknowledgement by 32; 2 to 4 give 22 if the reference is
/// waiting (0 for confirmedOk, else 1), else nothing."
fn data(unit: &mut Unit, frame: &[u8], lines: &mut Lines) {
    let (header, extensions) = match frame::read(frame) {
        Ok(answer) => answer,
        Err(fault) => return abort_and_fall(unit, fault, lines),
    };
    lines.extensions_seen(extensions);
    if unit.state == ASSOCIATED {
        unit.elapsed = 0;
    }
    match header.confirmation {
        UNCONFIRMED_REQ => lines.indication(0x20, unit.terms(), frame, &header),
        CONFIRMED_REQ => {
            lines.indication(0x21, unit.terms(), frame, &header);
            if unit.state == ASSOCIATED {
                lines.acknowledgement([0x32], unit, frame, &header);
            }
        }
        _ => {
            let reference = header.reference_of(frame);
            if let Some(place) = reference.and_then(|waited| unit.place_of(waited)) {
                lines.confirmation(frame, &header);
                unit.close_up(place);
            }
        }
    }
}

/// "13: 34 accepted, all waiting answered uncertain, 23, to 0."
fn peer_ends(unit: &mut Unit, lines: &mut Lines) {
    lines.line([0x34, ACCEPTED], &[]);
    answer_all(unit, UNCERTAIN, lines);
    lines.line([0x23], &[]);
    unit.rest();
}

/// "14 accepted: all waiting answered uncertain, to 0. 14 rejected: to 4."
fn end_answered(unit: &mut Unit, result: u8, lines: &mut Lines) {
    if result == REJECTED {
        return unit.enter(ASSOCIATED);
    }
    answer_all(unit, UNCERTAIN, lines);
    unit.rest();
}

/// A fall with 35: "A fall is 35 if named, then ...".
#[cold]
fn abort_and_fall(unit: &mut Unit, reason: u8, lines: &mut Lines) {
    lines.line([0x35, reason], &[]);
    fall(unit, reason, lines);
}

/// "... then every waiting identifier answered uncertain in sending order,
/// then 24 with the reason, to 0." Alone it is "15, 16: fall without 35,
/// reason 0 or 1."
fn fall(unit: &mut Unit, reason: u8, lines: &mut Lines) {
    answer_all(unit, UNCERTAIN, lines);
    lines.line([0x24, reason], &[]);
    unit.rest();
}

/// "An answer made locally has the name, the waiting identifier as reference,
/// multiShot single in state 1 and else maintained, and confirmedNotOk
/// (failed) or confirmedUnknown (uncertain)." The caller clears the list.
fn answer_all(unit: &Unit, result: u8, lines: &mut Lines) {
    let confirmation = if result == FAILED {
        CONFIRMED_NOT_OK
    } else {
        CONFIRMED_UNKNOWN
    };
    for &identifier in &unit.waiting[..unit.count] {
        let answer = Parts {
            multi_shot: unit.state != START_SINGLE,
            confirmation,
            reference: Some(identifier),
            sender: Some(unit.called()),
            ..Parts::default()
        };
        lines.made([0x22, result], &answer);
    }
}

impl Unit {
    #[inline]
    fn called(&self) -> &[u8] {
        &self.name[..self.letters]
    }

    #[inline]
    fn terms(&self) -> Terms {
        Terms {
            class: self.class,
            priority: self.priority,
            rer: self.rer,
        }
    }

    #[inline]
    fn agree(&mut self, terms: Terms) {
        self.class = terms.class;
        self.priority = terms.priority;
        self.rer = terms.rer;
    }

    #[inline]
    fn place_of(&self, identifier: u16) -> Option<usize> {
        self.waiting[..self.count]
            .iter()
            .position(|&waits| waits == identifier)
    }

    /// One place removed and the rest closed up, so the order stays.
    #[inline]
    fn close_up(&mut self, place: usize) {
        self.waiting.copy_within(place + 1..self.count, place);
        self.count -= 1;
        self.waiting[self.count] = 0;
    }

    #[inline]
    fn drop_kept(&mut self) {
        self.kept[..self.octets].fill(0);
        self.octets = 0;
    }

    /// "Each change of state sets elapsed to 0."
    #[inline]
    fn enter(&mut self, state: u8) {
        self.state = state;
        self.elapsed = 0;
    }

    /// To 0: "A field that the state doesn't use is 0 or empty."
    #[inline]
    fn rest(&mut self) {
        self.waiting = [0; PLACES];
        self.count = 0;
        self.drop_kept();
        self.agree(Terms {
            class: 0,
            priority: 0,
            rer: 0,
        });
        self.enter(IDLE);
    }
}

/// "A lent buffer receives each line as a 2-octet length and its octets;
/// octets after the used part stay." The longest turn is 25, 21 with a
/// 554-octet frame and 31 or 32 with an acknowledgement: under 1,024 octets.
struct Lines<'a> {
    out: &'a mut [u8; LENT],
    count: usize,
    used: usize,
}

impl Lines<'_> {
    /// One line: `head` (its kind and fixed part), then what `body` puts into
    /// the room it is lent, which says how many octets those are.
    #[inline(always)]
    fn push<const N: usize>(&mut self, head: [u8; N], body: impl FnOnce(&mut [u8]) -> usize) {
        let room = &mut self.out[self.used..];
        room[2..2 + N].copy_from_slice(&head);
        let length = N + body(&mut room[2 + N..]);
        room[..2].copy_from_slice(&(length as u16).to_be_bytes());
        self.used += 2 + length;
        self.count += 1;
    }

    /// A line that ends with a whole frame as it is, or with nothing.
    #[inline]
    fn line<const N: usize>(&mut self, head: [u8; N], frame: &[u8]) {
        self.push(head, |room| {
            room[..frame.len()].copy_from_slice(frame);
            frame.len()
        });
    }

    /// A line that ends with a frame made here.
    #[inline]
    fn made<const N: usize>(&mut self, head: [u8; N], parts: &Parts) {
        self.push(head, |room| frame::put(parts, room));
    }

    /// "Line 25 comes first whenever a valid frame with extensions was read."
    #[inline]
    fn extensions_seen(&mut self, extensions: usize) {
        if extensions != 0 {
            let [high, low] = (extensions as u16).to_be_bytes();
            self.line([0x25, high, low], &[]);
        }
    }

    /// "20 transfer indication and 21 confirmed transfer indication (terms,
    /// frame without extensions)".
    #[inline]
    fn indication(&mut self, kind: u8, terms: Terms, frame: &[u8], header: &Header) {
        self.push([kind, terms.class, terms.priority, terms.rer], |room| {
            frame::put_stripped(frame, header, room)
        });
    }

    /// Line 22 with a received frame: "0 for confirmedOk, else 1".
    #[inline]
    fn confirmation(&mut self, frame: &[u8], header: &Header) {
        let result = if header.confirmation == CONFIRMED_OK {
            SUCCESSFUL
        } else {
            FAILED
        };
        self.push([0x22, result], |room| {
            frame::put_stripped(frame, header, room)
        });
    }

    /// "An acknowledgement frame has the received type if present and
    /// multiShot bit, the received identifier as reference, confirmedOk, the
    /// unit's name as sender."
    #[inline]
    fn acknowledgement<const N: usize>(
        &mut self,
        head: [u8; N],
        unit: &Unit,
        frame: &[u8],
        header: &Header,
    ) {
        let acknowledgement = Parts {
            multi_shot: header.multi_shot,
            confirmation: CONFIRMED_OK,
            message_type: header.type_of(frame),
            reference: header.identifier_of(frame),
            sender: Some(unit.called()),
            ..Parts::default()
        };
        self.made(head, &acknowledgement);
    }
}
