//! "The message frame": reader, writer, and the frame without extensions.

use crate::LENT;
use std::ops::Range;

/// "An edition 1 frame has at most 554 octets".
pub const EDITION_1: usize = 554;
/// "any frame at most 1,024".
pub const LONGEST: usize = 1024;
/// "sender, a length octet 1..32 and its octets".
pub const SENDER: usize = 32;
/// "userData, a 2-octet length 0..512 and its octets".
pub const DATA: usize = 512;

/// "over 1,024 octets".
pub const TOO_LONG: u8 = 11;
/// "ends before a field is complete, empty frame included".
pub const CUT: u8 = 12;
/// "bit 1 of octet 0 set, confirmation above 4, or tag 0".
pub const BAD_VALUE: u8 = 13;
/// "sender length 0 or above 32, data length above 512".
pub const BAD_LENGTH: u8 = 14;
/// "a needed field is absent".
pub const ABSENT: u8 = 15;
/// "octets left over with bit 7 clear".
pub const LEFT_OVER: u8 = 16;

// "Octet 0, from bit 7: extensions follow; messageType present;
// messageIdentifier present; messageReference present; sender present;
// userData present; bit 1 zero; bit 0 multiShot".
const EXTENSIONS: u8 = 0x80;
const TYPE: u8 = 0x40;
const IDENTIFIER: u8 = 0x20;
const REFERENCE: u8 = 0x10;
const NAMED: u8 = 0x08;
const USER_DATA: u8 = 0x04;
const ZERO: u8 = 0x02;
const MULTI_SHOT: u8 = 0x01;

/// Where the fields of a valid frame lie; all places count from octet 0.
#[derive(Clone, Debug, PartialEq, Eq)]
pub struct Header {
    pub multi_shot: bool,
    pub confirmation: u8,
    pub message_type: Option<usize>,
    pub identifier: Option<usize>,
    pub reference: Option<usize>,
    pub sender: Option<Range<usize>>,
    pub user_data: Option<Range<usize>>,
    /// The end of the edition 1 fields: where extension fields begin, if any.
    pub end: usize,
}

/// A message with its own copy of every field.
#[derive(Clone, Debug, PartialEq, Eq)]
pub struct Message {
    pub multi_shot: bool,
    pub confirmation: u8,
    pub message_type: Option<u8>,
    pub identifier: Option<u16>,
    pub reference: Option<u16>,
    pub sender: Option<Vec<u8>>,
    pub user_data: Option<Vec<u8>>,
}

/// What the writer is given; nothing is owned.
#[derive(Clone, Copy, Debug, PartialEq, Eq, Default)]
pub struct Parts<'a> {
    pub multi_shot: bool,
    pub confirmation: u8,
    pub message_type: Option<u8>,
    pub identifier: Option<u16>,
    pub reference: Option<u16>,
    pub sender: Option<&'a [u8]>,
    pub user_data: Option<&'a [u8]>,
}

impl Message {
    /// The same message as the writer takes it.
    pub fn parts(&self) -> Parts<'_> {
        Parts {
            multi_shot: self.multi_shot,
            confirmation: self.confirmation,
            message_type: self.message_type,
            identifier: self.identifier,
            reference: self.reference,
            sender: self.sender.as_deref(),
            user_data: self.user_data.as_deref(),
        }
    }
}

/// These take the frame that the header was read from.
impl Header {
    #[inline]
    pub fn type_of(&self, frame: &[u8]) -> Option<u8> {
        self.message_type.map(|at| frame[at])
    }

    #[inline]
    pub fn identifier_of(&self, frame: &[u8]) -> Option<u16> {
        self.identifier.map(|at| number(frame, at))
    }

    #[inline]
    pub fn reference_of(&self, frame: &[u8]) -> Option<u16> {
        self.reference.map(|at| number(frame, at))
    }

    #[inline]
    pub fn sender_of<'a>(&self, frame: &'a [u8]) -> Option<&'a [u8]> {
        self.sender.clone().map(|place| &frame[place])
    }

    /// "can show the user data as the very octets of the received event".
    #[inline]
    pub fn user_data_of<'a>(&self, frame: &'a [u8]) -> Option<&'a [u8]> {
        self.user_data.clone().map(|place| &frame[place])
    }
}

/// "Numbers are big-endian."
#[inline]
fn number(frame: &[u8], at: usize) -> u16 {
    u16::from_be_bytes([frame[at], frame[at + 1]])
}

/// Reads a frame in place: its header and the number of its extension
/// fields, or its fault. "Reading is left to right and the first fault is the
/// answer, but 11 is tested first and 15 straight after octet 1." Always part
/// of the code that calls it: a header that is used on the spot is never put
/// together.
#[inline(always)]
pub fn read(frame: &[u8]) -> Result<(Header, usize), u8> {
    if frame.len() > LONGEST {
        return Err(TOO_LONG);
    }
    let (flags, confirmation) = opening(frame)?;
    // "Then the present fields in this order: type, 1 octet; identifier, 2;
    // reference, 2; sender [...]; userData".
    let mut at = 2;
    let message_type = fixed(frame, flags & TYPE != 0, 1, &mut at)?;
    let identifier = fixed(frame, flags & IDENTIFIER != 0, 2, &mut at)?;
    let reference = fixed(frame, flags & REFERENCE != 0, 2, &mut at)?;
    let sender = sender(frame, flags & NAMED != 0, &mut at)?;
    let user_data = user_data(frame, flags & USER_DATA != 0, &mut at)?;
    let extensions = rest(&frame[at..], flags & EXTENSIONS != 0)?;
    let header = Header {
        multi_shot: flags & MULTI_SHOT != 0,
        confirmation,
        message_type,
        identifier,
        reference,
        sender,
        user_data,
        end: at,
    };
    Ok((header, extensions))
}

/// Octets 0 and 1, and 15 "straight after octet 1".
#[inline]
fn opening(frame: &[u8]) -> Result<(u8, u8), u8> {
    let Some(&flags) = frame.first() else {
        return Err(CUT);
    };
    if flags & ZERO != 0 {
        return Err(BAD_VALUE);
    }
    let Some(&confirmation) = frame.get(1) else {
        return Err(CUT);
    };
    if confirmation > 4 {
        return Err(BAD_VALUE);
    }
    let has = |bit: u8| flags & bit != 0;
    if lacks(confirmation, has(IDENTIFIER), has(REFERENCE), has(NAMED)) {
        return Err(ABSENT);
    }
    Ok((flags, confirmation))
}

/// "Confirmation 1 needs an identifier; 2, 3 and 4 need a reference and a
/// sender."
#[inline]
fn lacks(confirmation: u8, identifier: bool, reference: bool, sender: bool) -> bool {
    match confirmation {
        0 => false,
        1 => !identifier,
        _ => !(reference && sender),
    }
}

/// A field of a fixed width: its place. `at` never passes the frame's end.
#[inline]
fn fixed(frame: &[u8], present: bool, width: usize, at: &mut usize) -> Result<Option<usize>, u8> {
    if !present {
        return Ok(None);
    }
    let place = span(frame, *at, width, at)?;
    Ok(Some(place.start))
}

/// "sender, a length octet 1..32 and its octets"; "A length out of range is
/// found before octets are missed."
#[inline(always)]
fn sender(frame: &[u8], present: bool, at: &mut usize) -> Result<Option<Range<usize>>, u8> {
    if !present {
        return Ok(None);
    }
    let place = span(frame, *at, 1, at)?;
    let length = usize::from(frame[place.start]);
    if length == 0 || length > SENDER {
        return Err(BAD_LENGTH);
    }
    span(frame, *at, length, at).map(Some)
}

/// "userData, a 2-octet length 0..512 and its octets"; "userData present with
/// length 0 is not userData absent".
#[inline(always)]
fn user_data(frame: &[u8], present: bool, at: &mut usize) -> Result<Option<Range<usize>>, u8> {
    if !present {
        return Ok(None);
    }
    let place = span(frame, *at, 2, at)?;
    let length = usize::from(number(frame, place.start));
    if length > DATA {
        return Err(BAD_LENGTH);
    }
    span(frame, *at, length, at).map(Some)
}

/// The next `length` octets from `start`, or 12.
#[inline]
fn span(frame: &[u8], start: usize, length: usize, at: &mut usize) -> Result<Range<usize>, u8> {
    let end = start + length;
    if end > frame.len() {
        return Err(CUT);
    }
    *at = end;
    Ok(start..end)
}

/// "With bit 7 set, one or more extension fields fill the rest (none at all
/// is 12): tag 1..255, length 0..255, octets. Tags may repeat." The answer is
/// how many there are; with bit 7 clear anything left is 16.
#[inline]
fn rest(octets: &[u8], follow: bool) -> Result<usize, u8> {
    if !follow {
        return if octets.is_empty() {
            Ok(0)
        } else {
            Err(LEFT_OVER)
        };
    }
    let (mut at, mut count) = (0, 0);
    loop {
        let Some(&tag) = octets.get(at) else {
            return Err(CUT);
        };
        if tag == 0 {
            return Err(BAD_VALUE);
        }
        let Some(&length) = octets.get(at + 1) else {
            return Err(CUT);
        };
        at += 2 + usize::from(length);
        count += 1;
        if at >= octets.len() {
            return if at == octets.len() {
                Ok(count)
            } else {
                Err(CUT)
            };
        }
    }
}

/// The whole message of a frame and the header read from it.
pub fn message(frame: &[u8], header: &Header) -> Message {
    Message {
        multi_shot: header.multi_shot,
        confirmation: header.confirmation,
        message_type: header.type_of(frame),
        identifier: header.identifier_of(frame),
        reference: header.reference_of(frame),
        sender: header.sender_of(frame).map(<[u8]>::to_vec),
        user_data: header.user_data_of(frame).map(<[u8]>::to_vec),
    }
}

/// "The writer refuses with 6, then 13 (confirmation above 4), 15, 14, and
/// otherwise writes an edition 1 frame." Gives its length; a refusal leaves
/// `out` as it was, and octets after the frame stay.
pub fn write(parts: &Parts, out: &mut [u8]) -> Result<usize, u8> {
    if out.len() < LENT {
        return Err(6);
    }
    if parts.confirmation > 4 {
        return Err(BAD_VALUE);
    }
    if lacks(
        parts.confirmation,
        parts.identifier.is_some(),
        parts.reference.is_some(),
        parts.sender.is_some(),
    ) {
        return Err(ABSENT);
    }
    if parts
        .sender
        .is_some_and(|s| s.is_empty() || s.len() > SENDER)
        || parts.user_data.is_some_and(|d| d.len() > DATA)
    {
        return Err(BAD_LENGTH);
    }
    Ok(put(parts, out))
}

/// Writes parts that are in range where there is room. "Fields of varying
/// length are written straight after what is already in the frame."
#[inline(always)]
pub(crate) fn put(parts: &Parts, out: &mut [u8]) -> usize {
    out[0] = flags(parts);
    out[1] = parts.confirmation;
    let mut end = 2;
    if let Some(message_type) = parts.message_type {
        end = append(out, end, &[message_type]);
    }
    if let Some(identifier) = parts.identifier {
        end = append(out, end, &identifier.to_be_bytes());
    }
    if let Some(reference) = parts.reference {
        end = append(out, end, &reference.to_be_bytes());
    }
    if let Some(sender) = parts.sender {
        end = append(out, end, &[sender.len() as u8]);
        end = append(out, end, sender);
    }
    if let Some(data) = parts.user_data {
        end = append(out, end, &(data.len() as u16).to_be_bytes());
        end = append(out, end, data);
    }
    end
}

/// Octet 0 of an edition 1 frame: bit 7 and bit 1 are clear.
#[inline]
fn flags(parts: &Parts) -> u8 {
    let bit = |present: bool, bit: u8| if present { bit } else { 0 };
    bit(parts.message_type.is_some(), TYPE)
        | bit(parts.identifier.is_some(), IDENTIFIER)
        | bit(parts.reference.is_some(), REFERENCE)
        | bit(parts.sender.is_some(), NAMED)
        | bit(parts.user_data.is_some(), USER_DATA)
        | bit(parts.multi_shot, MULTI_SHOT)
}

#[inline]
fn append(out: &mut [u8], at: usize, octets: &[u8]) -> usize {
    let end = at + octets.len();
    out[at..end].copy_from_slice(octets);
    end
}

/// Writes the received frame without its extensions: "a frame without
/// extensions has bit 7 clear". Refuses with 6 first, then the frame's fault.
pub fn strip(frame: &[u8], out: &mut [u8]) -> Result<usize, u8> {
    if out.len() < LENT {
        return Err(6);
    }
    let (header, _) = read(frame)?;
    Ok(put_stripped(frame, &header, out))
}

/// The octets of a frame that was read, up to its extensions, bit 7 cleared.
#[inline]
pub(crate) fn put_stripped(frame: &[u8], header: &Header, out: &mut [u8]) -> usize {
    let end = append(out, 0, &frame[..header.end]);
    out[0] &= !EXTENSIONS;
    end
}
