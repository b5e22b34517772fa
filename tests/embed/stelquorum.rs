//! The dialogue unit and the message frame for Rust, over target/staticlib/libembed.a: a safe wrapper of the four calls. The numbers are those of
//! stelquorum.h.

extern "C" {
    fn stelquorum_setup(
        image: *mut u8, image_length: usize, start: u16, end: u16, inactivity: u16, name: *const u8, name_length: usize,
    ) -> u32;
    fn stelquorum_event(
        image: *mut u8, image_length: usize, event: *const u8, event_length: usize, buffer: *mut u8, buffer_length: usize,
    ) -> u32;
    fn stelquorum_read(frame: *const u8, frame_length: usize, block: *mut u8, block_length: usize) -> u32;
    fn stelquorum_write(
        flags: u8, confirmation: u8, message_type: u8, identifier: u16, reference: u16, sender: *const u8, sender_length: usize, data: *const u8,
        data_length: usize, buffer: *mut u8, buffer_length: usize,
    ) -> u32;
}

/// Octets of an image, and octets that the lent buffer has at least.
pub const IMAGE: usize = 618;
pub const BUFFER: usize = 1024;

/// A refusal's number, as 01 has it.
#[derive(Clone, Copy, Debug, PartialEq, Eq)]
pub struct Refused(pub u8);

/// A unit, held as its image.
#[derive(Clone, PartialEq, Eq)]
pub struct Unit {
    image: [u8; IMAGE],
}

/// The lines of an event, in the lent buffer.
pub struct Lines<'a> {
    laid: &'a [u8],
}

fn answer(number: u32) -> Result<u32, Refused> {
    if number >= 0xffff_ff00 { Err(Refused((number - 0xffff_ff00) as u8)) } else { Ok(number) }
}

impl Unit {
    /// A new unit in Idle: its limits in ticks and its name. Refusal 7 where they are out of range.
    pub fn new(start: u16, end: u16, inactivity: u16, name: &[u8]) -> Result<Unit, Refused> {
        let mut image = [0; IMAGE];
        // SAFETY: each pointer and length are those of one slice; no call keeps a pointer.
        let number = unsafe { stelquorum_setup(image.as_mut_ptr(), IMAGE, start, end, inactivity, name.as_ptr(), name.len()) };
        answer(number).map(|_| Unit { image })
    }

    /// A unit that was stored as its image. Whether it is sound is tested at each event.
    pub fn from_image(image: [u8; IMAGE]) -> Unit {
        Unit { image }
    }

    pub fn image(&self) -> &[u8; IMAGE] {
        &self.image
    }

    /// 0 Idle, 1 Start-single, 2 Start-multi, 3 Ending, 4 Associated.
    pub fn state(&self) -> u8 {
        self.image[602]
    }

    /// One event: its lines, in the lent buffer. A refusal changes neither the unit nor the buffer.
    pub fn event<'a>(&mut self, event: &[u8], buffer: &'a mut [u8]) -> Result<Lines<'a>, Refused> {
        // SAFETY: each pointer and length are those of one slice, which do not overlap; no call keeps a pointer.
        let number = unsafe {
            stelquorum_event(self.image.as_mut_ptr(), IMAGE, event.as_ptr(), event.len(), buffer.as_mut_ptr(), buffer.len())
        };
        answer(number).map(|n| Lines { laid: &buffer[..(n % 65536) as usize] })
    }
}

impl<'a> Iterator for Lines<'a> {
    type Item = &'a [u8];

    fn next(&mut self) -> Option<&'a [u8]> {
        let (length, rest) = self.laid.split_first_chunk::<2>()?;
        let (line, rest) = rest.split_at(u16::from_be_bytes(*length) as usize);
        self.laid = rest;
        Some(line)
    }
}

/// A message, its octets lent: those of a frame that was read, or the caller's own.
#[derive(Clone, Copy, Debug, Default, PartialEq, Eq)]
pub struct Message<'a> {
    /// Maintained (multi-shot), or single.
    pub maintained: bool,
    /// 0 unconfirmedReq, 1 confirmedReq, 2 confirmedOk, 3 confirmedNotOk, 4 confirmedUnknown.
    pub confirmation: u8,
    pub message_type: Option<u8>,
    pub identifier: Option<u16>,
    pub reference: Option<u16>,
    pub sender: Option<&'a [u8]>,
    pub data: Option<&'a [u8]>,
}

/// The message of a frame, and how many extension fields follow it; or the frame's fault.
pub fn read(frame: &[u8]) -> Result<(Message<'_>, u16), Refused> {
    let mut block = [0; 26];
    // SAFETY: each pointer and length are those of one slice; no call keeps a pointer.
    answer(unsafe { stelquorum_read(frame.as_ptr(), frame.len(), block.as_mut_ptr(), block.len()) })?;
    let two = |i: usize| u16::from_be_bytes([block[i], block[i + 1]]);
    let field = |i: usize| match two(i) as usize {
        0 => None,
        place => Some(&frame[place..place + two(i + 2) as usize]),
    };
    let number = |i: usize| field(i).map(|s| u16::from_be_bytes([s[0], s[1]]));
    let message = Message {
        maintained: block[0] == 1,
        confirmation: block[1],
        message_type: field(2).map(|s| s[0]),
        identifier: number(6),
        reference: number(10),
        sender: field(14),
        data: field(18),
    };
    Ok((message, two(24)))
}

/// Writes a message as an edition 1 frame at the front of the buffer; the octets that it takes.
pub fn write(m: &Message, buffer: &mut [u8]) -> Result<usize, Refused> {
    let bit = |present: bool, weight: u8| if present { weight } else { 0 };
    let flags = bit(m.message_type.is_some(), 0x40) | bit(m.identifier.is_some(), 0x20) | bit(m.reference.is_some(), 0x10)
        | bit(m.sender.is_some(), 0x08) | bit(m.data.is_some(), 0x04) | bit(m.maintained, 0x01);
    let (sender, data) = (m.sender.unwrap_or(&[]), m.data.unwrap_or(&[]));
    // SAFETY: each pointer and length are those of one slice, and the buffer is lent alone; no call keeps a pointer.
    let number = unsafe {
        stelquorum_write(
            flags, m.confirmation, m.message_type.unwrap_or(0), m.identifier.unwrap_or(0), m.reference.unwrap_or(0), sender.as_ptr(), sender.len(),
            data.as_ptr(), data.len(), buffer.as_mut_ptr(), buffer.len(),
        )
    };
    answer(number).map(|n| n as usize)
}
