//! "The message frame".

mod common;

use common::{hex, octets, Numbers};
use reference::frame::{message, read, strip, write, Message, Parts};

fn fault(frame: &str) -> u8 {
    read(&octets(frame)).expect_err(frame)
}

fn valid(frame: &str) -> (Message, usize) {
    let frame = octets(frame);
    let (header, extensions) = read(&frame).expect("valid");
    (message(&frame, &header), extensions)
}

/// The table at the end of 01.
#[test]
fn table_of_01() {
    let (plain, extensions) = valid("0000");
    assert_eq!((plain.user_data, extensions), (None, 0));
    assert_eq!(fault("0005"), 13);
    assert_eq!(fault("00"), 12);
    assert_eq!(fault(""), 12);
    assert_eq!(fault("0001"), 15);
    assert_eq!(fault("000000"), 16);
    assert_eq!(valid("04000000").0.user_data, Some(vec![]));
    assert_eq!(fault("8000"), 12);
    assert_eq!(fault("800000"), 13);
    assert_eq!(valid("80000100").1, 1);
    assert_eq!(fault("04000200"), 12);
    assert_eq!(fault("04000201"), 14);
}

#[test]
fn every_field_is_read() {
    let (all, extensions) = valid("fd 02 07 0000 1234 02 4139 0003 616263 ff02aabb 0100 ff00");
    let whole = Message {
        multi_shot: true,
        confirmation: 2,
        message_type: Some(7),
        identifier: Some(0),
        reference: Some(0x1234),
        sender: Some(b"A9".to_vec()),
        user_data: Some(b"abc".to_vec()),
    };
    assert_eq!((all, extensions), (whole, 3));
}

/// "can show the user data as the very octets of the received event".
#[test]
fn user_data_is_not_copied() {
    let frame = octets("0500 0002 4f4b");
    let (header, _) = read(&frame).unwrap();
    let data = header.user_data_of(&frame).unwrap();
    assert_eq!(data.as_ptr(), frame[4..].as_ptr());
    assert_eq!(data, b"OK");
}

/// "Reading is left to right and the first fault is the answer, but 11 is
/// tested first and 15 straight after octet 1."
#[test]
fn first_fault_is_the_answer() {
    assert_eq!(read(&[0xff; 1025]), Err(11));
    assert_eq!(read(&[]), Err(12));
    assert_eq!(fault("02"), 13); // bit 1, octet 1 missing
    assert_eq!(fault("0300"), 13);
    assert_eq!(fault("2006"), 13); // before the identifier is missed
    assert_eq!(fault("1802"), 12); // both needed fields marked, then missing
    assert_eq!(fault("4001"), 15); // before the type is missed
    assert_eq!(fault("0801"), 15);
    assert_eq!(fault("1002 0001"), 15);
    assert_eq!(fault("0803 0141"), 15);
    assert_eq!(fault("0004"), 15);
    assert_eq!(fault("4000"), 12);
    assert_eq!(fault("2000 00"), 12);
    assert_eq!(fault("1000 00"), 12);
    assert_eq!(fault("0800"), 12);
    assert_eq!(fault("0800 00"), 14);
    assert_eq!(fault("0800 21"), 14);
    assert_eq!(fault("0800 20"), 12);
    assert_eq!(fault("0800 02 41"), 12);
    assert_eq!(fault("0400"), 12);
    assert_eq!(fault("0400 03"), 12); // the length itself isn't complete
    assert_eq!(fault("0c00 00 ffff"), 14); // the sender first
}

#[test]
fn extension_fields() {
    assert_eq!(fault("8000 01"), 12);
    assert_eq!(fault("8000 0101"), 12);
    assert_eq!(fault("8000 0100 00"), 13);
    assert_eq!(fault("8000 0100 02"), 12);
    assert_eq!(fault("8000 01 02 00"), 12);
    assert_eq!(valid("8000 01 02 0000").1, 1);
    let mut most = vec![0x80, 0x00];
    most.extend([0x01, 0x00].repeat(511));
    assert_eq!(read(&most).unwrap().1, 511);
    most.push(0x01);
    assert_eq!(read(&most), Err(11));
}

#[test]
fn longest_edition_1_frame() {
    let parts = Parts {
        multi_shot: true,
        confirmation: 4,
        message_type: Some(0),
        identifier: Some(0),
        reference: Some(65535),
        sender: Some(&[0x41; 32]),
        user_data: Some(&[0x42; 512]),
    };
    let mut out = [0xa5; 1024];
    assert_eq!(write(&parts, &mut out), Ok(554));
    let (header, extensions) = read(&out[..554]).unwrap();
    assert_eq!((message(&out, &header).parts(), extensions), (parts, 0));
    assert!(out[554..].iter().all(|o| *o == 0xa5));
}

/// "The writer refuses with 6, then 13 (confirmation above 4), 15, 14".
#[test]
fn writer_refuses_in_order() {
    let long = Some(&[0x41u8; 513][..]);
    let cases = [
        (1023, 5, None, long, 6),
        (1024, 5, None, long, 13),
        (1024, 2, None, long, 15),
        (1024, 1, None, long, 15),
        (1024, 0, None, long, 14),
        (1024, 0, Some(&[0x41u8; 33][..]), None, 14),
        (1024, 0, Some(&[][..]), None, 14),
    ];
    for (room, confirmation, sender, user_data, refusal) in cases {
        let mut out = vec![0xa5; room];
        let parts = Parts {
            confirmation,
            sender,
            user_data,
            ..Parts::default()
        };
        assert_eq!(write(&parts, &mut out), Err(refusal));
        assert!(out.iter().all(|o| *o == 0xa5));
    }
}

#[test]
fn strip_drops_extensions() {
    let mut out = [0xa5; 1024];
    let frame = octets("c1 00 09 0102aabb 0200");
    assert_eq!(strip(&frame, &mut out), Ok(3));
    assert_eq!(hex(&out[..4]), "410009a5");
    let mut out = [0xa5; 1024];
    assert_eq!(strip(&[0x00], &mut out), Err(12));
    assert_eq!(strip(&[0x00], &mut out[..1023]), Err(6));
    assert!(out.iter().all(|o| *o == 0xa5));
}

/// A second reader, plain and slow: it takes octets off the front.
struct Front(Vec<u8>);

impl Front {
    fn take(&mut self, count: usize) -> Result<Vec<u8>, u8> {
        if self.0.len() < count {
            return Err(12);
        }
        Ok(self.0.drain(..count).collect())
    }

    fn number(&mut self) -> Result<u16, u8> {
        let two = self.take(2)?;
        Ok(u16::from(two[0]) * 256 + u16::from(two[1]))
    }

    fn bounded(&mut self, length: usize, least: usize, most: usize) -> Result<Vec<u8>, u8> {
        if length < least || length > most {
            return Err(14);
        }
        self.take(length)
    }
}

fn slow_read(frame: &[u8]) -> Result<(Message, usize), u8> {
    if frame.len() > 1024 {
        return Err(11);
    }
    let mut front = Front(frame.to_vec());
    let flags = front.take(1)?[0];
    if flags & 2 == 2 {
        return Err(13);
    }
    let confirmation = front.take(1)?[0];
    let needed = *[0x00, 0x20, 0x18, 0x18, 0x18]
        .get(usize::from(confirmation))
        .ok_or(13)?;
    if flags & needed != needed {
        return Err(15);
    }
    let mut whole = Message {
        multi_shot: flags & 1 == 1,
        confirmation,
        message_type: None,
        identifier: None,
        reference: None,
        sender: None,
        user_data: None,
    };
    slow_fields(&mut front, flags, &mut whole)?;
    Ok((whole, slow_rest(&mut front, flags)?))
}

fn slow_fields(front: &mut Front, flags: u8, whole: &mut Message) -> Result<(), u8> {
    if flags & 0x40 != 0 {
        whole.message_type = Some(front.take(1)?[0]);
    }
    if flags & 0x20 != 0 {
        whole.identifier = Some(front.number()?);
    }
    if flags & 0x10 != 0 {
        whole.reference = Some(front.number()?);
    }
    if flags & 0x08 != 0 {
        let length = front.take(1)?[0];
        whole.sender = Some(front.bounded(length.into(), 1, 32)?);
    }
    if flags & 0x04 != 0 {
        let length = front.number()?;
        whole.user_data = Some(front.bounded(length.into(), 0, 512)?);
    }
    Ok(())
}

fn slow_rest(front: &mut Front, flags: u8) -> Result<usize, u8> {
    if flags & 0x80 == 0 {
        return if front.0.is_empty() { Ok(0) } else { Err(16) };
    }
    let mut count = 0;
    while count == 0 || !front.0.is_empty() {
        if front.take(1)?[0] == 0 {
            return Err(13);
        }
        let length = front.take(1)?[0];
        front.take(length.into())?;
        count += 1;
    }
    Ok(count)
}

fn compare(frame: &[u8]) {
    let fast = read(frame);
    let fast = fast.map(|(header, extensions)| (message(frame, &header), extensions));
    assert_eq!(fast, slow_read(frame), "{}", hex(frame));
    if let Ok((whole, _)) = fast {
        let (mut written, mut stripped) = ([0; 1024], [0; 1024]);
        let length = write(&whole.parts(), &mut written).unwrap();
        assert_eq!(strip(frame, &mut stripped), Ok(length));
        assert_eq!(written, stripped);
        assert!(length <= 554);
    }
}

/// All frames over a small alphabet after every octet 0, up to five octets.
#[test]
fn both_readers_agree_on_short_frames() {
    const ALPHABET: [u8; 8] = [0, 1, 2, 3, 4, 5, 0x20, 0x21];
    for flags in 0..=255u8 {
        for length in 0..=4u32 {
            for code in 0..8u32.pow(length) {
                let mut frame = vec![flags];
                frame.extend((0..length).map(|i| ALPHABET[(code >> (3 * i)) as usize & 7]));
                compare(&frame);
            }
        }
    }
}

/// Long frames: well formed, then cut, lengthened or with one octet changed.
#[test]
fn both_readers_agree_on_long_frames() {
    let mut numbers = Numbers(0x9e37_79b9_7f4a_7c15);
    for _ in 0..100_000 {
        let mut frame = common_frame(&mut numbers);
        match numbers.below(4) {
            0 => frame.truncate(numbers.below(frame.len() + 1)),
            1 => frame.extend(vec![1; numbers.below(700)]),
            2 => {
                let at = numbers.below(frame.len());
                frame[at] = numbers.next() as u8;
            }
            _ => {}
        }
        compare(&frame);
    }
}

fn common_frame(numbers: &mut Numbers) -> Vec<u8> {
    let sender = vec![0x41; numbers.below(34)];
    let data = vec![0x42; numbers.below(514)];
    let flags = numbers.next() as u8 & 0xfd;
    let mut frame = vec![flags, numbers.below(6) as u8];
    let fixed = [(0x40, 1), (0x20, 2), (0x10, 2)];
    for (bit, width) in fixed {
        if flags & bit != 0 {
            frame.extend(vec![numbers.next() as u8; width]);
        }
    }
    if flags & 0x08 != 0 {
        frame.push(sender.len() as u8);
        frame.extend(&sender);
    }
    if flags & 0x04 != 0 {
        frame.extend((data.len() as u16).to_be_bytes());
        frame.extend(&data);
    }
    if flags & 0x80 != 0 {
        for _ in 0..numbers.below(5) {
            let length = numbers.below(256);
            frame.extend([numbers.below(40) as u8, length as u8]);
            frame.extend(vec![0; length]);
        }
    }
    frame
}
