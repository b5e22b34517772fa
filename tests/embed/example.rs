//! 01's session ("A session and its edges") through the static library; prints what the listing program prints. The load sheet's frame is written by
//! the frame's writer; of each confirmation the frame's reader says which message it names, on standard error.

#[allow(dead_code)]
#[path = "stelquorum.rs"]
mod stelquorum;

use stelquorum::{read, write, Message, Refused, Unit, BUFFER};

fn print(octets: &[u8]) {
    println!("{}", octets.iter().map(|x| format!("{x:02x}")).collect::<String>());
}

/// Of a confirmation, line 22: which message was answered, and how it went.
fn tell(line: &[u8]) {
    if let [0x22, how, frame @ ..] = line {
        if let Ok((Message { reference: Some(id), .. }, _)) = read(frame) {
            eprintln!("message {id}: {}", if *how == 0 { "delivered" } else { "not known to be delivered" });
        }
    }
}

/// A confirmed transfer of a text: its kind and terms, and the frame straight after them.
fn transfer(identifier: u16, text: &[u8]) -> Result<Vec<u8>, Refused> {
    let mut event = vec![0; 4 + BUFFER];
    event[..4].copy_from_slice(&[2, 2, 3, 0]);
    let sheet = Message { maintained: true, confirmation: 1, identifier: Some(identifier), data: Some(text), ..Message::default() };
    let octets = write(&sheet, &mut event[4..])?;
    event.truncate(4 + octets);
    Ok(event)
}

fn main() {
    let mut unit = match Unit::new(60, 60, 300, b"G1") {
        Ok(unit) => unit,
        Err(Refused(number)) => return print(&[0xff, number]),
    };
    print(&[0xf0, unit.state()]);
    let sheet = transfer(7, b"OK").expect("a text of two octets");
    let events: [&[u8]; 5] = [
        &sheet,
        b"\x11\x00",
        b"\x12\x19\x02\x00\x07\x02A9",
        b"\x03",
        b"\x14\x00",
    ];
    for event in events {
        let mut buffer = [0; BUFFER];
        match unit.event(event, &mut buffer) {
            Ok(lines) => lines.for_each(|line| {
                print(line);
                tell(line);
            }),
            Err(Refused(number)) => print(&[0xff, number]),
        }
        print(&[0xf0, unit.state()]);
    }
}
