//! What the tests draw: numbers from a seed, and frames, most of them valid, some damaged.

/// Numbers drawn from a seed (xorshift): the same each time.
pub struct Draw(pub u64);

impl Draw {
    pub fn next(&mut self) -> u64 {
        self.0 ^= self.0 << 13;
        self.0 ^= self.0 >> 7;
        self.0 ^= self.0 << 17;
        self.0
    }
    pub fn under(&mut self, n: usize) -> usize {
        (self.next() >> 11) as usize % n
    }
    pub fn chance(&mut self, percent: usize) -> bool {
        self.under(100) < percent
    }
    pub fn of<T: Copy>(&mut self, from: &[T]) -> T {
        from[self.under(from.len())]
    }
    pub fn octets(&mut self, n: usize) -> Vec<u8> {
        (0..n).map(|_| self.next() as u8).collect()
    }
}

/// A frame with this confirmation; now and then one that 01 does not allow, cut short, or too long.
pub fn frame(d: &mut Draw, maintained: bool, confirmation: u8, ids: &[u16]) -> Vec<u8> {
    let (mut bits, mut f) = (maintained as u8, Vec::new());
    if d.chance(25) {
        bits |= 0x40;
        f.push(d.of(&[0, 5, 255]));
    }
    if d.chance(if confirmation == 1 { 98 } else { 20 }) {
        bits |= 0x20;
        f.extend(d.of(ids).to_be_bytes());
    }
    if d.chance(if confirmation > 1 { 98 } else { 20 }) {
        bits |= 0x10;
        f.extend(d.of(ids).to_be_bytes());
    }
    if d.chance(if confirmation > 1 { 98 } else { 20 }) {
        let n = if d.chance(97) { d.of(&[1, 2, 32]) } else { d.of(&[0, 33]) };
        bits |= 0x08;
        f.push(n as u8);
        f.extend(d.octets(n));
    }
    if d.chance(40) {
        let n = if d.chance(97) { d.of(&[0usize, 1, 2, 40, 512]) } else { 513 };
        bits |= 0x04;
        f.extend((n as u16).to_be_bytes());
        f.extend(d.octets(n));
    }
    if d.chance(15) {
        bits |= 0x80;
        for _ in 0..d.of(&[0, 1, 1, 2, 4]) {
            let n = d.of(&[0usize, 1, 2, 200]);
            f.push(if d.chance(97) { d.of(&[1, 2, 255]) } else { 0 });
            f.push(n as u8);
            f.extend(d.octets(n));
        }
    }
    if d.chance(1) {
        bits |= 0x02;
    }
    let mut s = vec![bits, if d.chance(99) { confirmation } else { d.of(&[5, 255]) }];
    s.extend(f);
    match d.under(100) {
        0 => s.truncate(d.under(s.len() + 1)),
        1 => s.extend([0, 1][..d.under(2) + 1].iter()),
        2 => s.resize(1025, 0),
        _ => (),
    }
    s
}
