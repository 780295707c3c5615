//! A stored vector, read from its line; oracle/NOTES.md has the format.
use corbelrush::Colour;

/// What a call lends, before it or after it.
#[derive(Clone, Debug, Default, PartialEq)]
pub struct Lent {
    pub list: Vec<u64>,
    pub bytes: Vec<u8>,
    pub other: Vec<u8>,
    pub scratch: Vec<u8>,
    pub copy: Vec<u8>,
}

pub struct Vector {
    pub entry: u32,
    pub w: u32,
    pub h: u32,
    pub n: u32,
    pub edge: u32,
    pub strength: f32,
    pub dx: f32,
    pub dy: f32,
    pub colour: Colour,
    pub composite: bool,
    pub x: u32,
    pub y: u32,
    pub unit: u32,
    pub sheet: u16,
    pub used: usize,
    pub place: u64,
    pub second: u64,
    pub answer: u32,
    pub out: [u64; 4],
    pub taps: Vec<u32>,
    pub before: Lent,
    pub after: Lent,
}

/// The numbers of a line, taken in order.
struct Numbers<'a>(std::str::SplitWhitespace<'a>);

impl Numbers<'_> {
    fn next<T: TryFrom<u64>>(&mut self) -> T {
        let number: u64 = self.0.next().expect("a number more").parse().expect("a number");
        T::try_from(number).ok().expect("a number of its kind")
    }

    fn float(&mut self) -> f32 {
        f32::from_bits(self.next())
    }

    fn some<T: TryFrom<u64>>(&mut self, count: usize) -> Vec<T> {
        (0..count).map(|_| self.next()).collect()
    }

    fn counted<T: TryFrom<u64>>(&mut self) -> Vec<T> {
        let count = self.next();
        self.some(count)
    }

    /// Before the call and after it.
    fn pair<T: TryFrom<u64> + Clone>(&mut self) -> (Vec<T>, Vec<T>) {
        let before: Vec<T> = self.counted();
        let after = if self.next::<u64>() == 1 { self.some(before.len()) } else { before.clone() };
        (before, after)
    }
}

/// A work buffer, before and after; so many first bytes of it are 0 then.
fn work(length: usize, zeroed: usize) -> (Vec<u8>, Vec<u8>) {
    let before: Vec<u8> = (0..length).map(|i| (i % 251) as u8 + 1).collect();
    let after = before.iter().enumerate().map(|(i, byte)| if i < zeroed { 0 } else { *byte }).collect();
    (before, after)
}

#[rustfmt::skip]
pub fn read(line: &str) -> Vector {
    let mut from = Numbers(line.split_whitespace());
    let [entry, w, h, n, edge] = [(); 5].map(|_| from.next());
    let [strength, dx, dy, red, green, blue, alpha] = [(); 7].map(|_| from.float());
    let [composite, x, y]: [u32; 3] = [(); 3].map(|_| from.next());
    let lengths: [usize; 2] = [(); 2].map(|_| from.next());
    let (unit, sheet, used, place, second) = (from.next(), from.next(), from.next(), from.next(), from.next());
    let answer = from.next();
    let [scratch, copy] = lengths.map(|length| work(length, from.next()));
    let (out, taps) = ([(); 4].map(|_| from.next()), from.counted());
    let (list, bytes, other) = (from.pair(), from.pair(), from.pair());
    assert!(from.0.next().is_none(), "a number too many");
    Vector {
        entry, w, h, n, edge, strength, dx, dy, x, y, unit, sheet, used, place, second, answer, out, taps,
        colour: Colour { red, green, blue, alpha },
        composite: composite != 0,
        before: Lent { list: list.0, bytes: bytes.0, other: other.0, scratch: scratch.0, copy: copy.0 },
        after: Lent { list: list.1, bytes: bytes.1, other: other.1, scratch: scratch.1, copy: copy.1 },
    }
}
