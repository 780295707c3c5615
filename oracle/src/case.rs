//! A case is one call of one entry; an outcome is its answer and all lent bytes afterwards.
use crate::library::Library;
use rule::mend::Change;
use rule::recipes::Step;
use rule::share::Point;
use std::fmt;

/// With the number that each has in stored vectors.
#[derive(Clone, Copy, Debug, PartialEq, Eq, PartialOrd, Ord)]
pub enum Entry {
    Blur = 1,
    Shift,
    Shadow,
    Check,
    View,
    Sample,
    Spread,
    PlatePicture,
    PlateJob,
    PlateStart,
    PlateAdd,
    PlateLabel,
    PamRead,
    PamWrite,
    Mend,
    Rebuild,
    BlurWhole,
    AreaBuild,
    AreaBox,
    AreaUpdate,
    ToPlanes,
    FromPlanes,
    BlurPlanes,
    ShiftPlanes,
    ShadowPlanes,
    Recipes,
    Share,
    Shares,
}

/// In the order in which they came, so that one more leaves the cases that are drawn for those before it.
pub const ENTRIES: [Entry; 28] = [
    Entry::Blur,
    Entry::Shift,
    Entry::Shadow,
    Entry::Check,
    Entry::View,
    Entry::Sample,
    Entry::Spread,
    Entry::PlatePicture,
    Entry::PlateJob,
    Entry::PlateStart,
    Entry::PlateAdd,
    Entry::PlateLabel,
    Entry::PamRead,
    Entry::PamWrite,
    Entry::Mend,
    Entry::Rebuild,
    Entry::BlurWhole,
    Entry::AreaBuild,
    Entry::AreaBox,
    Entry::AreaUpdate,
    Entry::Share,
    Entry::Shares,
    Entry::ToPlanes,
    Entry::FromPlanes,
    Entry::BlurPlanes,
    Entry::ShiftPlanes,
    Entry::ShadowPlanes,
    Entry::Recipes,
];

/// The entries of the first release.
pub const FIRST: &[Entry] = ENTRIES.split_at(9).0;

/// Whatever an entry does not take stays at its default.
#[derive(Clone, Debug, PartialEq)]
pub struct Case {
    pub entry: Entry,
    pub w: u32,
    pub h: u32,
    /// The picture, the plate, or the buffer that one of them is written in.
    pub picture: Vec<u8>,
    /// The lengths of the work buffers.
    pub scratch: usize,
    pub copy: usize,
    pub weights: Vec<f32>,
    /// Over 65536.
    pub numerators: Vec<u32>,
    pub n: u32,
    pub edge: u32,
    pub strength: f32,
    pub dx: f32,
    pub dy: f32,
    pub colour: [f32; 4],
    pub composite: u32,
    /// The coordinates of a sample; x is also the index of a plate's picture.
    pub x: i32,
    pub y: i32,
    /// A plate's version, or a picture's unit.
    pub unit: u32,
    pub sheet: u16,
    /// The length in use.
    pub used: u64,
    pub place: u64,
    pub second_place: u64,
    /// A lent list: each entry's fields one after the other; the recipes of a list.
    pub list: Vec<u64>,
    /// A second lent buffer with content.
    pub other: Vec<u8>,
}

#[derive(Clone, Debug, PartialEq)]
pub struct Outcome {
    pub answer: u32,
    pub picture: Vec<u8>,
    pub scratch: Vec<u8>,
    pub copy: Vec<u8>,
    pub list: Vec<u64>,
    pub other: Vec<u8>,
    /// The out-parameters in their order, those not taken 0.
    pub numbers: [u64; 4],
    /// A byte outside the lent buffers, or a lent weight, was changed.
    pub strayed: bool,
}

impl Case {
    pub fn new(entry: Entry, w: u32, h: u32, picture: Vec<u8>) -> Case {
        let length = picture.len();
        Case {
            entry,
            w,
            h,
            picture,
            scratch: length,
            copy: length,
            weights: Vec::new(),
            numerators: Vec::new(),
            n: 0,
            edge: 0,
            strength: 1.0,
            dx: 0.0,
            dy: 0.0,
            colour: [0.0, 0.0, 0.0, 1.0],
            composite: 0,
            x: 0,
            y: 0,
            unit: 0,
            sheet: 0,
            used: 0,
            place: 0,
            second_place: 0,
            list: Vec::new(),
            other: Vec::new(),
        }
    }

    /// A case with no work buffers.
    pub fn plain(entry: Entry, picture: Vec<u8>) -> Case {
        Case { scratch: 0, copy: 0, ..Case::new(entry, 0, 0, picture) }
    }

    /// The entry that does to a picture what this one does to its planes.
    pub fn on_picture(&self) -> Option<Entry> {
        match self.entry {
            Entry::BlurPlanes => Some(Entry::Blur),
            Entry::ShiftPlanes => Some(Entry::Shift),
            Entry::ShadowPlanes => Some(Entry::Shadow),
            _ => None,
        }
    }

    /// The entries that lay a picture's planes, or the picture of planes, over another buffer.
    pub fn converts(&self) -> bool {
        matches!(self.entry, Entry::ToPlanes | Entry::FromPlanes)
    }

    /// Of planes or not.
    pub fn casts(&self) -> bool {
        matches!(self.entry, Entry::Shadow | Entry::ShadowPlanes)
    }

    /// The entries that blur with an edge rule, n and a kernel of weights.
    pub fn blurs(&self) -> bool {
        self.casts() || matches!(self.entry, Entry::Blur | Entry::BlurPlanes)
    }

    /// The same, or with a kernel of numerators.
    pub fn convolves(&self) -> bool {
        self.blurs() || self.entry == Entry::BlurWhole
    }

    /// The entries that are lent a table of sums.
    pub fn is_area(&self) -> bool {
        matches!(self.entry, Entry::AreaBuild | Entry::AreaBox | Entry::AreaUpdate)
    }

    /// The entries that say which points made a pixel.
    pub fn traces(&self) -> bool {
        matches!(self.entry, Entry::Share | Entry::Shares)
    }

    /// The entries whose kernel is numerators.
    pub fn is_whole(&self) -> bool {
        self.traces() || self.entry == Entry::BlurWhole
    }

    /// How many bytes a word of the lent list has.
    fn word(&self) -> usize {
        if self.traces() {
            8
        } else {
            4
        }
    }

    /// How many taps a kernel of either kind has.
    pub fn taps(&self) -> usize {
        self.weights.len() + self.numerators.len()
    }

    pub fn shifts(&self) -> bool {
        self.casts() || matches!(self.entry, Entry::Shift | Entry::ShiftPlanes)
    }

    pub fn is_plate(&self) -> bool {
        let reads = matches!(self.entry, Entry::PlatePicture | Entry::PlateJob | Entry::PlateLabel);
        reads || matches!(self.entry, Entry::PlateStart | Entry::PlateAdd)
    }

    /// The lent bytes of a picture of w by h.
    pub fn pixels(&mut self) -> &mut Vec<u8> {
        if self.entry == Entry::PlateAdd {
            &mut self.other
        } else {
            &mut self.picture
        }
    }
}

/// What a work buffer holds before a call: never zero, and different from place to place.
pub fn work(i: usize) -> u8 {
    (i % 251) as u8 + 1
}

const GUARD: usize = 64;

/// A lent buffer between guard bytes.
struct Lent {
    bytes: Vec<u8>,
    from: usize,
    length: usize,
}

impl Lent {
    /// Begins at any alignment, by `turn`.
    fn new(content: impl ExactSizeIterator<Item = u8>, turn: usize) -> Lent {
        Lent::aligned(content, turn, 1)
    }

    /// A list of words of 4 or 8 bytes: begins at a multiple of them, which may be an odd one.
    fn list(words: &[u64], turn: usize, size: usize) -> Lent {
        let bytes: Vec<u8> = match size {
            4 => words.iter().flat_map(|word| (*word as u32).to_ne_bytes()).collect(),
            _ => words.iter().flat_map(|word| word.to_ne_bytes()).collect(),
        };
        Lent::aligned(bytes.into_iter(), turn, size)
    }

    fn aligned(content: impl ExactSizeIterator<Item = u8>, turn: usize, to: usize) -> Lent {
        let length = content.len();
        let mut bytes: Vec<u8> = Vec::with_capacity(2 * GUARD + 17 * to + length);
        let from = GUARD + bytes.as_ptr().wrapping_add(GUARD).align_offset(to) + turn % 16 * to;
        bytes.extend((0..from).map(work));
        bytes.extend(content);
        bytes.extend((from + length..from + length + GUARD).map(work));
        Lent { bytes, from, length }
    }

    /// One of length 0 has a null pointer, or one that may be touched.
    fn part(&mut self) -> Part {
        if self.length == 0 && self.from.is_multiple_of(2) {
            return Part::default();
        }
        // SAFETY: `from` lies inside.
        Part { at: unsafe { self.bytes.as_mut_ptr().add(self.from) }, length: self.length }
    }

    fn content(&self) -> Vec<u8> {
        self.bytes[self.from..self.from + self.length].to_vec()
    }

    fn words(&self, size: usize) -> Vec<u64> {
        let word = |bytes: &[u8]| match size {
            4 => u64::from(u32::from_ne_bytes(bytes.try_into().unwrap())),
            _ => u64::from_ne_bytes(bytes.try_into().unwrap()),
        };
        self.content().chunks_exact(size).map(word).collect()
    }

    fn strayed(&self) -> bool {
        let guard = |i: &usize| *i < self.from || *i >= self.from + self.length;
        (0..self.bytes.len()).filter(guard).any(|i| self.bytes[i] != work(i))
    }
}

/// A buffer as C has it.
#[derive(Clone, Copy)]
pub struct Part {
    at: *mut u8,
    length: usize,
}

impl Default for Part {
    fn default() -> Part {
        Part { at: std::ptr::null_mut(), length: 0 }
    }
}

/// All lent buffers, and the lent list.
#[derive(Clone, Copy, Default)]
pub struct Parts {
    pub picture: Part,
    pub scratch: Part,
    pub copy: Part,
    pub other: Part,
    pub list: Part,
}

impl From<&mut Vec<u8>> for Part {
    fn from(buffer: &mut Vec<u8>) -> Part {
        Part { at: buffer.as_mut_ptr(), length: buffer.len() }
    }
}

/// Calls the entry with every buffer between guard bytes.
pub fn run(library: &Library, case: &Case) -> Outcome {
    let turn = case.picture.len() / 4 + case.taps();
    let mut picture = Lent::new(case.picture.iter().copied(), turn);
    let mut scratch = Lent::new((0..case.scratch).map(work), turn / 3);
    let mut copy = Lent::new((0..case.copy).map(work), turn / 5);
    let mut other = Lent::new(case.other.iter().copied(), turn / 7);
    let mut list = Lent::list(&case.list, turn, case.word());
    let lent = case.clone();
    let parts = Parts {
        picture: picture.part(),
        scratch: scratch.part(),
        copy: copy.part(),
        other: other.part(),
        list: list.part(),
    };
    // SAFETY: no two buffers overlap.
    let (answer, numbers) = unsafe { call(library, &lent, parts) };
    let same_weights = lent.weights.iter().zip(&case.weights).all(|(a, b)| a.to_bits() == b.to_bits())
        && lent.numerators == case.numerators;
    Outcome {
        answer,
        picture: picture.content(),
        scratch: scratch.content(),
        copy: copy.content(),
        list: list.words(case.word()),
        other: other.content(),
        numbers,
        strayed: [picture, scratch, copy, other, list].iter().any(Lent::strayed) || !same_weights,
    }
}

/// What the out-parameters hold before a call.
const UNSET: u64 = 0xDEAD_BEEF_DEAD_BEEF;

/// Calls the entry and answers its number and its out-parameters. The buffers must not overlap.
#[rustfmt::skip]
pub unsafe fn call(library: &Library, case: &Case, parts: Parts) -> (u32, [u64; 4]) {
    let Case { w, h, n, edge, dx, dy, strength, composite, x, y, unit, sheet, used, .. } = *case;
    let (Part { at: p, length: p_len }, Part { at: s, length: s_len }) = (parts.picture, parts.scratch);
    let (Part { at: c, length: c_len }, Part { at: o, length: o_len }) = (parts.copy, parts.other);
    let (l, l_len) = (parts.list.at.cast::<Change>(), parts.list.length / size_of::<Change>());
    let (t, t_len) = (parts.list.at.cast::<u32>(), parts.list.length / size_of::<u32>());
    let (q, q_len) = (parts.list.at.cast::<Point>(), parts.list.length / size_of::<Point>());
    let (r, r_len) = (parts.list.at.cast::<Step>(), parts.list.length / size_of::<Step>());
    let (place, size) = (case.place, [case.place as u32, case.second_place as u32]);
    let [red, green, blue, alpha] = case.colour;
    let (k, k_len) = (case.weights.as_ptr(), case.weights.len());
    let (m, m_len) = (case.numerators.as_ptr(), case.numerators.len());
    let ([mut wide, mut high], [mut far, mut long], mut page) = ([UNSET as u32; 2], [UNSET; 2], UNSET as u16);
    let answer = match case.entry {
        Entry::Blur => (library.blur)(p, p_len, w, h, s, s_len, k, k_len, n, strength, edge),
        Entry::Shift => (library.shift)(p, p_len, w, h, dx, dy),
        Entry::Shadow => (library.shadow)(
            p, p_len, w, h, s, s_len, c, c_len, k, k_len, n, edge,
            dx, dy, strength, red, green, blue, alpha, composite,
        ),
        Entry::Check => (library.check)(p, p_len, w, h, &mut wide, &mut far),
        Entry::View => (library.view)(p, p_len, w, h, edge),
        Entry::Sample => (library.sample)(p, p_len, w, h, edge, x, y),
        Entry::Spread => (library.spread)(k, k_len, n, &mut far),
        Entry::PlatePicture => {
            (library.plate_picture)(p, p_len, x as u32, &mut wide, &mut high, &mut far, &mut long)
        }
        Entry::PlateJob => (library.plate_job)(p, p_len, s, s_len),
        Entry::PlateStart => (library.plate_start)(p, p_len, unit, &mut far),
        Entry::PlateAdd => (library.plate_add)(p, p_len, used, o, o_len, w, h, unit, sheet, &mut far),
        Entry::PlateLabel => (library.plate_label)(p, p_len, x as u32, &mut wide, &mut page),
        Entry::PamRead => (library.pam_read)(o, o_len, p, p_len, &mut wide, &mut high, &mut far),
        Entry::PamWrite => (library.pam_write)(p, p_len, w, h, o, o_len, &mut far, &mut long),
        Entry::Mend => (library.mend)(p, p_len, w, h, l, l_len, &mut far),
        Entry::Rebuild => (library.rebuild)(p, p_len, w, h, l, l_len),
        Entry::BlurWhole => (library.blur_whole)(p, p_len, w, h, s, s_len, m, m_len, n, edge),
        Entry::AreaBuild => (library.area_build)(p, p_len, w, h, t, t_len),
        Entry::AreaBox => (library.area_box)(t, t_len, w, h, x as u32, y as u32, size[0], size[1], &mut far),
        Entry::AreaUpdate => (library.area_update)(t, t_len, w, h, place, unit as u8, sheet as u8),
        Entry::ToPlanes => (library.to_planes)(p, p_len, w, h, o, o_len),
        Entry::FromPlanes => (library.from_planes)(p, p_len, w, h, o, o_len),
        Entry::BlurPlanes => (library.blur_planes)(p, p_len, w, h, s, s_len, k, k_len, n, strength, edge),
        Entry::ShiftPlanes => (library.shift_planes)(p, p_len, w, h, dx, dy),
        Entry::ShadowPlanes => (library.shadow_planes)(
            p, p_len, w, h, s, s_len, c, c_len, k, k_len, n, edge,
            dx, dy, strength, red, green, blue, alpha, composite,
        ),
        Entry::Recipes => {
            (library.recipes)(p, p_len, w, h, s, s_len, c, c_len, r, r_len, k, k_len, &mut far)
        }
        Entry::Share => (library.share)(w, h, m, m_len, n, edge, place, case.second_place, &mut far),
        Entry::Shares => (library.shares)(w, h, m, m_len, n, edge, place, q, q_len, &mut far),
    };
    let numbers = match case.entry {
        Entry::Check => [wide.into(), far, 0, 0],
        Entry::Spread | Entry::PlateStart | Entry::PlateAdd | Entry::Mend | Entry::AreaBox => [far, 0, 0, 0],
        Entry::Share | Entry::Shares | Entry::Recipes => [far, 0, 0, 0],
        Entry::PlatePicture => [wide.into(), high.into(), far, long],
        Entry::PlateLabel => [wide.into(), page.into(), 0, 0],
        Entry::PamRead => [wide.into(), high.into(), far, 0],
        Entry::PamWrite => [far, long, 0, 0],
        _ => [0; 4],
    };
    (answer, numbers)
}

/// Long lists are cut: a smallest input is short anyway.
fn list<T: fmt::Debug>(f: &mut fmt::Formatter, name: &str, values: &[T]) -> fmt::Result {
    let cut = if values.len() > 200 { " .." } else { "" };
    write!(f, " {name}({}) {:?}{cut}", values.len(), &values[..values.len().min(200)])
}

impl fmt::Display for Case {
    fn fmt(&self, f: &mut fmt::Formatter) -> fmt::Result {
        write!(f, "{:?} {} by {}", self.entry, self.w, self.h)?;
        if self.entry == Entry::Recipes {
            list(f, "table", &self.weights)?;
            list(f, "recipes", &crate::recipe_cases::steps(self))?;
        }
        if self.blurs() || self.entry == Entry::Spread {
            list(f, "weights", &self.weights)?;
            write!(f, " n {} strength {:?} edge {}", self.n, self.strength, self.edge)?;
        }
        if self.is_whole() {
            write!(f, " numerators {:?} n {} edge {}", self.numerators, self.n, self.edge)?;
        }
        if self.shifts() {
            write!(f, " dx {:?} dy {:?}", self.dx, self.dy)?;
        }
        match self.entry {
            Entry::Shadow | Entry::ShadowPlanes => write!(f, " colour {:?} composite {}", self.colour, self.composite)?,
            Entry::Sample => write!(f, " edge {} x {} y {}", self.edge, self.x, self.y)?,
            Entry::View => write!(f, " edge {}", self.edge)?,
            Entry::PlatePicture | Entry::PlateLabel => write!(f, " index {}", self.x as u32)?,
            Entry::AreaBox => {
                let Case { x, y, place, second_place, .. } = *self;
                write!(f, " x {} y {} wide {place} high {second_place}", x as u32, y as u32)?
            }
            Entry::AreaUpdate => write!(f, " place {} old {} new {}", self.place, self.unit, self.sheet)?,
            Entry::Share => write!(f, " out {} in {}", self.place, self.second_place)?,
            Entry::Shares => write!(f, " out {}", self.place)?,
            Entry::PlateStart => write!(f, " version {}", self.unit)?,
            Entry::PlateAdd => write!(f, " used {} unit {} sheet {}", self.used, self.unit, self.sheet)?,
            _ => (),
        }
        write!(f, " scratch {} copy {}", self.scratch, self.copy)?;
        list(f, "bytes", &self.picture)?;
        list(f, "other", &self.other)?;
        list(f, "list", &self.list)
    }
}
