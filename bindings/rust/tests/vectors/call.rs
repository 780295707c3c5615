//! A vector's call through the binding.
//!
//! What a vector hands over and the types do not allow, such as an edge number of 4, is refused when its value is made, and
//! no call follows. Its number is then the first, in the order of the entry's checks, of the refusals of all such values and
//! of a call that has a good value in their place.
use crate::stored::{Lent, Vector};
use corbelrush::*;

type Answered = Result<(), Refusal>;

/// What a call answers and leaves.
#[derive(Debug, PartialEq)]
pub struct Outcome {
    pub number: u32,
    pub out: [u64; 4],
    pub by: Lent,
}

/// A call in the making.
pub struct Call<'a> {
    v: &'a Vector,
    by: Lent,
    out: [u64; 4],
    refused: Vec<Refusal>,
    worker: Option<&'a mut Worker>,
}

/// The checks of an entry, in their order where that is not by number.
fn order(entry: u32) -> Vec<u32> {
    match entry {
        11 => vec![10, 1, 2, 13],
        14 => vec![1, 2, 16, 3],
        17 => vec![1, 2, 3, 4, 14, 6, 9],
        27 | 28 => vec![1, 4, 9, 21, 22, 14, 17],
        _ => (1..=22).collect(),
    }
}

/// A recipe of its 13 words.
fn recipe(words: &[u64]) -> Recipe {
    let [operation, kernel, taps, n, edge, composite] = [0, 1, 2, 3, 4, 5].map(|i| words[i] as u32);
    let [dx, dy, strength, red, green, blue, alpha] = [6, 7, 8, 9, 10, 11, 12].map(|i| f32::from_bits(words[i] as u32));
    Recipe { operation, kernel, taps, n, edge, composite, dx, dy, strength, red, green, blue, alpha }
}

fn number(answered: Answered) -> u32 {
    answered.err().map_or(0, Refusal::number)
}

impl<'a> Call<'a> {
    /// Makes the vector's call, with the worker's buffers in place of lent ones where there is one.
    pub fn outcome(v: &'a Vector, worker: Option<&'a mut Worker>) -> Outcome {
        let mut call = Call { v, by: v.before.clone(), out: [0; 4], refused: Vec::new(), worker };
        let answered = call.answered();
        if call.refused.is_empty() {
            return Outcome { number: number(answered), out: call.out, by: call.by };
        }
        let refused: Vec<u32> = call.refused.iter().chain(answered.as_ref().err()).map(|r| r.number()).collect();
        let first = order(v.entry).into_iter().find(|number| refused.contains(number)).unwrap();
        let out = if first == number(answered) { call.out } else { [0; 4] };
        Outcome { number: first, out, by: v.before.clone() }
    }

    /// A blur, a shift or a shadow as a list of one recipe: the same number and bytes as the single call's. Where a value is
    /// refused when it is made there is no such list.
    pub fn as_list(v: &'a Vector, worker: &'a mut Worker) -> Option<(u32, Vec<u8>)> {
        let mut call = Call { v, by: v.before.clone(), out: [0; 4], refused: Vec::new(), worker: None };
        let (size, edge) = (call.size(), call.edge());
        let good = Kernel::new(&[1.0]).unwrap();
        let kernel = if v.entry == 2 { good } else { call.or(Kernel::new(&call.weights()), good) };
        let blur = Blur { kernel: &kernel, decimations: v.n, strength: v.strength, edge };
        let recipe = match v.entry {
            1 => Recipe::blur(0, blur),
            2 => Recipe::shift(v.dx, v.dy),
            3 => Recipe::shadow(0, Shadow { blur, dx: v.dx, dy: v.dy, colour: v.colour, composite: v.composite }),
            _ => return None,
        };
        let answered = worker.recipes(&mut call.by.bytes, size, &[recipe], &[kernel.row()]).map_err(Refusal::from);
        call.refused.is_empty().then(|| (number(answered), call.by.bytes))
    }

    fn answered(&mut self) -> Answered {
        match self.v.entry {
            1 | 3 | 23 | 25 => self.weighed(),
            2 | 24 => {
                let (size, move_by) = (self.size(), if self.v.entry == 2 { shift } else { shift_planes });
                move_by(&mut self.by.bytes, size, self.v.dx, self.v.dy)
            }
            4..=7 => self.graded(),
            8..=12 => self.plated(),
            13 | 14 => self.filed(),
            15 | 16 => self.mended(),
            17 | 27 | 28 => self.counted(),
            18..=20 => self.summed(),
            21 | 22 => {
                let (size, convert) = (self.size(), if self.v.entry == 21 { to_planes } else { from_planes });
                convert(&self.by.bytes, size, &mut self.by.other)
            }
            26 => self.chained(),
            entry => panic!("no entry {entry}"),
        }
    }

    /// The value that was made, or a good one where it was refused.
    fn or<T>(&mut self, made: Result<T, Refusal>, good: T) -> T {
        made.unwrap_or_else(|refusal| {
            self.refused.push(refusal);
            good
        })
    }

    fn size(&mut self) -> Size {
        self.or(Size::new(self.v.w, self.v.h), Size::new(1, 1).unwrap())
    }

    fn edge(&mut self) -> EdgeMode {
        self.or(EdgeMode::try_from(self.v.edge), EdgeMode::Duplicate)
    }

    fn weights(&self) -> Vec<f32> {
        self.v.taps.iter().map(|bits| f32::from_bits(*bits)).collect()
    }

    /// A number that is answered beside 0.
    fn first(&mut self, answered: Result<u64, Refusal>) -> Answered {
        answered.map(|value| self.out[0] = value)
    }

    /// Blur and shadow, on a picture and on planes.
    fn weighed(&mut self) -> Answered {
        let (v, size, edge) = (self.v, self.size(), self.edge());
        let kernel = self.or(Kernel::new(&self.weights()), Kernel::new(&[1.0]).unwrap());
        let how = Blur { kernel: &kernel, decimations: v.n, strength: v.strength, edge };
        let cast = Shadow { blur: how, dx: v.dx, dy: v.dy, colour: v.colour, composite: v.composite };
        let Lent { bytes, scratch, copy, .. } = &mut self.by;
        match (v.entry, &mut self.worker) {
            (1, None) => blur(bytes, size, scratch, how),
            (1, Some(worker)) => worker.blur(bytes, size, how),
            (3, None) => shadow(bytes, size, scratch, copy, cast),
            (3, Some(worker)) => worker.shadow(bytes, size, cast),
            (23, None) => blur_planes(bytes, size, scratch, how),
            (23, Some(worker)) => worker.blur_planes(bytes, size, how),
            (_, None) => shadow_planes(bytes, size, scratch, copy, cast),
            (_, Some(worker)) => worker.shadow_planes(bytes, size, cast),
        }
    }

    /// A list of recipes. A rest of the table that is shorter than a kernel is none.
    fn chained(&mut self) -> Answered {
        let (size, weights) = (self.size(), self.weights());
        let table: Vec<[f32; MAX_TAPS]> = weights.chunks_exact(MAX_TAPS).map(|row| row.try_into().unwrap()).collect();
        let list: Vec<Recipe> = self.by.list.chunks_exact(13).map(recipe).collect();
        let Lent { bytes, scratch, copy, .. } = &mut self.by;
        let answered = match &mut self.worker {
            None => recipes(bytes, size, scratch, copy, &list, &table),
            Some(worker) => worker.recipes(bytes, size, &list, &table),
        };
        self.out[0] = answered.err().map_or(0, |placed| placed.at);
        answered.map_err(Refusal::from)
    }

    /// Check, view, sample and spread.
    fn graded(&mut self) -> Answered {
        let v = self.v;
        if v.entry == 7 {
            let spread = spread(&self.weights(), v.n);
            return self.first(spread);
        }
        let size = self.size();
        if v.entry == 4 {
            let found = check(&self.by.bytes, size)?;
            self.out = found.map_or([0; 4], |place| [1, place, 0, 0]);
            return Ok(());
        }
        let edge = self.edge();
        let view = View::new(&self.by.bytes, size, edge)?;
        if v.entry == 6 {
            self.out[0] = u32::from_le_bytes(view.sample(v.x as i32, v.y as i32)).into();
        }
        Ok(())
    }

    /// Plates. Every wrong unit is as good as none.
    fn plated(&mut self) -> Answered {
        let v = self.v;
        match (v.entry, &mut self.worker) {
            (8, _) => {
                let PlatePicture { size, range } = plate_picture(&self.by.bytes, v.x)?;
                self.out = [size.width().into(), size.height().into(), range.start as u64, range.len() as u64];
                Ok(())
            }
            (9, None) => plate_job(&mut self.by.bytes, &mut self.by.scratch),
            (9, Some(worker)) => worker.plate_job(&mut self.by.bytes),
            (10, _) => {
                let version = self.or(PlateVersion::try_from(v.unit), PlateVersion::One);
                let used = plate_start(&mut self.by.bytes, version);
                self.first(used.map(|used| used as u64))
            }
            (11, _) => {
                let size = self.size();
                let label = Unit::try_from(v.unit).ok().map(|unit| Label { unit, sheet: v.sheet });
                let used = plate_add(&mut self.by.bytes, v.used, &self.by.other, size, label);
                self.first(used.map(|used| used as u64))
            }
            _ => {
                let label = plate_label(&self.by.bytes, v.x)?;
                self.out = label.map_or([0; 4], |label| [label.unit as u64, label.sheet.into(), 0, 0]);
                Ok(())
            }
        }
    }

    /// Image files.
    fn filed(&mut self) -> Answered {
        if self.v.entry == 13 {
            let size = pam_read(&self.by.other, &mut self.by.bytes)?;
            self.out = [size.width().into(), size.height().into(), size.bytes() as u64, 0];
            return Ok(());
        }
        let size = self.size();
        let written = pam_write(&self.by.bytes, size, &mut self.by.other);
        self.out[1] = written.err().map_or(0, |placed| placed.at);
        self.first(written.map(|length| length as u64).map_err(Refusal::from))
    }

    /// The mender and the rebuilder.
    fn mended(&mut self) -> Answered {
        let size = self.size();
        let entry = |two: &[u64]| Change { place: two[0] as u32, pixel: two[1] as u32 };
        let mut changes: Vec<Change> = self.by.list.chunks_exact(2).map(entry).collect();
        if self.v.entry == 16 {
            return rebuild(&mut self.by.bytes, size, &changes);
        }
        let count = mend(&mut self.by.bytes, size, &mut changes);
        self.by.list = changes.iter().flat_map(|change| [change.place.into(), change.pixel.into()]).collect();
        self.first(count.map(|count| count as u64))
    }

    /// The blur in whole numbers, and shares.
    fn counted(&mut self) -> Answered {
        let (v, size, edge) = (self.v, self.size(), self.edge());
        let kernel = self.or(WholeKernel::new(&v.taps), WholeKernel::new(&[1]).unwrap());
        let how = WholeBlur { kernel: &kernel, decimations: v.n, edge };
        match (v.entry, &mut self.worker) {
            (17, None) => blur_whole(&mut self.by.bytes, size, &mut self.by.scratch, how),
            (17, Some(worker)) => worker.blur_whole(&mut self.by.bytes, size, how),
            (27, _) => {
                let share = share(size, how, v.place, v.second);
                self.first(share)
            }
            _ => {
                let entry = |two: &[u64]| Point { place: two[0], share: two[1] };
                let mut points: Vec<Point> = self.by.list.chunks_exact(2).map(entry).collect();
                let count = shares(size, how, v.place, &mut points);
                self.by.list = points.iter().flat_map(|point| [point.place, point.share]).collect();
                self.first(count.map(|count| count as u64))
            }
        }
    }

    /// Area sums.
    fn summed(&mut self) -> Answered {
        let (v, size) = (self.v, self.size());
        let mut table: Vec<u32> = self.by.list.iter().map(|word| *word as u32).collect();
        if v.entry == 19 {
            let region = Region { x: v.x, y: v.y, wide: v.place as u32, high: v.second as u32 };
            return self.first(area_box(&table, size, region));
        }
        let answered = match v.entry {
            18 => area_build(&self.by.bytes, size, &mut table),
            _ => area_update(&mut table, size, v.place, v.unit as u8, v.sheet as u8),
        };
        self.by.list = table.into_iter().map(u64::from).collect();
        answered
    }
}
