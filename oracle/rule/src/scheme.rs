//! The blur's scheme over three line passes, rows first, then columns.

/// One channel of a picture, row by row.
#[derive(Clone, Debug, PartialEq)]
pub struct Plane<T> {
    pub w: usize,
    pub h: usize,
    pub values: Vec<T>,
}

/// What halving, doubling and convolving do to a line.
pub trait Passes {
    type Value: Copy + Default;
    fn halve(&self, line: &[Self::Value]) -> Vec<Self::Value>;
    /// Doubling stops at the finer level's size.
    fn double(&self, line: &[Self::Value], finer: usize) -> Vec<Self::Value>;
    fn convolve(&self, line: &[Self::Value]) -> Vec<Self::Value>;
}

impl<T: Copy + Default> Plane<T> {
    pub fn rows(&self, pass: impl Fn(&[T]) -> Vec<T>) -> Plane<T> {
        let values: Vec<T> = self.values.chunks_exact(self.w).flat_map(pass).collect();
        Plane { w: values.len() / self.h, h: self.h, values }
    }

    fn turned(&self) -> Plane<T> {
        let place = |i: usize| i % self.h * self.w + i / self.h;
        let values = (0..self.values.len()).map(|i| self.values[place(i)]).collect();
        Plane { w: self.h, h: self.w, values }
    }

    pub fn columns(&self, pass: impl Fn(&[T]) -> Vec<T>) -> Plane<T> {
        self.turned().rows(pass).turned()
    }
}

/// A blur with n decimations halves, blurs with one decimation fewer, and doubles.
pub fn blur<P: Passes>(passes: &P, n: u32, plane: &Plane<P::Value>) -> Plane<P::Value> {
    if n == 0 {
        return plane.rows(|line| passes.convolve(line)).columns(|line| passes.convolve(line));
    }
    let halved = plane.rows(|line| passes.halve(line)).columns(|line| passes.halve(line));
    blur(passes, n - 1, &halved).rows(|line| passes.double(line, plane.w)).columns(|line| passes.double(line, plane.h))
}
