//! Work buffers that are kept between calls.
use crate::{Blur, Placed, Recipe, Refusal, Shadow, Size, WholeBlur, MAX_TAPS};

/// Work buffers that grow to the largest picture and are kept, so that a call allocates nothing once they have.
///
/// ```
/// use corbelrush::{Blur, EdgeMode, Kernel, Refusal, Size, Worker};
/// let kernel = Kernel::new(&[0.25, 0.5, 0.25])?;
/// let how = Blur { kernel: &kernel, decimations: 1, strength: 1.0, edge: EdgeMode::Wrap };
/// let mut worker = Worker::new();
/// for _ in 0..2 {
///     let mut picture = [0, 0, 0, 255, 0, 0, 0, 0, 0, 0, 0, 0];
///     worker.blur(&mut picture, Size::new(3, 1)?, how)?;
///     assert_eq!(picture, [0, 0, 0, 96, 0, 0, 0, 96, 0, 0, 0, 96]);
/// }
/// # Ok::<(), Refusal>(())
/// ```
#[derive(Clone, Debug, Default)]
pub struct Worker {
    scratch: Vec<u8>,
    copy: Vec<u8>,
}

/// At least so many bytes of a buffer.
fn room(buffer: &mut Vec<u8>, length: usize) -> &mut [u8] {
    if buffer.len() < length {
        buffer.resize(length, 0);
    }
    buffer
}

impl Worker {
    /// One that has allocated nothing yet.
    pub const fn new() -> Worker {
        Worker { scratch: Vec::new(), copy: Vec::new() }
    }

    /// [`blur`](crate::blur). Refusals: 2, 6, 7.
    pub fn blur(&mut self, picture: &mut [u8], size: Size, how: Blur) -> Result<(), Refusal> {
        crate::blur(picture, size, room(&mut self.scratch, picture.len()), how)
    }

    /// [`blur_whole`](crate::blur_whole). Refusals: 2, 6.
    pub fn blur_whole(&mut self, picture: &mut [u8], size: Size, how: WholeBlur) -> Result<(), Refusal> {
        crate::blur_whole(picture, size, room(&mut self.scratch, picture.len()), how)
    }

    /// [`shadow`](crate::shadow). Refusals: 2, 6, 7, 8.
    pub fn shadow(&mut self, picture: &mut [u8], size: Size, how: Shadow) -> Result<(), Refusal> {
        let (scratch, copy) = (room(&mut self.scratch, picture.len()), room(&mut self.copy, picture.len()));
        crate::shadow(picture, size, scratch, copy, how)
    }

    /// [`blur_planes`](crate::blur_planes). Refusals: 2, 6, 7.
    pub fn blur_planes(&mut self, planes: &mut [u8], size: Size, how: Blur) -> Result<(), Refusal> {
        crate::blur_planes(planes, size, room(&mut self.scratch, planes.len()), how)
    }

    /// [`shadow_planes`](crate::shadow_planes). Refusals: 2, 6, 7, 8.
    pub fn shadow_planes(&mut self, planes: &mut [u8], size: Size, how: Shadow) -> Result<(), Refusal> {
        let (scratch, copy) = (room(&mut self.scratch, planes.len()), room(&mut self.copy, planes.len()));
        crate::shadow_planes(planes, size, scratch, copy, how)
    }

    /// [`recipes`](crate::recipes). Refusals: 2, 19, 4 to 9.
    pub fn recipes(
        &mut self,
        picture: &mut [u8],
        size: Size,
        list: &[Recipe],
        table: &[[f32; MAX_TAPS]],
    ) -> Result<(), Placed> {
        let (scratch, copy) = (room(&mut self.scratch, picture.len()), room(&mut self.copy, picture.len()));
        crate::recipes(picture, size, scratch, copy, list, table)
    }

    /// [`plate_job`](crate::plate_job). Refusal: 10.
    pub fn plate_job(&mut self, plate: &mut [u8]) -> Result<(), Refusal> {
        crate::plate_job(plate, room(&mut self.scratch, plate.len()))
    }
}
