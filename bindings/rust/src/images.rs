//! The testers' image files: Netpbm PAM with straight alpha.
use crate::refusal::answer;
use crate::{sys, Placed, Refusal, Size};

/// Reads a file into the first bytes of `picture`, premultiplied, and answers its sides. As many bytes as the file has are
/// always enough.
///
/// Refusals: 15, 3.
///
/// ```
/// use corbelrush::{pam_read, pam_write, Placed, Refusal, Size, PAM_HEADER};
/// let (picture, size) = ([5, 0, 3, 5], Size::new(1, 1)?);
/// let mut file = vec![0; size.bytes() + PAM_HEADER];
/// let length = pam_write(&picture, size, &mut file)?;
/// let mut back = [0; 4];
/// assert_eq!(pam_read(&file[..length], &mut back)?, size);
/// assert_eq!(back, picture);
/// let exceeds = Placed { refusal: Refusal::Exceeds, at: 0 };
/// assert_eq!(pam_write(&[1, 0, 0, 0], size, &mut file), Err(exceeds));
/// # Ok::<(), Refusal>(())
/// ```
pub fn pam_read(file: &[u8], picture: &mut [u8]) -> Result<Size, Refusal> {
    let (mut w, mut h, mut written) = (0, 0, 0);
    answer(unsafe {
        let (from, to) = (file.as_ptr(), picture.as_mut_ptr());
        sys::corbelrush_pam_read(from, file.len(), to, picture.len(), &mut w, &mut h, &mut written)
    })?;
    Ok(Size { w, h })
}

/// Writes a picture as the first bytes of `file`, its alpha straight, and answers how many they are: at most
/// [`Size::bytes`] and [`PAM_HEADER`](crate::PAM_HEADER).
///
/// Refusals: 2, 16 (at the place y * w + x of the first pixel that exceeds), 3.
pub fn pam_write(picture: &[u8], size: Size, file: &mut [u8]) -> Result<usize, Placed> {
    let (mut written, mut at) = (0, 0);
    let (from, to) = (picture.as_ptr(), file.as_mut_ptr());
    answer(unsafe {
        sys::corbelrush_pam_write(from, picture.len(), size.w, size.h, to, file.len(), &mut written, &mut at)
    })
    .map_err(|refusal| Placed { refusal, at })?;
    Ok(written as usize)
}
