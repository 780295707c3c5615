//! The testers' image files (request 06): Netpbm PAM with straight alpha, in one exact spelling.
use crate::grading::check;
use crate::refusal::{self, first};
use crate::shadow::premultiply;

/// The header of a file, one item a line.
pub fn header(w: u32, h: u32) -> String {
    format!("P7\nWIDTH {w}\nHEIGHT {h}\nDEPTH 4\nMAXVAL 255\nTUPLTYPE RGB_ALPHA\nENDHDR\n")
}

/// A channel multiplied by its alpha, on the way in.
pub fn inward(c: u8, a: u8) -> u8 {
    premultiply(c, a)
}

/// A channel without its alpha, on the way out; 0 where the alpha is 0. For c up to a it is at most 255.
pub fn outward(c: u8, a: u8) -> u8 {
    let (c, a) = (u32::from(c), u32::from(a));
    (255 * c + a / 2).checked_div(a).unwrap_or(0) as u8
}

/// Each pixel with `times` for r, g and b; the alpha stays.
pub fn pixels(bytes: &[u8], times: fn(u8, u8) -> u8) -> Vec<u8> {
    bytes.chunks_exact(4).flat_map(|p| [times(p[0], p[3]), times(p[1], p[3]), times(p[2], p[3]), p[3]]).collect()
}

/// A side in decimal, without leading zeros and within refusal 1's limits, and what follows it.
fn side(text: &[u8]) -> Option<(u32, &[u8])> {
    let digits = text.iter().take_while(|byte| byte.is_ascii_digit()).count();
    let (number, rest) = text.split_at(digits);
    let value = std::str::from_utf8(number).ok()?.parse().ok()?;
    (number[0] != b'0' && !refusal::side(value)).then_some((value, rest))
}

/// The sides and the body of a file that fits.
pub fn parsed(file: &[u8]) -> Option<(u32, u32, &[u8])> {
    let (w, rest) = side(file.strip_prefix(b"P7\nWIDTH ")?)?;
    let (h, rest) = side(rest.strip_prefix(b"\nHEIGHT ")?)?;
    let body = rest.strip_prefix(b"\nDEPTH 4\nMAXVAL 255\nTUPLTYPE RGB_ALPHA\nENDHDR\n")?;
    (!refusal::length(body, w, h)).then_some((w, h, body))
}

/// Import: 15, then 3. The number, the sides and how many bytes were written.
pub fn read(file: &[u8], picture: &mut [u8]) -> (u32, u32, u32, u64) {
    let Some((w, h, body)) = parsed(file) else { return (15, 0, 0, 0) };
    if refusal::short(picture, w, h) {
        return (3, 0, 0, 0);
    }
    picture[..body.len()].copy_from_slice(&pixels(body, inward));
    (0, w, h, body.len() as u64)
}

/// Export: 1, 2, 16, then 3. The number, how many bytes were written, and on 16 the first bad place.
pub fn write(picture: &[u8], w: u32, h: u32, file: &mut [u8]) -> (u32, u64, u64) {
    let (refused, exceeds, place) = check(picture, w, h);
    let whole = header(w, h).len() as u128 + refusal::bytes(w, h);
    match first(&[(refused, refused != 0), (16, exceeds), (3, (file.len() as u128) < whole)]) {
        0 => (),
        16 => return (16, 0, place),
        number => return (number, 0, 0),
    }
    let new = [header(w, h).as_bytes(), &pixels(picture, outward)].concat();
    file[..new.len()].copy_from_slice(&new);
    (0, new.len() as u64, 0)
}
