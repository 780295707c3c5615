//! The weights of a kernel: `1,4,6,4,1/16`, each over 16, or `0.25,0.5,0.25`.
use crate::failure::{usage, Failure};
use crate::numbers::number;

/// The parts of a list, and what stands below the line. An empty text is no weights, which the library refuses.
fn parts(text: &str) -> Result<(Vec<&str>, Option<&str>), Failure> {
    let (list, below) = text.split_once('/').map_or((text, None), |(list, below)| (list, Some(below)));
    let parts: Vec<_> = if list.is_empty() { Vec::new() } else { list.split(',').map(str::trim).collect() };
    match parts.iter().any(|part| part.is_empty()) {
        true => usage(format!("-weights: '{text}' has an empty place")),
        false => Ok((parts, below.map(str::trim))),
    }
}

/// As binary32, each the nearest to what is written: a quotient of whole numbers below 2^24 too, since binary64, in which
/// it is divided first, has more than twice the digits.
pub fn floats(text: &str) -> Result<Vec<f32>, Failure> {
    let (parts, below) = parts(text)?;
    let Some(below) = below else {
        return parts.iter().map(|part| number(part, "-weights")).collect();
    };
    let below: f64 = number(below, "-weights")?;
    if below == 0.0 {
        return usage("-weights: nothing is divided by 0");
    }
    parts.iter().map(|part| number::<f64>(part, "-weights").map(|above| (above / below) as f32)).collect()
}

/// As whole numbers over 65536; a weight that is none is wrong use, since the library cannot be told of it.
pub fn numerators(text: &str) -> Result<Vec<u32>, Failure> {
    let (parts, below) = parts(text)?;
    let (over, under) = decimal(below.unwrap_or("1"))?;
    let counted = |part: &&str| {
        let (above, ten) = decimal(part)?;
        let (top, bottom) = (above * 65536 * under, ten * over);
        match (bottom, top.checked_rem(bottom)) {
            (0, _) => usage("-weights: nothing is divided by 0"),
            (_, Some(0)) => u32::try_from(top / bottom).or_else(|_| usage(format!("-weights: {part} is too large"))),
            _ => usage(format!("-weights: {part} is no multiple of 1/65536")),
        }
    };
    parts.iter().map(counted).collect()
}

/// A decimal of at most 12 digits as a whole number over a power of ten.
fn decimal(text: &str) -> Result<(u128, u128), Failure> {
    let (whole, part) = text.split_once('.').unwrap_or((text, ""));
    let digits = format!("{whole}{part}");
    if digits.is_empty() || digits.len() > 12 || !digits.bytes().all(|digit| digit.is_ascii_digit()) {
        return usage(format!("-weights: '{text}' is no decimal of at most 12 digits"));
    }
    Ok((number(&digits, "-weights")?, 10u128.pow(part.len() as u32)))
}

#[cfg(test)]
mod tests {
    use super::*;

    fn whole(text: &str) -> Option<Vec<u32>> {
        numerators(text).ok()
    }

    #[test]
    fn lists_over_a_number_and_decimals_agree() {
        let lists = [("1,2,1/4", "0.25,0.5,0.25"), ("1,4,6,4,1/16", "0.0625,0.25,0.375,0.25,0.0625"), ("1/1", "1")];
        for (over, decimals) in lists {
            assert_eq!(floats(over).ok(), floats(decimals).ok());
            assert_eq!(whole(over), whole(decimals));
        }
        assert_eq!(whole("1,2,1/4"), Some(vec![16384, 32768, 16384]));
        assert_eq!(whole("0.5,1/2.0"), Some(vec![16384, 32768]));
    }

    #[test]
    fn the_nearest_binary32_is_taken() {
        assert_eq!(floats("1,2/3").ok(), Some(vec![1.0 / 3.0, 2.0 / 3.0]));
        assert_eq!(floats("0.1").ok(), Some(vec![0.1]));
    }

    #[test]
    fn what_cannot_be_said_is_wrong_use() {
        for text in ["1,,2", "1/0", "x", "1/", ","] {
            assert!(floats(text).is_err() && numerators(text).is_err(), "{text}");
        }
        for text in ["1/3", "-1", "nan", "0.1", "99999999", "1e0"] {
            assert!(numerators(text).is_err(), "{text}");
        }
        assert_eq!(floats("").ok(), Some(vec![]));
        assert_eq!(whole(""), Some(vec![]));
    }
}
