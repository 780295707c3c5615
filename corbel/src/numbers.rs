//! Numbers in options and in texts.
use crate::failure::{usage, Failure};
use crate::options::Options;
use std::str::FromStr;

/// A number of an option's value, or of a text.
pub fn number<T: FromStr>(text: &str, what: &str) -> Result<T, Failure> {
    text.trim().parse().or_else(|_| usage(format!("{what}: '{text}' is no number of its kind")))
}

/// The value of an option that has one when it is not given. A float is the nearest binary32; `nan` and `inf` are taken.
pub fn option<T: FromStr>(options: &Options, name: &str, default: T) -> Result<T, Failure> {
    options.value(name).map_or(Ok(default), |text| number(text, &format!("-{name}")))
}

/// The numbers of a list with commas between them, so many.
pub fn list<T: FromStr, const COUNT: usize>(text: &str, what: &str) -> Result<[T; COUNT], Failure> {
    let numbers = text.split(',').map(|part| number(part, what)).collect::<Result<Vec<T>, Failure>>()?;
    numbers.try_into().or_else(|_| usage(format!("{what} takes {COUNT} numbers with commas between them")))
}
