//! Exact fractions, and decimals of them.
use std::fmt;

/// A number over another that is not 0.
pub struct Fraction {
    above: u128,
    below: u128,
}

impl Fraction {
    /// In lowest terms.
    pub fn of(above: u128, below: u128) -> Fraction {
        let (mut common, mut rest) = (below, above);
        while rest != 0 {
            (common, rest) = (rest, common % rest);
        }
        Fraction { above: above / common, below: below / common }
    }

    /// With six digits after the point, the nearest, halves upward. What stands above is below 2^107.
    pub fn decimal(&self) -> String {
        let millionths = (self.above * 2_000_000 + self.below) / (2 * self.below);
        format!("{}.{:06}", millionths / 1_000_000, millionths % 1_000_000)
    }
}

impl fmt::Display for Fraction {
    fn fmt(&self, f: &mut fmt::Formatter) -> fmt::Result {
        match self.below {
            1 => write!(f, "{}", self.above),
            below => write!(f, "{}/{below}", self.above),
        }
    }
}

#[cfg(test)]
mod tests {
    use super::Fraction;

    #[test]
    fn fractions_and_decimals() {
        for (above, below, fraction, decimal) in [
            (0, 5, "0", "0.000000"),
            (510, 4, "255/2", "127.500000"),
            (2, 3, "2/3", "0.666667"),
            (1, 2_000_000, "1/2000000", "0.000001"),
            (1, 2_000_001, "1/2000001", "0.000000"),
            (255 << 62, 1 << 62, "255", "255.000000"),
        ] {
            let exact = Fraction::of(above, below);
            assert_eq!((exact.to_string().as_str(), exact.decimal().as_str()), (fraction, decimal));
        }
    }
}
