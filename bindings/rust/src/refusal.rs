//! Why a call was refused.
use std::{error, fmt};

macro_rules! refusals {
    ($($name:ident = $number:literal, $says:literal;)*) => {
        /// Why a call was refused. A refused call has changed no byte.
        #[derive(Clone, Copy, Debug, PartialEq, Eq, Hash)]
        #[repr(u32)]
        #[non_exhaustive]
        pub enum Refusal {
            $(#[doc = $says] $name = $number,)*
        }

        impl Refusal {
            /// Every refusal, by its number.
            pub const ALL: &'static [Refusal] = &[$(Refusal::$name,)*];
        }

        impl fmt::Display for Refusal {
            fn fmt(&self, f: &mut fmt::Formatter) -> fmt::Result {
                f.write_str(match self { $(Refusal::$name => $says,)* })
            }
        }
    };
}

refusals! {
    WrongSides = 1, "w or h is 0 or above 16384";
    WrongLength = 2, "the picture is not exactly 4wh bytes";
    TooShort = 3, "a work buffer, a table or the room for the result is too short";
    WrongTaps = 4, "the number of weights or numerators is 0 or above 33";
    WrongWeight = 5, "a weight is NaN, below 0 or above 1";
    TooDeep = 6, "n is above 14";
    NotFinite = 7, "the strength or an offset is NaN or infinite";
    WrongColour = 8, "a colour component is NaN, below 0 or above 1";
    WrongEdge = 9, "the edge number is none of the four";
    BrokenPlate = 10, "the file breaks a rule of plates, or the version or the unit is none that there is";
    OffGrid = 11, "a weight is no multiple of 1/65536, or the weights do not sum to 1";
    NoPicture = 12, "the plate has no picture of that index";
    NoRoom = 13, "the plate would pass 64 pictures, the most bytes of its version or its buffer";
    WrongSum = 14, "the numerators sum to more than 65536";
    NoPam = 15, "the file is no PAM file of the accepted spelling, or its length does not fit";
    Exceeds = 16, "a channel exceeds its alpha";
    ListFull = 17, "the list has room for fewer entries than there are";
    WrongList = 18, "a place of the list lies outside the picture, or is not above the one before it";
    WrongRecipe = 19, "the operation of a recipe or its kernel index is none that there is";
    WrongBox = 20, "the box is empty, too large or partly outside the picture, or the place lies outside";
    TooDeepToShare = 21, "n is above 3, the most that shares are worked out for";
    Outside = 22, "a place lies outside the picture";
}

impl error::Error for Refusal {}

impl Refusal {
    /// The number that the function for C returns.
    pub const fn number(self) -> u32 {
        self as u32
    }
}

/// What a function's number says.
pub(crate) fn answer(number: u32) -> Result<(), Refusal> {
    match number {
        0 => Ok(()),
        _ => Err(*Refusal::ALL.get(number as usize - 1).expect("the linked library is of this version")),
    }
}

/// A refusal, and where: the place of the pixel that [`pam_write`](crate::pam_write) objects to, or the index of the recipe
/// that [`recipes`](crate::recipes) objects to.
#[derive(Clone, Copy, Debug, PartialEq, Eq, Hash)]
pub struct Placed {
    /// Why.
    pub refusal: Refusal,
    /// Where; 0 for a refusal that has no place.
    pub at: u64,
}

impl fmt::Display for Placed {
    fn fmt(&self, f: &mut fmt::Formatter) -> fmt::Result {
        write!(f, "{} ({})", self.refusal, self.at)
    }
}

impl error::Error for Placed {}

impl From<Placed> for Refusal {
    fn from(placed: Placed) -> Refusal {
        placed.refusal
    }
}
