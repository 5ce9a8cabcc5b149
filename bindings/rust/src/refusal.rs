use std::error::Error;
use std::fmt;

/// Makes [`Refusal`] of one list, so that a refusal's name, number and words stand in one line.
macro_rules! refusals {
    ($($name:ident = $number:literal, $words:literal;)*) => {
        /// Why there is no answer. Each case has its number in the C face.
        #[derive(Clone, Copy, Debug, PartialEq, Eq, Hash, PartialOrd, Ord)]
        #[repr(u32)]
        #[non_exhaustive]
        pub enum Refusal {
            $(#[doc = concat!($number, ": ", $words, ".")] $name = $number,)*
        }

        impl Refusal {
            /// The refusal with a number, or none.
            ///
            /// ```
            /// use isnemgul::Refusal;
            /// assert_eq!(Refusal::from_number(6), Some(Refusal::TooFar));
            /// assert_eq!(Refusal::from_number(0), None);
            /// ```
            #[must_use]
            pub const fn from_number(number: u32) -> Option<Refusal> {
                match number {
                    $($number => Some(Refusal::$name),)*
                    _ => None,
                }
            }

            /// What it means, in the words of the C face's `isn_refusal_text`.
            ///
            /// ```
            /// use isnemgul::Refusal;
            /// assert_eq!(Refusal::Twice.words(), "a node stands twice in one cell");
            /// ```
            #[must_use]
            pub const fn words(self) -> &'static str {
                match self {
                    $(Refusal::$name => $words,)*
                }
            }
        }
    };
}

refusals! {
    Flat = 1, "a determinant is plus or minus zero: the cell is flat where Newton stepped, or the matrix has no inverse";
    Outside = 2, "after 20 Newton steps the place is not inside the cell; a NaN is not inside";
    Corner = 3, "a corner coordinate is NaN, infinite, or not zero and of a size below 2^-100 or above 2^100";
    Tolerance = 4, "the tolerance is NaN, infinite or below zero; minus zero is good";
    Coordinate = 5, "a coordinate of the proposed place is not in [-1,1], or is NaN";
    TooFar = 6, "the image of the place is further from the probe than the tolerance on some axis";
    Limit = 7, "over a limit: 1,024 nodes, 128 cells, 256 proposals, a path of 20 octants; or not 1 to 16 quadrature points in a list";
    Length = 8, "a list is not whole (3 words a node, 8 numbers a cell, 2 floats a line point, 3 a triangle point), or an output is too short";
    Range = 9, "a number is out of range: a node not below the node count, an octant or corner above 7, \
        a quadrature point not in its list, a sign index above 255";
    Twice = 10, "a node stands twice in one cell";
    Mark = 11, "the file does not begin with HXM";
    Version = 12, "the file's version is not 1";
    FileLength = 13, "the file's length is wrong: under 13 bytes, or not 13 + 24 a node + 32 a cell";
    Twisted = 14, "a face is twisted: two faces of the mesh have the same four nodes in different rings";
    OffGrid = 15, "a node coordinate is not a whole number of size at most 1,024; unused nodes count too";
}

impl Refusal {
    /// The refusal's number in the C face.
    #[must_use]
    pub const fn number(self) -> u32 {
        self as u32
    }
}

impl fmt::Display for Refusal {
    /// The number and the words, as `refused 10: a node stands twice in one cell`.
    fn fmt(&self, f: &mut fmt::Formatter<'_>) -> fmt::Result {
        write!(f, "refused {}: {}", self.number(), self.words())
    }
}

impl Error for Refusal {}
