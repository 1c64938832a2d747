//! Why a call was refused, and where: the numbers of `include/mask_cleaner.h`.

use std::fmt;

/// States each reason once: its name, which is C's, its number and its words.
macro_rules! reasons {
    ($($name:ident = $number:literal, $text:literal;)*) => {
        /// Why a call was refused. The header says of each number what its place is.
        #[derive(Clone, Copy, Debug, PartialEq, Eq, PartialOrd, Ord, Hash)]
        #[non_exhaustive]
        pub enum Reason {
            $(#[doc = concat!(stringify!($number), ": ", $text, ".")] $name,)*
            /// A number that this version does not list, and that its library never gives.
            Unlisted(u32),
        }

        impl Reason {
            /// Those that are listed.
            pub const ALL: &'static [Reason] = &[$(Reason::$name),*];

            /// The refusal's number.
            pub fn number(self) -> u32 {
                match self {
                    $(Reason::$name => $number,)*
                    Reason::Unlisted(number) => number,
                }
            }

            /// The reason of a refusal's number.
            pub fn from_number(number: u32) -> Reason {
                match number {
                    $($number => Reason::$name,)*
                    _ => Reason::Unlisted(number),
                }
            }
        }

        impl fmt::Display for Reason {
            fn fmt(&self, f: &mut fmt::Formatter<'_>) -> fmt::Result {
                f.write_str(match self {
                    $(Reason::$name => $text,)*
                    Reason::Unlisted(_) => "this number is not listed",
                })
            }
        }
    };
}

reasons! {
    NumberEnds = 1, "the bytes end within or before a number";
    NumberForm = 2, "a number does not have the fewest groups, or has more than four";
    ElementCount = 3, "the number of elements is not 1 to 64";
    ElementRange = 4, "an element is out of range or out of order";
    ElementsDisjoint = 5, "an element shares no position with an earlier one";
    PersistentRange = 6, "a persistent element is out of range or out of order";
    NotPersistent = 7, "a persistent element is not persistent for an element";
    BytesLeft = 8, "bytes follow the table";
    HeaderForm = 9, "the image header does not have the strict form";
    SizeRange = 10, "width or height is not 1 to 256";
    RasterLength = 11, "the number of pixel bytes does not fit the size";
    PixelValue = 12, "a pixel is above 1";
    AreaShort = 13, "an output or area is too short";
    Unsound = 14, "the job record is unsound";
    NotCollected = 15, "the last image is not yet collected";
    NothingLoaded = 16, "no image is loaded";
    NotStable = 17, "the image is not yet stable";
    RankCount = 18, "the number of persistent elements is not 1 to 4, or not 2 to 4 in the file form of several";
    Parts = 23, "the number of parts is not 1 to 16, or a part does not have the width of the first";
    AllowanceSpent = 24, "neither the channel's reserve nor the pool has a pass left";
    QuotaRange = 25, "the number of channels is not 1 to 4, the reserves sum above the allowance, or there is no such channel";
    SizesDiffer = 26, "an image does not have the size of the first";
}

/// A refusal: its reason and place, and what 5 and 7 give beside these.
#[derive(Clone, Copy, Debug, PartialEq, Eq)]
pub struct Refusal {
    /// Why.
    pub reason: Reason,
    /// Where; the header says of each reason what this counts.
    pub place: usize,
    /// 5: the lowest earlier element that shares nothing with the one at the place. 7: the lowest rank that misses it. Else 0.
    pub witness: usize,
    /// 7: the lowest position of the witness without a partner in the element; 0 is a true one. Else 0.
    pub position: usize,
}

impl Refusal {
    /// A refusal by 5 or 7.
    pub fn witnessed(reason: Reason, place: usize, witness: usize, position: usize) -> Refusal {
        Refusal {
            reason,
            place,
            witness,
            position,
        }
    }

    /// A refusal by any other number.
    pub fn at(reason: Reason, place: usize) -> Refusal {
        Refusal::witnessed(reason, place, 0, 0)
    }

    /// A refusal whose place is 0.
    pub fn of(reason: Reason) -> Refusal {
        Refusal::at(reason, 0)
    }

    /// Number, place, witness and position.
    pub fn numbers(&self) -> [usize; 4] {
        let number = self.reason.number() as usize;
        [number, self.place, self.witness, self.position]
    }
}

impl fmt::Display for Refusal {
    fn fmt(&self, f: &mut fmt::Formatter<'_>) -> fmt::Result {
        let [number, place, witness, position] = self.numbers();
        let reason = self.reason;
        write!(f, "refused {number} {place} {witness} {position}: {reason}")
    }
}

impl std::error::Error for Refusal {}
