//! What is asked and answered, in the words and numbers of include/woolyard.h.

use std::error::Error;
use std::fmt;

/// The fluids.
#[derive(Clone, Copy, Debug, PartialEq, Eq, Hash)]
#[non_exhaustive]
pub enum Fluid {
    Parahydrogen = 0,
    Oxygen = 1,
    Nitrogen = 2,
}

impl Fluid {
    pub(crate) const ALL: [Fluid; 3] = [Fluid::Parahydrogen, Fluid::Oxygen, Fluid::Nitrogen];

    /// The number that stands for the fluid.
    pub fn number(self) -> u64 {
        self as u64
    }
}

impl TryFrom<u64> for Fluid {
    type Error = Refusal;

    fn try_from(number: u64) -> Result<Fluid, Refusal> {
        let fluid = Fluid::ALL.into_iter().find(|all| all.number() == number);
        fluid.ok_or(Refusal::NoSuchFluid)
    }
}

/// The sides of a state.
#[derive(Clone, Copy, Debug, PartialEq, Eq, Hash)]
#[non_exhaustive]
pub enum Side {
    Gas = 0,
    Dense = 1,
}

impl Side {
    /// The number that stands for the side.
    pub fn number(self) -> u64 {
        self as u64
    }
}

impl TryFrom<u64> for Side {
    type Error = Refusal;

    fn try_from(number: u64) -> Result<Side, Refusal> {
        let mut sides = [Side::Gas, Side::Dense].into_iter();
        let side = sides.find(|side| side.number() == number);
        side.ok_or(Refusal::NoSuchSide)
    }
}

/// The kinds of an answered state. A refused state has none.
#[derive(Clone, Copy, Debug, PartialEq, Eq, Hash)]
#[non_exhaustive]
pub enum Kind {
    /// The gas root and the dense root are equal.
    One,
    /// They differ.
    Split,
}

impl Kind {
    pub(crate) fn of(number: u64) -> Result<Kind, Refusal> {
        match number {
            1 => Ok(Kind::One),
            2 => Ok(Kind::Split),
            _ => Err(Refusal::NO_ANSWER),
        }
    }
}

/// The figures of an answered state.
#[derive(Clone, Copy, Debug, PartialEq, Eq, Hash)]
pub struct Answer {
    pub kind: Kind,
    /// The largest crossing of the cubic, in hundred-thousandths.
    pub gas_root: u64,
    /// The smallest.
    pub dense_root: u64,
    /// Of the gas root, in grams per cubic metre, rounded down.
    pub gas_density: u64,
    /// Of the dense root.
    pub dense_density: u64,
}

/// The figures of one side of an answered state.
#[derive(Clone, Copy, Debug, PartialEq, Eq, Hash)]
pub struct SideAnswer {
    /// The gas root or the dense root, in hundred-thousandths.
    pub root: u64,
    /// Of that root, in grams per cubic metre, rounded down.
    pub density: u64,
}

/// The figures of a walk that reached the gas root.
#[derive(Clone, Copy, Debug, PartialEq, Eq, Hash)]
pub struct Walk {
    /// In hundred-thousandths.
    pub gas_root: u64,
    /// How many values of the cubic were worked out.
    pub values: u64,
}

/// The gas roots of a band, in hundred-thousandths.
#[derive(Clone, Copy, Debug, PartialEq, Eq, Hash)]
pub struct Band {
    /// At the lower scaling. It is the larger root of the two, or they are equal.
    pub lower_root: u64,
    /// At the upper scaling.
    pub upper_root: u64,
}

/// A claim that a root is that of a state's side, any numbers, as another program gave them.
#[derive(Clone, Copy, Debug, PartialEq, Eq, Hash)]
pub struct Claim {
    /// The number of a [`Fluid`].
    pub fluid: u64,
    pub millikelvin: u64,
    pub pascals: u64,
    /// The number of a [`Side`].
    pub side: u64,
    /// In hundred-thousandths.
    pub root: u64,
}

/// The first claim of a list that does not stand.
#[derive(Clone, Copy, Debug, PartialEq, Eq, Hash)]
pub struct RefusedClaim {
    /// Its number in the list, from 0.
    pub claim: usize,
    pub refusal: Refusal,
}

impl fmt::Display for RefusedClaim {
    fn fmt(&self, text: &mut fmt::Formatter<'_>) -> fmt::Result {
        write!(text, "claim {}: {}", self.claim, self.refusal)
    }
}

impl Error for RefusedClaim {}

/// A state line as written or as it is to be written, in range or not.
#[derive(Clone, Copy, Debug, PartialEq, Eq, Hash)]
pub struct State {
    pub fluid: Fluid,
    pub millikelvin: u64,
    pub pascals: u64,
}

impl State {
    pub(crate) fn of([fluid, millikelvin, pascals]: [u64; 3]) -> Result<State, Refusal> {
        Ok(State {
            fluid: Fluid::try_from(fluid)?,
            millikelvin,
            pascals,
        })
    }
}

/// A state line of a sheet in parts as written, and the reply to its state: the figures, or the first of refusals 1, 21, 22,
/// 31 and 32 that applies, of which 1 comes up only behind numbers that no sheet has left.
#[derive(Clone, Copy, Debug, PartialEq, Eq, Hash)]
pub struct Line {
    /// The number of a [`Fluid`].
    pub fluid: u64,
    pub millikelvin: u64,
    pub pascals: u64,
    pub reply: Result<Answer, Refusal>,
}

/// Makes the refusals of a table that has for each its name, the number of its reply and what that means.
macro_rules! refusals {
    ($($(#[$note:meta])* $name:ident = $number:literal: $meaning:literal,)*) => {
        /// The refusals.
        #[derive(Clone, Copy, Debug, PartialEq, Eq, Hash)]
        #[non_exhaustive]
        pub enum Refusal {
            $(
                #[doc = concat!($number, ": ", $meaning, ".")]
                $(#[$note])*
                $name,
            )*
            /// A reply of this number that the wrapper does not know: either the number is none of the above, or it is 0 and
            /// the figures are none that an answer has. No archive of this wrapper's [`ABI`](crate::ABI) gives one.
            Unknown(u64),
        }

        impl Refusal {
            /// The number of the reply.
            pub fn number(self) -> u64 {
                match self {
                    $(Refusal::$name => $number,)*
                    Refusal::Unknown(number) => number,
                }
            }

            /// The refusal of any number, also of one that is no refusal's.
            pub(crate) fn of(number: u64) -> Refusal {
                match number {
                    $($number => Refusal::$name,)*
                    _ => Refusal::Unknown(number),
                }
            }
        }

        impl fmt::Display for Refusal {
            fn fmt(&self, text: &mut fmt::Formatter<'_>) -> fmt::Result {
                match self {
                    $(Refusal::$name => text.write_str($meaning),)*
                    Refusal::Unknown(number) => {
                        write!(text, "a reply of number {number} that this wrapper does not know")
                    }
                }
            }
        }
    };
}

refusals! {
    NoSuchFluid = 1: "fluid is above 2",
    TemperatureTooLow = 21: "temperature below the fluid's range",
    TemperatureTooHigh = 22: "temperature above the fluid's range",
    PressureTooLow = 31: "pressure below the range",
    PressureTooHigh = 32: "pressure above the range",
    NoSuchSide = 12: "side is neither 0 nor 1",
    NoSuchSlot = 4: "book not of 192 bytes, or slot above 63",
    WalkCutShort = 11: "the limit of values is below what the walk needs",
    ScalingOutOfRange = 13: "a scaling below 500 or above 1500 thousandths, or the lower one not first",
    /// The header has two names for 8. Lists of claims are unfit where they are of unequal lengths; those of a sheet
    /// that is to be written also where one is too long.
    ListsUnfit = 8: "lists of unequal lengths, or one of more than 1000 numbers for a sheet",
    RootDiffers = 14: "the root that is claimed is not the side's",
    HeatOutOfRange = 5: "heat-capacity temperature not a number in 14 to 1000 K",
    DensityOutOfRange = 15: "reduced density below 100 or above 3000 thousandths",
    SheetMalformed = 6: "sheet badly formed",
    SheetTooLong = 7: "sheet longer than 65,536 bytes",
    NoSuchLine = 16: "no state line of the number asked for",
    TooManyDigits = 9: "a number of more than ten digits for a sheet",
    NoRoom = 10: "the sheet is longer than the buffer or than 65,536 bytes",
}

impl Refusal {
    /// Of a reply whose number says that it is an answer, and whose figures are none.
    pub(crate) const NO_ANSWER: Refusal = Refusal::Unknown(0);

    /// Nothing for the number 0, which is an answer; the refusal for any other.
    pub(crate) fn check(number: u64) -> Result<(), Refusal> {
        match number {
            0 => Ok(()),
            _ => Err(Refusal::of(number)),
        }
    }

    /// The fault of a sheet that a call refuses without telling the place: what another call, which does, tells of it.
    /// It is unknown where that tells of none, or where the refusal is none of a sheet's.
    pub(crate) fn met<Good, Faulty>(
        self,
        told: Result<Good, Faulty>,
        unknown: fn(Refusal) -> Faulty,
    ) -> Faulty {
        match (self, told) {
            (Refusal::SheetMalformed | Refusal::SheetTooLong, Err(faulty)) => faulty,
            _ => unknown(self),
        }
    }
}

impl Error for Refusal {}

/// A number of the archive as an index or a length. One that no memory has becomes the largest, which no slice reaches.
pub(crate) fn index(number: u64) -> usize {
    usize::try_from(number).unwrap_or(usize::MAX)
}

/// What is wrong with a refused sheet.
#[derive(Clone, Copy, Debug, PartialEq, Eq, Hash)]
#[non_exhaustive]
pub enum Fault {
    Malformed {
        /// The first byte of the first line that can't stand there.
        place: usize,
    },
    TooLong,
    /// Another refusal than these two, which no archive of this wrapper's [`ABI`](crate::ABI) gives of a sheet.
    Unknown(Refusal),
}

impl Fault {
    pub fn refusal(&self) -> Refusal {
        match *self {
            Fault::Malformed { .. } => Refusal::SheetMalformed,
            Fault::TooLong => Refusal::SheetTooLong,
            Fault::Unknown(refusal) => refusal,
        }
    }

    /// Nothing for the number 0, which is a good sheet's; the fault for any other.
    pub(crate) fn check(number: u64, place: u64) -> Result<(), Fault> {
        Refusal::check(number).map_err(|refusal| match refusal {
            Refusal::SheetMalformed => Fault::Malformed {
                place: index(place),
            },
            Refusal::SheetTooLong => Fault::TooLong,
            _ => Fault::Unknown(refusal),
        })
    }
}

impl fmt::Display for Fault {
    fn fmt(&self, text: &mut fmt::Formatter<'_>) -> fmt::Result {
        self.refusal().fmt(text)?;
        match self {
            Fault::Malformed { place } => write!(text, " at byte {place}"),
            Fault::TooLong | Fault::Unknown(_) => Ok(()),
        }
    }
}

impl Error for Fault {}

/// What comes back for a sheet that is refused as a whole: the fault, with the line.
#[derive(Clone, Copy, Debug, PartialEq, Eq, Hash)]
#[non_exhaustive]
pub enum FaultySheet<'sheet> {
    Malformed {
        /// The first byte of the first line that can't stand there.
        place: usize,
        /// That line, the very bytes of the sheet, without byte 10; empty if it is missing.
        line: &'sheet [u8],
    },
    TooLong,
    /// As [`Fault::Unknown`].
    Unknown(Refusal),
}

impl<'sheet> FaultySheet<'sheet> {
    /// With the line, which is of this length; but no more of it than the sheet has, whatever the two numbers say.
    pub(crate) fn of(fault: Fault, sheet: &'sheet [u8], length: u64) -> FaultySheet<'sheet> {
        match fault {
            Fault::Malformed { place } => {
                let rest = sheet.get(place..).unwrap_or_default();
                let line = rest.get(..index(length)).unwrap_or(rest);
                FaultySheet::Malformed { place, line }
            }
            Fault::TooLong => FaultySheet::TooLong,
            Fault::Unknown(refusal) => FaultySheet::Unknown(refusal),
        }
    }

    /// Without the line, as it is told of a sheet in parts.
    pub fn fault(&self) -> Fault {
        match *self {
            FaultySheet::Malformed { place, .. } => Fault::Malformed { place },
            FaultySheet::TooLong => Fault::TooLong,
            FaultySheet::Unknown(refusal) => Fault::Unknown(refusal),
        }
    }

    pub fn refusal(&self) -> Refusal {
        self.fault().refusal()
    }
}

impl fmt::Display for FaultySheet<'_> {
    fn fmt(&self, text: &mut fmt::Formatter<'_>) -> fmt::Result {
        self.fault().fmt(text)?;
        match self {
            FaultySheet::Malformed { line, .. } => write!(text, ": \"{}\"", line.escape_ascii()),
            FaultySheet::TooLong | FaultySheet::Unknown(_) => Ok(()),
        }
    }
}

impl Error for FaultySheet<'_> {}
