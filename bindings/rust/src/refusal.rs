//! Why a call is refused, and where.
use core::error::Error;
use core::fmt;

use crate::Partition;

macro_rules! refusals {
    ($($name:ident = $number:literal, $text:literal;)*) => {
        /// The paper's refusals, by number.
        #[derive(Clone, Copy, PartialEq, Eq, Hash, Debug)]
        #[repr(u32)]
        pub enum Refusal {
            $(#[doc = $text] $name = $number,)*
        }

        impl Refusal {
            /// Every refusal, in the order of the numbers.
            pub const ALL: [Refusal; 17] = [$(Refusal::$name,)*];

            pub(crate) fn of(number: u32) -> Refusal {
                match number {
                    $($number => Refusal::$name,)*
                    other => unreachable!("no refusal has the number {other}: this is not the archive of this crate"),
                }
            }
        }

        impl fmt::Display for Refusal {
            fn fmt(&self, f: &mut fmt::Formatter<'_>) -> fmt::Result {
                f.write_str(match self { $(Refusal::$name => $text,)* })
            }
        }
    };
}

refusals! {
    Unsound = 1, "the image is not sound";
    Size = 2, "partitions or slots out of range, or the image's length is not 69 + 7 P S";
    Heading = 3, "the first line is not a heading of edition 1, 2, 3 or 4, or there is none";
    Shape = 4, "a line without a shape, or a tail that begins none";
    Order = 5, "a heading again, a collector or session line within a transaction, or an end without operations";
    Count = 6, "no operation or more than 32, or the end's number is wrong";
    Range = 7, "a partition, slot, field, root or handle number is too large";
    Taken = 8, "the slot is in use";
    Absent = 9, "the object is not in use";
    Shut = 10, "no phase is open";
    Opened = 11, "a phase is open already";
    Rootless = 12, "no root is in use";
    Clean = 13, "the partition is clean";
    Unclean = 14, "a partition is not clean";
    Spent = 15, "the traces equal the allowance";
    Unmarked = 16, "a root, a handle or a marked object refers to an unmarked one";
    Room = 17, "the record does not fit from that place";
}

impl Refusal {
    /// The paper's number, 1 to 17.
    #[must_use]
    pub const fn number(self) -> u32 {
        self as u32
    }
}

/// Where a refusal stands.
#[derive(Clone, Copy, PartialEq, Eq, Hash, Debug)]
pub enum Place {
    /// The call as a whole.
    Call,
    /// An operation of the commit, counted from 1.
    Operation(usize),
    /// A line of the log.
    Line {
        /// Its number, counted from 1.
        line: usize,
        /// With [`Refusal::Heading`] and [`Refusal::Shape`] the place within the line, counted from 0, of the first byte that no line with a
        /// shape and the same start has there, or the line's length where it is only too short or not ended; with any other refusal 0.
        byte: usize,
    },
    /// The lowest partition that is not clean.
    Partition(Partition),
}

/// A refused call. Nothing has changed, but for a refused recovery, which leaves zeros in the image.
#[derive(Clone, Copy, PartialEq, Eq, Hash, Debug)]
pub struct Refused {
    /// Why.
    pub refusal: Refusal,
    /// Where.
    pub place: Place,
}

impl fmt::Display for Refused {
    fn fmt(&self, f: &mut fmt::Formatter<'_>) -> fmt::Result {
        write!(f, "refused {}", self.refusal.number())?;
        match self.place {
            Place::Call => {}
            Place::Operation(n) => write!(f, ", operation {n}")?,
            Place::Line { line, byte } if matches!(self.refusal, Refusal::Heading | Refusal::Shape) => {
                write!(f, ", line {line}, byte {byte}")?
            }
            Place::Line { line, .. } => write!(f, ", line {line}")?,
            Place::Partition(p) => write!(f, ", partition {}", p.0)?,
        }
        write!(f, ": {}", self.refusal)
    }
}

impl Error for Refused {}
