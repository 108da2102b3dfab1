//! The refusals of the calls, with the rule's numbers and words.

use std::error::Error;
use std::fmt;

/// Defines the refusals: for each its name, its number and its words, which are also its documentation.
macro_rules! refusals {
    ($(#[doc = $documentation:literal])* $($name:ident = $number:literal, $words:literal;)*) => {
        $(#[doc = $documentation])*
        #[derive(Clone, Copy, Debug, PartialEq, Eq, Hash)]
        #[repr(u8)]
        pub enum Refusal {
            $(#[doc = concat!($number, ": ", $words, ".")] $name = $number,)*
        }

        impl Refusal {
            /// The refusal of a number; none of a call has 0, which is a grant, 21 to 24, which are those of captures, or one above 26.
            pub const fn from_number(number: u8) -> Option<Refusal> {
                match number {
                    $($number => Some(Refusal::$name),)*
                    _ => None,
                }
            }

            /// The refusal in words.
            pub const fn words(self) -> &'static str {
                match self {
                    $(Refusal::$name => $words,)*
                }
            }
        }
    };
}

refusals! {
    /// Why a call was refused: the rule's numbers 1 to 20, 25 and 26, in its words.
    ///
    /// A refusal leaves the port as it was. [`Discard`](Refusal::Discard) alone also moves its stream, to place last with nothing left, and raises
    /// its flag and its stream's count of discards.
    ///
    /// A [`Port`](crate::Port) never meets 1, 2, 18, 19 and 20; its documentation says why. They are here because the rule has them.
    ///
    /// ```
    /// use bunnysolder::{Port, Refusal};
    ///
    /// // L is at least 2,020 + 84, so that the share, L − 2,020, holds a least reservation.
    /// let refusal = Port::open(2_103, 1).unwrap_err();
    /// assert_eq!(refusal, Refusal::LinkRange);
    /// assert_eq!(refusal.number(), 3);
    /// assert_eq!(refusal.to_string(), "3: L is outside 2,104 to 23,524");
    /// assert_eq!(Refusal::from_number(3), Some(refusal));
    /// ```
    Closed = 1, "the port is closed";
    OpenAlready = 2, "the port is open already";
    LinkRange = 3, "L is outside 2,104 to 23,524";
    DelayRange = 4, "K is outside 1 to 16";
    StreamRange = 5, "the stream is above 63";
    ReservedAlready = 6, "the stream is reserved already";
    PermittedRange = 7, "P is below 84";
    ShareExceeded = 8, "the sum of P would be above the share";
    VidRange = 9, "the VID is outside 1 to 4,094";
    BoundAlready = 10, "the stream is bound already";
    PairBoundAlready = 11, "the pair of address and VID is bound already";
    NotReserved = 12, "the stream is not reserved";
    ChargeRange = 13, "the charge is outside 84 to 2,020";
    Discard = 14, "the frame is discarded: it fits neither at its stream's place nor at a later one";
    BestEffortFull = 15, "256 best-effort frames are waiting";
    LimitExceeded = 16, "W with the charge in it would be above K × (L − R)";
    FrameLength = 17, "the frame is outside 60 to 1,996 octets";
    ShortMemory = 18, "the lent memory is under 1,280 places";
    UnfitRecord = 19, "the port record is unfit";
    QueueFull = 20, "the chosen queue holds 256 frames";
    Draining = 25, "the stream was withdrawn, and drains";
    OffsetRange = 26, "the offset is no multiple of 4, or above 60";
}

impl Refusal {
    /// The rule's number.
    pub const fn number(self) -> u8 {
        self as u8
    }
}

impl fmt::Display for Refusal {
    fn fmt(&self, f: &mut fmt::Formatter<'_>) -> fmt::Result {
        write!(f, "{}: {}", self.number(), self.words())
    }
}

impl Error for Refusal {}
