//! Why calls are refused.

use std::fmt;

/// Makes `Refusal`, in which each refusal's name, number and text stand once.
macro_rules! refusals {
    ($($name:ident $number:literal $text:literal)*) => {
        /// Why a call was refused. A refused call changes no word.
        #[derive(Clone, Copy, PartialEq, Eq, Debug)]
        pub enum Refusal {
            $(#[doc = concat!(stringify!($number), ": ", $text)] $name = $number,)*
        }

        impl Refusal {
            /// The refusal with this number, where there is one.
            pub fn of(number: u32) -> Option<Refusal> {
                match number {
                    $($number => Some(Refusal::$name),)*
                    _ => None,
                }
            }

            /// What it means, in the words of `flourscoop_number_text` in the C header.
            pub fn text(self) -> &'static str {
                match self {
                    $(Refusal::$name => $text,)*
                }
            }
        }
    };
}

refusals! {
    Screen 1 "the screen or s is outside the rules"
    Blocks 2 "more than 2,048 blocks, or blocks of neither 32 nor 64 words"
    Short 3 "the slice is shorter than the room needed"
    Unsound 4 "the words are not a sound pool"
    Id 5 "the id is below 0 or above 16,777,215"
    NotFinite 6 "a coordinate is infinite or no number"
    OutOfRange 7 "a coordinate in units is outside -262,144 to 262,143"
    NoRoom 8 "the shape needs more blocks than are free"
    NoTile 9 "there is no such tile"
    NoPlace 10 "the place is at or past the tile's number of entries"
    Buffer 11 "a buffer that was lent to be written is too short"
    List 15 "the list is too long or not of whole shapes, or a kind or an unused word is wrong"
}

impl Refusal {
    /// The number that the call returned.
    pub fn number(self) -> u32 {
        self as u32
    }
}

impl fmt::Display for Refusal {
    fn fmt(&self, f: &mut fmt::Formatter) -> fmt::Result {
        write!(f, "refused with {}: {}", self.number(), self.text())
    }
}

impl std::error::Error for Refusal {}
