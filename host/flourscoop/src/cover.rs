//! How shapes cover tiles, and the entries that tell it.

use crate::{raw, Refusal, Screen, Shape, Vertex};

/// The flag of an entry: what its word in a pool has beside the id where the shape covers the tile wholly.
pub const WHOLE: u32 = 16_777_216;

/// How a shape covers a tile.
#[derive(Clone, Copy, PartialEq, Eq, Debug)]
pub enum Cover {
    /// it does not touch the tile
    Apart,
    /// it touches the tile, and not all four corners of the tile are points of it
    Partly,
    /// all four corners of the tile are points of it
    Wholly,
}

impl Cover {
    /// The cover that a call wrote as this number.
    fn of(number: u32) -> Cover {
        match number {
            0 => Cover::Apart,
            1 => Cover::Partly,
            2 => Cover::Wholly,
            _ => panic!("a call writes 0, 1 or 2"),
        }
    }

    /// Whether the shape touches the tile.
    pub fn touches(self) -> bool {
        self != Cover::Apart
    }
}

/// An entry of a tile's list: the id of a shape, and whether the shape covers the tile wholly.
#[derive(Clone, Copy, PartialEq, Eq, Debug)]
pub struct Entry {
    pub id: u32,
    pub whole: bool,
}

impl Entry {
    /// The entry that stands in a pool, or in a frame that was read, as this word.
    pub fn of(word: u32) -> Entry {
        Entry { id: word % WHOLE, whole: word / WHOLE % 2 == 1 }
    }

    /// The word that says the entry: its id, plus `WHOLE` where the shape covers the tile wholly.
    pub fn word(self) -> u32 {
        if self.whole {
            self.id + WHOLE
        } else {
            self.id
        }
    }
}

impl From<[u32; 2]> for Entry {
    fn from([id, whole]: [u32; 2]) -> Entry {
        Entry { id, whole: whole == 1 }
    }
}

/// Whether a tile of a screen, as the screen cuts it, meets the shape's bounding box.
pub fn box_touches(screen: Screen, tile: u32, shape: Shape<Vertex>) -> Result<bool, Refusal> {
    raw::box_touches(screen, tile, shape).done().map(|[touches]| touches == 1)
}

/// How the shape covers a tile of a screen, as the screen cuts it.
///
/// ```
/// use flourscoop::{corner_cover, Cover, Screen, Shape, Vertex};
///
/// let screen = Screen { width: 64, height: 32, s: 4 };
/// let [origin, right, low] = [[0, 0], [1024, 0], [0, 512]].map(|[x, y]| Vertex { x, y });
/// let cover_of = |tile| corner_cover(screen, tile, Shape::Triangle(origin, right, low)).unwrap();
///
/// // a corner of tile 1, (512,256), lies on the long side
/// assert_eq!([0, 1, 2, 7].map(cover_of), [Cover::Wholly, Cover::Wholly, Cover::Partly, Cover::Apart]);
/// ```
pub fn corner_cover(screen: Screen, tile: u32, shape: Shape<Vertex>) -> Result<Cover, Refusal> {
    raw::corner_cover(screen, tile, shape).done().map(|[cover]| Cover::of(cover))
}
