//! A safe face of libflourscoop.a, the proved tile binner.
//!
//! ```
//! use flourscoop::{room, unit, Entry, Pool, Refusal, Screen, Shape, Vertex};
//!
//! let screen = Screen { width: 64, height: 32, s: 4 };
//! let mut words = vec![0; room(screen, 2)?];
//! let mut pool = Pool::open(&mut words, screen, 2)?;
//!
//! let binned = pool.bin(7, Shape::Point(Vertex { x: 0, y: 0 }))?;
//! assert_eq!((binned.tiles, binned.blocks, binned.tests), (1, 1, 1));
//! assert_eq!(pool.read(0, 0)?, Entry { id: 7, whole: false });
//!
//! // four tiles meet in this point, three of them are empty, and one block is free
//! assert_eq!(pool.bin(9, Shape::Point(Vertex { x: 256, y: 256 })), Err(Refusal::NoRoom));
//! assert_eq!(pool.release(0)?, 1);
//!
//! // the list is empty again, and its mark stays
//! assert_eq!(pool.read(0, 0), Err(Refusal::NoPlace));
//! assert_eq!(pool.high_water(0)?, 1);
//!
//! // 1.5 units lie half way between two, of which 2 is even
//! assert_eq!(unit(0.09375)?, 2);
//! # Ok::<(), Refusal>(())
//! ```

mod bin_list;
mod cover;
mod frame;
mod inside;
mod map;
mod overlaps;
pub mod raw;
mod refusal;

pub use bin_list::{bin_list_of, refused, BIN_WORDS};
pub use cover::{box_touches, corner_cover, Cover, Entry, WHOLE};
pub use frame::{Counts, Entries, Frame, Tiles};
pub use inside::inside;
pub use map::map;
pub use overlaps::{list_of, overlaps, Overlaps, MOST_SHAPES, SHAPE_WORDS};
pub use refusal::Refusal;

/// A screen of `width` by `height` pixels with tiles of 2^`s` by 2^`s` pixels, numbered row by row from the top left.
///
/// A tile ends where the screen ends. With T = 16·2^`s` units, the one in column c and row r reaches from c·T to the
/// smaller of (c+1)·T and 16·`width`, and from r·T to the smaller of (r+1)·T and 16·`height`, all four sides included. A
/// shape past the ends of the screen is in no tile.
///
/// ```
/// use flourscoop::{corner_cover, Cover, Screen, Shape, Vertex};
///
/// // tile 3 would reach to 1024, and 60 pixels are 960 units
/// let screen = Screen { width: 60, height: 32, s: 4 };
/// let in_tile_3 = |x| corner_cover(screen, 3, Shape::Point(Vertex { x, y: 10 }));
/// assert_eq!(in_tile_3(960), Ok(Cover::Partly));
/// assert_eq!(in_tile_3(1000), Ok(Cover::Apart));
/// ```
#[derive(Clone, Copy, PartialEq, Eq, Debug)]
pub struct Screen {
    pub width: u32,
    pub height: u32,
    pub s: u32,
}

/// A vertex in units, a sixteenth of a pixel each; x to the right, y down.
#[derive(Clone, Copy, PartialEq, Eq, Debug)]
pub struct Vertex {
    pub x: i32,
    pub y: i32,
}

/// A vertex in pixels.
#[derive(Clone, Copy, PartialEq, Debug)]
pub struct Pixel {
    pub x: f32,
    pub y: f32,
}

/// A shape, in units as `Shape<Vertex>` or in pixels as `Shape<Pixel>`.
#[derive(Clone, Copy, PartialEq, Eq, Debug)]
pub enum Shape<V> {
    Point(V),
    Line(V, V),
    Triangle(V, V, V),
}

impl<V: Copy> Shape<V> {
    /// The shape with these vertices, where they are one, two or three.
    pub fn of(vertices: &[V]) -> Option<Shape<V>> {
        match *vertices {
            [a] => Some(Shape::Point(a)),
            [a, b] => Some(Shape::Line(a, b)),
            [a, b, c] => Some(Shape::Triangle(a, b, c)),
            _ => None,
        }
    }
}

impl<V> raw::Answer<V> {
    /// The values of a call that was done, or why it was refused.
    pub fn done(self) -> Result<V, Refusal> {
        match self.number {
            0 => Ok(self.values),
            number => Err(Refusal::of(number).expect("a call returns 0 or the number of a refusal")),
        }
    }
}

/// What the bin of a shape did.
///
/// A shape with all vertices on the screen, its ends included, has a walk that starts in the tile of the topmost vertex, of
/// several the leftmost. In each row it tests tiles to the right until one is not touched or the grid ends, and then to the
/// left; in the next row first those below the tiles that were touched, from left to right, until one is. It ends with the
/// last row that the shape touches. The tests are at most twice the tiles, and one for each row of them.
///
/// ```
/// use flourscoop::{room, Binned, Pool, Refusal, Screen, Shape, Vertex};
///
/// let screen = Screen { width: 64, height: 32, s: 4 };
/// let mut words = vec![0; room(screen, 8)?];
/// let mut pool = Pool::open(&mut words, screen, 8)?;
/// let [a, b, c] = [[10, 10], [1000, 200], [900, 500]].map(|[x, y]| Vertex { x, y });
///
/// // tile 0 is where it starts; 1, 2 and 3 are tested, then 4, which it misses, 5, 6, 7, and 4 again
/// assert_eq!(pool.bin(1, Shape::Triangle(a, b, c))?, Binned { tiles: 7, blocks: 7, tests: 8 });
///
/// // a unit off the screen
/// let off = Vertex { x: -1, y: 10 };
/// assert_eq!(pool.bin(2, Shape::Line(off, a))?, Binned { tiles: 1, blocks: 0, tests: 0 });
/// # Ok::<(), Refusal>(())
/// ```
#[derive(Clone, Copy, PartialEq, Eq, Debug)]
pub struct Binned {
    /// the tiles in which the shape was listed
    pub tiles: u32,
    /// the blocks taken for it
    pub blocks: u32,
    /// the tests of the walk that found the tiles; 0 where a vertex is off the screen, since they are then found in another way
    pub tests: u32,
}

impl From<[u32; 3]> for Binned {
    fn from([tiles, blocks, tests]: [u32; 3]) -> Binned {
        Binned { tiles, blocks, tests }
    }
}

/// The words that a pool of edition one needs, or the refusal that an opening of it gets for any slice.
pub fn room(screen: Screen, blocks: u32) -> Result<usize, Refusal> {
    room_behind(8, screen, blocks, 32)
}

/// The same of edition two, in which a block has so many words.
pub fn room_two(screen: Screen, blocks: u32, block_words: u32) -> Result<usize, Refusal> {
    room_behind(10, screen, blocks, block_words)
}

/// The same of a pool whose header has so many words.
fn room_behind(header: usize, screen: Screen, blocks: u32, block_words: u32) -> Result<usize, Refusal> {
    let Screen { width, height, s } = screen;
    if !(1..=4096).contains(&width) || !(1..=4096).contains(&height) || !(3..=6).contains(&s) {
        return Err(Refusal::Screen);
    }
    let across = |extent: u32| extent.div_ceil(1 << s) as usize;
    let tiles = across(width) * across(height);
    if tiles > 4096 {
        return Err(Refusal::Screen);
    }
    if blocks > 2048 || ![32, 64].contains(&block_words) {
        return Err(Refusal::Blocks);
    }
    Ok(header + 4 * tiles + (block_words * blocks) as usize)
}

/// A pool of either edition in words that the caller lends. Every call audits it first.
#[derive(Debug)]
pub struct Pool<'a> {
    words: &'a mut [u32],
}

impl<'a> Pool<'a> {
    /// Opens a pool of edition one, in which a block holds 31 ids: all tiles empty, all marks 0, all blocks free. Words past
    /// the room needed stay as they are.
    pub fn open(words: &'a mut [u32], screen: Screen, blocks: u32) -> Result<Pool<'a>, Refusal> {
        raw::open(words, screen, blocks).done()?;
        Ok(Pool { words })
    }

    /// The same of edition two, in which a block has 32 or 64 words and holds 31 or 63 ids. Another size is refused as too
    /// many blocks are.
    ///
    /// ```
    /// use flourscoop::{room_two, Pool, Refusal, Screen, Shape, Vertex};
    ///
    /// let screen = Screen { width: 64, height: 32, s: 4 };
    /// let mut words = vec![0; room_two(screen, 2, 64)?];
    /// assert_eq!(Pool::open_two(&mut words, screen, 2, 48).err(), Some(Refusal::Blocks));
    ///
    /// let mut pool = Pool::open_two(&mut words, screen, 2, 64)?;
    /// for id in 0..63 {
    ///     pool.bin(id, Shape::Point(Vertex { x: 0, y: 0 }))?;
    /// }
    /// assert_eq!(pool.release(0)?, 1);
    /// # Ok::<(), Refusal>(())
    /// ```
    pub fn open_two(words: &'a mut [u32], screen: Screen, blocks: u32, block_words: u32) -> Result<Pool<'a>, Refusal> {
        raw::open_two(words, screen, blocks, block_words).done()?;
        Ok(Pool { words })
    }

    /// The pool that stands in the words, whatever they are.
    pub fn over(words: &'a mut [u32]) -> Pool<'a> {
        Pool { words }
    }

    /// Whether the pool is sound.
    pub fn is_sound(&self) -> bool {
        raw::audit(self.words).done().is_ok()
    }

    /// Appends the id to the list of each tile that the shape touches, with whether it covers the tile wholly, or changes
    /// nothing. A shape off the screen is accepted, and touches none.
    pub fn bin(&mut self, id: u32, shape: Shape<Vertex>) -> Result<Binned, Refusal> {
        raw::bin(self.words, id, shape).done().map(Binned::from)
    }

    /// The same of a shape in pixels. Each coordinate goes to the nearest unit, a half to the even one.
    pub fn bin_pixels(&mut self, id: u32, shape: Shape<Pixel>) -> Result<Binned, Refusal> {
        raw::bin_pixels(self.words, id, shape).done().map(Binned::from)
    }

    /// The entry at a place of a tile's list, places counted from 0. Each read audits the pool: `read_list` and `read_all` read
    /// many entries with one audit.
    pub fn read(&self, tile: u32, place: u32) -> Result<Entry, Refusal> {
        raw::read(self.words, tile, place).done().map(Entry::from)
    }

    /// A tile's mark: the most entries that its list had since the opening.
    ///
    /// Where no call since then was refused for room, a pool of the same edition and block size for the same screen, with as
    /// many blocks as the marks of all tiles need by the ids that a block holds, gives each of these calls the same answer.
    pub fn high_water(&self, tile: u32) -> Result<u32, Refusal> {
        raw::high_water(self.words, tile).done().map(|[entries]| entries)
    }

    /// Empties a tile's list and gives its blocks back; its mark stays. The answer is how many they were.
    pub fn release(&mut self, tile: u32) -> Result<u32, Refusal> {
        raw::release(self.words, tile).done().map(|[blocks]| blocks)
    }

    /// The words of the pool.
    pub fn words(&self) -> &[u32] {
        self.words
    }
}

/// The unit of a coordinate in pixels: the whole number nearest to 16 times it, a half to the even one.
pub fn unit(v: f32) -> Result<i32, Refusal> {
    raw::unit(v).done().map(|[unit]| unit as i32)
}
