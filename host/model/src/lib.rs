//! What document 01 says, with requests P1, P2, P4, P5, P6, P8, P9, P10 and P12 of document 02, in plain Rust, for the archive to
//! be held against.
//!
//! It shares no code and no method with the library: touching is the question whether weights exist, answered by
//! elimination, and so is whether a corner is a point of a shape; a unit is computed from the bits of the f32; a pool is a state with a vector for each list, from which
//! all words are laid out anew; soundness is read off the words sentence by sentence; a total is a sum of products, over
//! the different shapes of a list; a list with ids is binned one by one; the stepping walk asks about each of its tiles anew, and
//! what a bin lists does not come from it; a map asks about each tile, and no square; where a list starts in a frame is the sum of
//! all lengths before it; a shape is inside another where weights are found for each of its vertices, and these are checked.

mod bin_list;
pub mod cover;
pub mod frame;
pub mod inside;
pub mod layout;
pub mod listed;
pub mod marked;
pub mod nested;
pub mod overlaps;
pub mod pool;
pub mod quarters;
mod runs;
pub mod screen;
pub mod shapes;
pub mod stepped;
pub mod stepping;
pub mod touch;
pub mod unit;

/// The numbers that calls return.
pub mod number {
    pub const DONE: u32 = 0;
    pub const SCREEN: u32 = 1;
    pub const BLOCKS: u32 = 2;
    pub const SHORT: u32 = 3;
    pub const UNSOUND: u32 = 4;
    pub const ID: u32 = 5;
    pub const NOT_FINITE: u32 = 6;
    pub const OUT_OF_RANGE: u32 = 7;
    pub const NO_ROOM: u32 = 8;
    pub const NO_TILE: u32 = 9;
    pub const NO_PLACE: u32 = 10;
    pub const BUFFER: u32 = 11;
    pub const LIST: u32 = 15;
}

/// A vertex in units: x and y.
pub type Vertex = [i32; 2];

/// A vertex in pixels: the bits of two f32, x and y.
pub type Pixel = [u32; 2];

/// The least and the greatest unit of a vertex.
pub const UNITS: std::ops::RangeInclusive<i32> = -262_144..=262_143;
