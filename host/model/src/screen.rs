//! The screen, its tiles and their closed rectangles.

/// A screen of `width` by `height` pixels with tiles of 2^`s` by 2^`s` pixels.
#[derive(Clone, Copy, PartialEq, Eq, Debug)]
pub struct Screen {
    pub width: u32,
    pub height: u32,
    pub s: u32,
}

/// A closed rectangle in units, all four sides included.
#[derive(Clone, Copy, PartialEq, Eq, Debug)]
pub struct Rectangle {
    pub left: i64,
    pub right: i64,
    pub top: i64,
    pub bottom: i64,
}

impl Screen {
    /// Whether the screen is within the rules.
    pub fn allowed(self) -> bool {
        (1..=4096).contains(&self.width)
            && (1..=4096).contains(&self.height)
            && (3..=6).contains(&self.s)
            && self.tiles() <= 4096
    }

    /// The columns of a screen whose s is within the rules.
    pub fn columns(self) -> u32 {
        self.width.div_ceil(1 << self.s)
    }

    /// The rows of a screen whose s is within the rules.
    pub fn rows(self) -> u32 {
        self.height.div_ceil(1 << self.s)
    }

    /// The tiles of a screen whose sides and s are within the rules.
    pub fn tiles(self) -> u32 {
        self.columns() * self.rows()
    }

    /// T, the side of a tile in units.
    pub fn side(self) -> i64 {
        16 << self.s
    }

    /// The rectangle of a tile: its right side is the smaller of (c+1)·T and 16·width, its bottom likewise with the height.
    pub fn rectangle(self, tile: u32) -> Rectangle {
        let column = i64::from(tile % self.columns());
        let row = i64::from(tile / self.columns());
        Rectangle {
            left: column * self.side(),
            right: ((column + 1) * self.side()).min(16 * i64::from(self.width)),
            top: row * self.side(),
            bottom: ((row + 1) * self.side()).min(16 * i64::from(self.height)),
        }
    }
}
