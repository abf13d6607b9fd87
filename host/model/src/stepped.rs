//! Shapes whose stepping walks were made by hand.

use crate::marked::SCREEN;
use crate::screen::Screen;
use crate::Vertex;

/// A shape on a screen, the tile where its walk starts, and the tiles that this tests, in order. A shape that reaches off the
/// screen has no walk.
pub struct Stepped {
    pub name: &'static str,
    pub screen: Screen,
    pub shape: &'static [Vertex],
    pub walk: Option<(u32, &'static [u32])>,
}

/// A shape on the screen of the marked cases.
const fn stepped(name: &'static str, shape: &'static [Vertex], start: u32, tested: &'static [u32]) -> Stepped {
    Stepped { name, screen: SCREEN, shape, walk: Some((start, tested)) }
}

/// A shape on a screen of 60 by 28, which ends at 960 and 448.
const fn cut(name: &'static str, shape: &'static [Vertex], start: u32, tested: &'static [u32]) -> Stepped {
    Stepped { screen: Screen { width: 60, height: 28, s: 4 }, ..stepped(name, shape, start, tested) }
}

/// A shape that reaches off the screen of the marked cases.
const fn off(name: &'static str, shape: &'static [Vertex]) -> Stepped {
    Stepped { name, screen: SCREEN, shape, walk: None }
}

pub const STEPPED: [Stepped; 28] = [
    stepped("M1", &[[0, 0]], 0, &[1]),
    stepped("M2", &[[256, 100]], 1, &[2, 0]),
    stepped("M3", &[[256, 256]], 1, &[2, 0, 4, 5, 6]),
    stepped("M4", &[[1024, 10]], 3, &[2]),
    off("M5", &[[1025, 10]]),
    stepped("M6", &[[100, 100], [300, 100]], 0, &[1, 2]),
    stepped("M7", &[[0, 0], [512, 512]], 0, &[1, 2, 4, 5, 6, 7]),
    stepped("M8", &[[0, 0], [512, 512], [256, 256]], 0, &[1, 2, 4, 5, 6, 7]),
    stepped("M9", &[[0, 0], [1024, 0], [0, 512]], 0, &[1, 2, 3, 4, 5, 6, 7]),
    stepped("M10", &[[0, 0], [0, 512], [1024, 0]], 0, &[1, 2, 3, 4, 5, 6, 7]),
    stepped("M11", &[[700, 0], [1024, 0], [1024, 300]], 2, &[3, 1, 6, 7, 6]),
    off("M12", &[[-1000, -1000], [5000, -1000], [-1000, 5000]]),
    stepped("the last corner", &[[1024, 512]], 7, &[6]),
    stepped("a point between two tiles of the last row's end", &[[512, 512]], 6, &[7, 5, 4]),
    stepped("a tile is tested twice", &[[10, 10], [1000, 200], [900, 500]], 0, &[1, 2, 3, 4, 5, 6, 7, 4]),
    stepped("a line to the left", &[[300, 500], [1000, 10]], 3, &[2, 1, 6, 7, 5, 4]),
    stepped("a line between the rows", &[[1024, 256], [0, 256]], 0, &[1, 2, 3, 4, 5, 6, 7]),
    stepped("a line between two columns", &[[512, 512], [512, 0]], 2, &[3, 1, 0, 5, 6, 7, 4]),
    stepped("two topmost vertices", &[[900, 20], [600, 400], [300, 20]], 1, &[2, 3, 0, 5, 6, 7, 4]),
    stepped("down to where row 1 begins", &[[300, 20], [300, 256]], 1, &[2, 0, 5, 6, 4]),
    stepped("down to a unit above it", &[[300, 20], [300, 255]], 1, &[2, 0]),
    stepped("from a unit below row 0", &[[300, 257], [300, 400]], 5, &[6, 4]),
    cut("the last corner", &[[960, 448]], 7, &[6]),
    cut("the end of row 0", &[[960, 256]], 3, &[2, 7, 6]),
    cut("the end of column 0", &[[256, 448]], 5, &[6, 4]),
    cut("from corner to corner", &[[960, 0], [0, 448]], 3, &[2, 1, 0, 5, 6, 4]),
    off("a unit off the left", &[[-1, 10], [300, 10]]),
    off("a unit off the bottom", &[[10, 10], [300, 513], [20, 20]]),
];
