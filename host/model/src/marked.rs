//! The twelve marked cases, cases where the screen ends inside its last tiles, and the pool case in each layout.

use crate::layout::{Layout, LAYOUTS};
use crate::screen::Screen;
use crate::Vertex;

/// The screen of the marked cases.
pub const SCREEN: Screen = Screen { width: 64, height: 32, s: 4 };

/// A shape, the tiles that it touches, those that its box meets, and those that it covers wholly.
pub struct Marked {
    pub name: &'static str,
    pub shape: &'static [Vertex],
    pub tiles: &'static [u32],
    pub boxed: &'static [u32],
    pub whole: &'static [u32],
}

const ALL: &[u32] = &[0, 1, 2, 3, 4, 5, 6, 7];

/// A shape that covers no tile wholly.
const fn marked(name: &'static str, shape: &'static [Vertex], tiles: &'static [u32], boxed: &'static [u32]) -> Marked {
    Marked { name, shape, tiles, boxed, whole: &[] }
}

/// A shape that covers these tiles wholly, and whose box meets all.
const fn covering(
    name: &'static str,
    shape: &'static [Vertex],
    tiles: &'static [u32],
    whole: &'static [u32],
) -> Marked {
    Marked { name, shape, tiles, boxed: ALL, whole }
}

pub const MARKED: [Marked; 12] = [
    marked("M1", &[[0, 0]], &[0], &[0]),
    marked("M2", &[[256, 100]], &[0, 1], &[0, 1]),
    marked("M3", &[[256, 256]], &[0, 1, 4, 5], &[0, 1, 4, 5]),
    marked("M4", &[[1024, 10]], &[3], &[3]),
    marked("M5", &[[1025, 10]], &[], &[]),
    marked("M6", &[[100, 100], [300, 100]], &[0, 1], &[0, 1]),
    marked("M7", &[[0, 0], [512, 512]], &[0, 1, 4, 5, 6], &[0, 1, 2, 4, 5, 6]),
    marked("M8", &[[0, 0], [512, 512], [256, 256]], &[0, 1, 4, 5, 6], &[0, 1, 2, 4, 5, 6]),
    covering("M9", &[[0, 0], [1024, 0], [0, 512]], &[0, 1, 2, 3, 4, 5, 6], &[0, 1]),
    covering("M10", &[[0, 0], [0, 512], [1024, 0]], &[0, 1, 2, 3, 4, 5, 6], &[0, 1]),
    marked("M11", &[[700, 0], [1024, 0], [1024, 300]], &[2, 3, 7], &[2, 3, 6, 7]),
    covering("M12", &[[-1000, -1000], [5000, -1000], [-1000, 5000]], ALL, ALL),
];

/// A screen of s = 4 that ends inside its last tiles, and cases on it.
pub struct Cut {
    pub screen: Screen,
    pub cases: &'static [Marked],
}

const fn cut(width: u32, height: u32, cases: &'static [Marked]) -> Cut {
    Cut { screen: Screen { width, height, s: 4 }, cases }
}

/// The case of request P2; the same along the other axis; and both sides of the last tile cut. The glass ends at 960 and 448.
pub const CUT: [Cut; 3] = [
    cut(
        60,
        32,
        &[
            marked("(1000,10)", &[[1000, 10]], &[], &[]),
            marked("(960,10)", &[[960, 10]], &[3], &[3]),
            marked("(961,10)", &[[961, 10]], &[], &[]),
            marked("(960,256)", &[[960, 256]], &[3, 7], &[3, 7]),
            marked("(960,512)", &[[960, 512]], &[7], &[7]),
            marked("a line that leaves the glass", &[[900, 10], [1000, 10]], &[3], &[3]),
            marked("a line past the glass", &[[961, 10], [1000, 500]], &[], &[]),
            covering("a triangle up to the end of the glass", &[[960, -512], [960, 512], [-960, 512]], ALL, ALL),
            covering(
                "a triangle up to a unit before it",
                &[[959, -512], [959, 512], [-961, 512]],
                ALL,
                &[0, 1, 2, 4, 5, 6],
            ),
        ],
    ),
    cut(
        64,
        28,
        &[
            marked("(10,500)", &[[10, 500]], &[], &[]),
            marked("(10,448)", &[[10, 448]], &[4], &[4]),
            marked("(10,449)", &[[10, 449]], &[], &[]),
            marked("(256,448)", &[[256, 448]], &[4, 5], &[4, 5]),
            marked("(1024,448)", &[[1024, 448]], &[7], &[7]),
            marked("a line that leaves the glass", &[[10, 300], [10, 500]], &[4], &[4]),
            marked("a line past the glass", &[[10, 449], [1000, 500]], &[], &[]),
            covering("a triangle up to the end of the glass", &[[-448, 448], [1472, 448], [512, -512]], ALL, ALL),
            covering("a triangle up to a unit before it", &[[-447, 447], [1471, 447], [512, -512]], ALL, &[0, 1, 2, 3]),
        ],
    ),
    cut(
        60,
        28,
        &[
            marked("(960,448)", &[[960, 448]], &[7], &[7]),
            marked("(961,448)", &[[961, 448]], &[], &[]),
            marked("(960,449)", &[[960, 449]], &[], &[]),
            marked("(1000,500)", &[[1000, 500]], &[], &[]),
            marked("a line through the corner", &[[952, 456], [968, 440]], &[7], &[7]),
            marked("a line a unit past the corner", &[[953, 456], [969, 440]], &[], &[7]),
            marked("a triangle beside the corner", &[[1000, 408], [920, 489], [1000, 500]], &[], &[7]),
            covering("a triangle over all", &[[0, 0], [2000, 0], [0, 2000]], ALL, ALL),
            covering("a triangle through the corner", &[[0, 0], [1408, 0], [0, 1408]], ALL, ALL),
            covering("a triangle short of the corner", &[[0, 0], [1407, 0], [0, 1407]], ALL, &[0, 1, 2, 3, 4, 5, 6]),
        ],
    ),
];

/// The pool case in a layout, with two blocks: its words, and its header after the opening.
pub struct PoolCase {
    pub layout: Layout,
    pub words: usize,
    pub header: &'static [u32],
}

const fn pool_case(layout: Layout, words: usize, header: &'static [u32]) -> PoolCase {
    PoolCase { layout, words, header }
}

pub const POOL_CASES: [PoolCase; 3] = [
    pool_case(LAYOUTS[0], 104, &[64, 32, 4, 2, 2, 1, 8, 40]),
    pool_case(LAYOUTS[1], 106, &[64, 32, 4, 2, 2, 1, 10, 42, 32, 0]),
    pool_case(LAYOUTS[2], 170, &[64, 32, 4, 2, 2, 1, 10, 42, 64, 0]),
];
