//! How a shape covers a tile, by weights.

use crate::screen::{Rectangle, Screen};
use crate::touch::touches;
use crate::Vertex;

/// How a shape covers a tile, in the order of the numbers that say it.
#[derive(Clone, Copy, PartialEq, Eq, PartialOrd, Ord, Debug)]
pub enum Cover {
    Apart,
    Partly,
    Wholly,
}

/// Whether whole weights exist for the vertices of a shape, none negative and not all zero, whose weighted mean is exactly
/// this point: whether the shape touches the rectangle that has no other.
pub fn has_point(shape: &[Vertex], [x, y]: [i64; 2]) -> bool {
    touches(shape, Rectangle { left: x, right: x, top: y, bottom: y })
}

/// The corners of a rectangle.
pub fn corners(Rectangle { left, right, top, bottom }: Rectangle) -> [[i64; 2]; 4] {
    [[left, top], [right, top], [left, bottom], [right, bottom]]
}

/// How a shape covers a rectangle: wholly exactly if all four corners are points of it.
pub fn cover(shape: &[Vertex], rectangle: Rectangle) -> Cover {
    if !touches(shape, rectangle) {
        Cover::Apart
    } else if corners(rectangle).into_iter().all(|corner| has_point(shape, corner)) {
        Cover::Wholly
    } else {
        Cover::Partly
    }
}

/// The tiles that a shape touches, in rising number, and how it covers each.
pub fn covered(screen: Screen, shape: &[Vertex]) -> Vec<(u32, Cover)> {
    let covers = (0..screen.tiles()).map(|tile| (tile, cover(shape, screen.rectangle(tile))));
    covers.filter(|&(_, cover)| cover != Cover::Apart).collect()
}
