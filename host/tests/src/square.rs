//! Tiles as full squares, to count where it matters that the screen cuts them.

use model::screen::{Rectangle, Screen};
use model::touch::touches;
use model::Vertex;

/// Whether the screen ends inside its last tiles along both axes.
pub fn cut_both_ways(screen: Screen) -> bool {
    [screen.width, screen.height].iter().all(|extent| extent % (1 << screen.s) != 0)
}

/// The full square of a tile.
pub fn square(screen: Screen, tile: u32) -> Rectangle {
    let Rectangle { left, top, .. } = screen.rectangle(tile);
    Rectangle { left, right: left + screen.side(), top, bottom: top + screen.side() }
}

/// How many tiles a shape would touch if all were full squares.
pub fn squares_touched(screen: Screen, shape: &[Vertex]) -> u32 {
    (0..screen.tiles()).filter(|&tile| touches(shape, square(screen, tile))).count() as u32
}
