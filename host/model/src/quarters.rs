//! The byte map of request P9: by definition, tile by tile; and by quarters, step by step, with how many tests that takes.

use crate::cover::{cover, Cover};
use crate::screen::{Rectangle, Screen};
use crate::touch::{in_range, touches};
use crate::{number, Vertex};

/// The bytes of a shape's map, one for each tile, where so many are lent; or the number of the refusal.
pub fn map(screen: Screen, shape: &[Vertex], bytes: usize) -> Result<Vec<u8>, u32> {
    if !screen.allowed() {
        return Err(number::SCREEN);
    }
    if !in_range(shape) {
        return Err(number::OUT_OF_RANGE);
    }
    if bytes < screen.tiles() as usize {
        return Err(number::BUFFER);
    }
    Ok((0..screen.tiles()).map(|tile| u8::from(touches(shape, screen.rectangle(tile)))).collect())
}

/// A square of tiles, some of which may be off the grid: the column and the row of its first tile, and its side in tiles.
#[derive(Clone, Copy)]
struct Square {
    column: u32,
    row: u32,
    side: u32,
}

impl Square {
    /// The smallest with a power of two as its side that holds the grid.
    fn over(screen: Screen) -> Square {
        let holds = |&side: &u32| screen.columns() <= side && screen.rows() <= side;
        let side = (0..).map(|power| 1 << power).find(holds).unwrap();
        Square { column: 0, row: 0, side }
    }

    fn quarters(self) -> [Square; 4] {
        let side = self.side / 2;
        [[0, 0], [side, 0], [0, side], [side, side]].map(|[right, down]| Square {
            column: self.column + right,
            row: self.row + down,
            side,
        })
    }

    /// Its tiles on the grid, in rising number.
    fn tiles(self, screen: Screen) -> Vec<u32> {
        let columns = || (self.column..self.column + self.side).filter(|&column| column < screen.columns());
        let rows = (self.row..self.row + self.side).filter(|&row| row < screen.rows());
        rows.flat_map(|row| columns().map(move |column| row * screen.columns() + column)).collect()
    }
}

/// All that these tiles, those of a square on the grid, cover together: from where the first begins to where the last ends.
fn union(screen: Screen, tiles: &[u32]) -> Rectangle {
    let [first, last] = [tiles[0], tiles[tiles.len() - 1]].map(|tile| screen.rectangle(tile));
    Rectangle { right: last.right, bottom: last.bottom, ..first }
}

/// What a walk by quarters gives: the map, and how many tests it made. A test is one question about one square that has a tile
/// on the grid, the first one and single tiles included.
#[derive(Clone, PartialEq, Eq, Debug)]
pub struct Quartered {
    pub map: Vec<u8>,
    pub tests: u32,
}

impl Quartered {
    /// Goes through a square: off the grid there is nothing to ask; one that is apart is left out; one that is wholly covered, and
    /// a single tile, is filled; and any other is split.
    fn walk(&mut self, screen: Screen, square: Square, ask: &impl Fn(Rectangle) -> Cover) {
        let tiles = square.tiles(screen);
        if tiles.is_empty() {
            return;
        }
        self.tests += 1;
        match ask(union(screen, &tiles)) {
            Cover::Apart => (),
            Cover::Partly if square.side > 1 => {
                square.quarters().into_iter().for_each(|quarter| self.walk(screen, quarter, ask));
            }
            Cover::Partly | Cover::Wholly => tiles.iter().for_each(|&tile| self.map[tile as usize] = 1),
        }
    }

    fn by(screen: Screen, ask: impl Fn(Rectangle) -> Cover) -> Quartered {
        let mut quartered = Quartered { map: vec![0; screen.tiles() as usize], tests: 0 };
        quartered.walk(screen, Square::over(screen), &ask);
        quartered
    }
}

/// The walk by quarters alone: a test says whether the shape touches the square.
pub fn by_quarters_alone(screen: Screen, shape: &[Vertex]) -> Quartered {
    Quartered::by(screen, |square| if touches(shape, square) { Cover::Partly } else { Cover::Apart })
}

/// The same with a step for squares that are wholly covered: a test says how the shape covers the square.
pub fn by_quarters(screen: Screen, shape: &[Vertex]) -> Quartered {
    Quartered::by(screen, |square| cover(shape, square))
}
