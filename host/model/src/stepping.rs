//! The stepping walk of request P5, step by step: the tiles that it tests, in order, and those that it lists; and how many a walk
//! through the box tests.

use std::ops::RangeInclusive;

use crate::screen::{Rectangle, Screen};
use crate::touch::{box_meets, touches};
use crate::Vertex;

/// What a walk over a shape on the screen does.
#[derive(Clone, PartialEq, Eq, Debug)]
pub struct Walk {
    /// the tile where it starts
    pub start: u32,
    /// the tiles that it tests, in order, one that it comes back to once more
    pub tested: Vec<u32>,
    /// the tiles that it lists, in rising number
    pub listed: Vec<u32>,
    /// how many rows these are in
    pub rows: u32,
}

/// Whether all vertices of a shape are on the screen, its ends included.
pub fn on_screen(screen: Screen, shape: &[Vertex]) -> bool {
    shape.iter().all(|&[x, y]| {
        (0..=16 * i64::from(screen.width)).contains(&x.into())
            && (0..=16 * i64::from(screen.height)).contains(&y.into())
    })
}

/// along/side rounded down: the last whole number of sides that is not past it.
fn rounded_down(along: i32, side: i64) -> i64 {
    (1..).find(|sides| sides * side > along.into()).unwrap() - 1
}

/// along/side rounded up: the first whole number of sides that is not before it.
fn rounded_up(along: i32, side: i64) -> i64 {
    (0..).find(|sides| sides * side >= along.into()).unwrap()
}

/// The number that is held to the first so many from 0 on.
fn held(number: i64, count: u32) -> u32 {
    number.clamp(0, i64::from(count) - 1) as u32
}

/// The row and the column where the walk starts: those of the topmost vertex, of several the leftmost.
fn start(screen: Screen, shape: &[Vertex]) -> (u32, u32) {
    let &[x, y] = shape.iter().min_by_key(|&&[x, y]| (y, x)).unwrap();
    let row = held(rounded_up(y, screen.side()) - 1, screen.rows());
    let column = held(rounded_down(x, screen.side()), screen.columns());
    (row, column)
}

/// The last row that a shape on the screen touches; a row is all its tiles together.
fn last_row(screen: Screen, shape: &[Vertex]) -> u32 {
    let row = |row: u32| {
        let first = screen.rectangle(row * screen.columns());
        Rectangle { right: 16 * i64::from(screen.width), ..first }
    };
    (0..screen.rows()).rev().find(|&number| touches(shape, row(number))).unwrap()
}

/// A walk on its way.
struct Walking<'a> {
    screen: Screen,
    shape: &'a [Vertex],
    tested: Vec<u32>,
}

impl Walking<'_> {
    /// Tests a tile.
    fn test(&mut self, row: u32, column: u32) -> bool {
        let tile = row * self.screen.columns() + column;
        self.tested.push(tile);
        touches(self.shape, self.screen.rectangle(tile))
    }

    /// The columns of a row's run around a touched tile: to the right until a miss or the grid's edge, then to the left.
    fn run(&mut self, row: u32, from: u32) -> RangeInclusive<u32> {
        let (mut first, mut last) = (from, from);
        while last + 1 < self.screen.columns() && self.test(row, last + 1) {
            last += 1;
        }
        while first > 0 && self.test(row, first - 1) {
            first -= 1;
        }
        first..=last
    }
}

/// The stepping walk over a shape; none where a vertex is off the screen.
pub fn walk(screen: Screen, shape: &[Vertex]) -> Option<Walk> {
    if !on_screen(screen, shape) {
        return None;
    }
    let (first, column) = start(screen, shape);
    let last = last_row(screen, shape);
    let mut walking = Walking { screen, shape, tested: Vec::new() };
    let mut runs = vec![walking.run(first, column)];
    for row in first + 1..=last {
        let mut above = runs[runs.len() - 1].clone();
        let column = above.find(|&column| walking.test(row, column)).expect("a tile below the run is touched");
        runs.push(walking.run(row, column));
    }
    let listed = (first..).zip(&runs).flat_map(|(row, run)| run.clone().map(move |at| row * screen.columns() + at));
    Some(Walk {
        start: first * screen.columns() + column,
        tested: walking.tested,
        listed: listed.collect(),
        rows: runs.len() as u32,
    })
}

/// The tests that a bin of a shape in range makes: those of the stepping walk, and 0 where a vertex is off the screen.
pub fn tests(screen: Screen, shape: &[Vertex]) -> u32 {
    walk(screen, shape).map_or(0, |walk| walk.tested.len() as u32)
}

/// How many tiles a walk through the box of a shape tests: row by row, from the left until the run has ended.
pub fn tests_through_box(screen: Screen, shape: &[Vertex]) -> u32 {
    let in_row = |row: u32| {
        let tiles = (0..screen.columns()).map(|column| screen.rectangle(row * screen.columns() + column));
        let boxed: Vec<bool> = tiles.filter(|&tile| box_meets(shape, tile)).map(|tile| touches(shape, tile)).collect();
        let begins = boxed.iter().position(|&touched| touched).unwrap_or(boxed.len());
        let misses = boxed[begins..].iter().position(|&touched| !touched);
        misses.map_or(boxed.len(), |run| begins + run + 1) as u32
    };
    (0..screen.rows()).map(in_row).sum()
}
