//! Touching, by weights; and the box.

use crate::number;
use crate::screen::{Rectangle, Screen};
use crate::{Vertex, UNITS};

/// a·u + b·v + c is not negative.
#[derive(Clone, Copy)]
struct Row {
    a: i128,
    b: i128,
    c: i128,
}

/// How far a vertex lies inside each of the four sides; negative outside.
fn inside(vertex: Vertex, rectangle: Rectangle) -> [i128; 4] {
    let (x, y) = (i64::from(vertex[0]), i64::from(vertex[1]));
    [x - rectangle.left, rectangle.right - x, y - rectangle.top, rectangle.bottom - y].map(i128::from)
}

/// Rows without v, which u meets exactly if some v goes with it: each row that bounds v from below, joined with each
/// that bounds it from above.
fn without_v(rows: &[Row]) -> impl Iterator<Item = Row> + '_ {
    let free_of_v = rows.iter().copied().filter(|row| row.b == 0);
    let from_below = rows.iter().filter(|row| row.b > 0);
    let joined = from_below.flat_map(|low| {
        let from_above = rows.iter().filter(|row| row.b < 0);
        from_above.map(|high| Row { a: low.a * -high.b + high.a * low.b, b: 0, c: low.c * -high.b + high.c * low.b })
    });
    free_of_v.chain(joined)
}

/// Whether some rational u and v meet all rows.
fn feasible(rows: &[Row]) -> bool {
    let of_u: Vec<Row> = without_v(rows).map(|row| Row { a: 0, b: row.a, c: row.c }).collect();
    let mut of_neither = without_v(&of_u);
    of_neither.all(|row| row.c >= 0)
}

/// Whether weights exist for three vertices, the first of weight one and the others, u and v, not negative, whose
/// weighted mean lies in the rectangle.
fn feasible_with_first(vertices: [Vertex; 3], rectangle: Rectangle) -> bool {
    let [one, u, v] = vertices.map(|vertex| inside(vertex, rectangle));
    let inside = |side: usize| Row { a: u[side], b: v[side], c: one[side] };
    let (not_negative_u, not_negative_v) = (Row { a: 1, b: 0, c: 0 }, Row { a: 0, b: 1, c: 0 });
    feasible(&[not_negative_u, not_negative_v, inside(0), inside(1), inside(2), inside(3)])
}

/// Whether a shape of one to three vertices touches a rectangle: whole weights exist, none negative and not all zero,
/// with sum n, such that the weighted sum of the vertices lies within n times the rectangle.
///
/// One of the weights is not zero, so it is one after a division by it. A vertex that stands twice changes no answer, as
/// its two weights add up.
pub fn touches(shape: &[Vertex], rectangle: Rectangle) -> bool {
    let (first, middle, last) = (shape[0], shape[shape.len() / 2], shape[shape.len() - 1]);
    [[first, middle, last], [middle, last, first], [last, first, middle]]
        .into_iter()
        .any(|vertices| feasible_with_first(vertices, rectangle))
}

/// Whether a shape's bounding box meets a rectangle.
pub fn box_meets(shape: &[Vertex], rectangle: Rectangle) -> bool {
    let range = |axis: usize| {
        let along = || shape.iter().map(|vertex| i64::from(vertex[axis]));
        (along().min().unwrap(), along().max().unwrap())
    };
    let ((left, right), (top, bottom)) = (range(0), range(1));
    left <= rectangle.right && rectangle.left <= right && top <= rectangle.bottom && rectangle.top <= bottom
}

/// Whether every coordinate is in the range of a vertex.
pub fn in_range(shape: &[Vertex]) -> bool {
    shape.iter().flatten().all(|unit| UNITS.contains(unit))
}

/// The tiles that a shape touches, in rising number.
pub fn touched(screen: Screen, shape: &[Vertex]) -> Vec<u32> {
    (0..screen.tiles()).filter(|&tile| touches(shape, screen.rectangle(tile))).collect()
}

/// The answer to a question on a shape and a tile of a screen, where `way` is `box_meets` or `cover`.
pub fn question<A>(screen: Screen, tile: u32, shape: &[Vertex], way: fn(&[Vertex], Rectangle) -> A) -> Result<A, u32> {
    if !screen.allowed() {
        return Err(number::SCREEN);
    }
    if tile >= screen.tiles() {
        return Err(number::NO_TILE);
    }
    if !in_range(shape) {
        return Err(number::OUT_OF_RANGE);
    }
    Ok(way(shape, screen.rectangle(tile)))
}
