//! Pairs of shapes, each with whether the first is inside the second, and which of the marked cases are inside others, decided by hand.

use crate::Vertex;

/// Two shapes, and whether the first is inside the second.
pub struct Nested {
    pub name: &'static str,
    pub first: &'static [Vertex],
    pub second: &'static [Vertex],
    pub inside: bool,
}

/// A pair of which the first is inside.
const fn within(name: &'static str, first: &'static [Vertex], second: &'static [Vertex]) -> Nested {
    Nested { name, first, second, inside: true }
}

/// A pair of which it is not.
const fn beyond(name: &'static str, first: &'static [Vertex], second: &'static [Vertex]) -> Nested {
    Nested { name, first, second, inside: false }
}

/// The right angle at (0,0), and the long side through (10,5).
const RIGHT: &[Vertex] = &[[0, 0], [20, 0], [0, 10]];
/// On a line through (0,0) and (6,3), with the middle vertex last.
const FLAT: &[Vertex] = &[[-4, -2], [8, 4], [2, 1]];
const LINE: &[Vertex] = &[[-4, -2], [8, 4]];
const POINT: &[Vertex] = &[[7, -9]];

/// The four corners of the range are (-262144,-262144), (262143,-262144), (-262144,262143) and (262143,262143).
const HALF: &[Vertex] = &[[-262_144, -262_144], [262_143, -262_144], [-262_144, 262_143]];
const DIAGONAL: &[Vertex] = &[[-262_144, 262_143], [262_143, -262_144]];

pub const NESTED: [Nested; 56] = [
    // points of a triangle
    within("a vertex", &[[20, 0]], RIGHT),
    within("on an edge", &[[7, 0]], RIGHT),
    within("on the long side", &[[10, 5]], RIGHT),
    within("between the edges", &[[3, 3]], RIGHT),
    beyond("a unit past the long side", &[[10, 6]], RIGHT),
    beyond("a unit past it to the side", &[[11, 5]], RIGHT),
    beyond("a unit past an edge", &[[7, -1]], RIGHT),
    beyond("a unit past the other edge", &[[-1, 4]], RIGHT),
    beyond("an edge drawn on past its vertex", &[[21, 0]], RIGHT),
    beyond("in the box alone", &[[20, 10]], RIGHT),
    // lines and triangles in a triangle
    within("itself", RIGHT, RIGHT),
    within("itself the other way round", &[[0, 0], [0, 10], [20, 0]], RIGHT),
    within("an edge", &[[20, 0], [0, 10]], RIGHT),
    within("a part of an edge", &[[8, 6], [18, 1]], RIGHT),
    within("from a vertex to the edge across", &[[0, 0], [10, 5]], RIGHT),
    within("a line of no length", &[[3, 3], [3, 3]], RIGHT),
    within("a vertex on each edge", &[[10, 0], [10, 5], [0, 5]], RIGHT),
    within("without area, on an edge", &[[0, 0], [20, 0], [5, 0]], RIGHT),
    within("three times a vertex", &[[0, 10], [0, 10], [0, 10]], RIGHT),
    beyond("a line with one end a unit out", &[[3, 3], [11, 5]], RIGHT),
    beyond("a line across, both ends out", &[[-1, 1], [21, 1]], RIGHT),
    beyond("the first vertex a unit out", &[[-1, 0], [10, 5], [0, 5]], RIGHT),
    beyond("the second vertex a unit out", &[[10, 0], [11, 5], [0, 5]], RIGHT),
    beyond("the third vertex a unit out", &[[10, 0], [10, 5], [0, 11]], RIGHT),
    beyond("all vertices out, around it", &[[-1, -1], [30, -1], [-1, 20]], RIGHT),
    // in a line
    within("an end", &[[8, 4]], LINE),
    within("between the ends", &[[6, 3]], LINE),
    within("itself backwards", &[[8, 4], [-4, -2]], LINE),
    within("a triangle without area in its long edge", FLAT, LINE),
    within("a triangle of one point in a line", &[[2, 1], [2, 1], [2, 1]], LINE),
    beyond("beside the line", &[[6, 4]], LINE),
    beyond("on the line past its end", &[[10, 5]], LINE),
    beyond("on the line before its end", &[[-6, -3]], LINE),
    beyond("a line that is longer", &[[-4, -2], [10, 5]], LINE),
    beyond("a triangle with area", &[[-4, -2], [8, 4], [2, 2]], LINE),
    // in a triangle without area
    within("a point of it", &[[6, 3]], FLAT),
    within("its end that is second", &[[8, 4]], FLAT),
    within("a line in a triangle without area", LINE, FLAT),
    within("the same in another order", &[[8, 4], [2, 1], [-4, -2]], FLAT),
    beyond("a point beside it", &[[1, 1]], FLAT),
    beyond("a line that is longer than it", &[[-6, -3], [8, 4]], FLAT),
    within("along x", &[[5, 3], [9, 3]], &[[9, 3], [2, 3], [4, 3]]),
    beyond("along x, a unit further", &[[5, 3], [10, 3]], &[[9, 3], [2, 3], [4, 3]]),
    within("along y", &[[3, 5], [3, 9]], &[[3, 9], [3, 9], [3, 2]]),
    beyond("along y, a unit further", &[[3, 1], [3, 9]], &[[3, 9], [3, 9], [3, 2]]),
    // in a point
    within("a point in itself", POINT, POINT),
    within("a line of no length in its point", &[[7, -9], [7, -9]], POINT),
    within("a point in a line of no length", POINT, &[[7, -9], [7, -9]]),
    within("a point in a triangle of one point", POINT, &[[7, -9], [7, -9], [7, -9]]),
    beyond("a point a unit beside", &[[7, -8]], POINT),
    beyond("a line from a point", &[[7, -9], [7, -10]], POINT),
    // at the ends of the range
    within("a corner of the range", &[[262_143, -262_144]], HALF),
    within("on the long side at the ends of the range", DIAGONAL, HALF),
    within("(0,-1) on the diagonal of the range", &[[0, -1]], DIAGONAL),
    beyond("(0,0) a unit past it", &[[0, 0]], HALF),
    beyond("the corner across", &[[262_143, 262_143]], HALF),
];

/// For each of the marked cases, M1 to M12, those of the others that it is inside.
pub const AMONG_MARKED: [&[&str]; 12] = [
    &["M7", "M8", "M9", "M10", "M12"],
    &["M6", "M9", "M10", "M12"],
    &["M7", "M8", "M9", "M10", "M12"],
    &["M11", "M12"],
    &["M12"],
    &["M9", "M10", "M12"],
    &["M8", "M12"],
    &["M7", "M12"],
    &["M10", "M12"],
    &["M9", "M12"],
    &["M12"],
    &[],
];
