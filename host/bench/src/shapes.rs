//! The shapes that are binned and counted.

use flourscoop::{Screen, Shape, Vertex};

use crate::TILES;

pub fn triangle([x1, y1]: [i32; 2], [x2, y2]: [i32; 2], [x3, y3]: [i32; 2]) -> Shape<Vertex> {
    Shape::Triangle(Vertex { x: x1, y: y1 }, Vertex { x: x2, y: y2 }, Vertex { x: x3, y: y3 })
}

/// The triangle over a whole screen that has its right angle in the first corner, and the last one on its long side.
pub fn over(screen: Screen) -> Shape<Vertex> {
    let [right, bottom] = [screen.width, screen.height].map(|extent| 16 * extent as i32);
    triangle([0, 0], [2 * right, 0], [0, 2 * bottom])
}

/// Triangles that touch one tile each, over the whole screen.
pub fn small(count: u32) -> Vec<Shape<Vertex>> {
    let at = |k: u32| {
        let tile = k * 7 % TILES;
        let (left, top) = ((tile % 50 * 256) as i32, (tile / 50 * 256) as i32);
        triangle([left + 20, top + 30], [left + 200, top + 60], [left + 90, top + 210])
    };
    (0..count).map(at).collect()
}

/// Thin triangles that reach from near a corner of the screen to near the opposite one, falling to the right and to the left.
pub fn diagonals(count: u32) -> Vec<Shape<Vertex>> {
    let at = |k: u32| {
        let off = |step: u32, most: u32| (k * step % most) as i32;
        let (from, to) = ([off(37, 2000), off(53, 1000)], [12_800 - off(41, 2000), 7_680 - off(29, 1000)]);
        let [a, b, c] = [from, [from[0] + 24, from[1]], to];
        let mirrored = |[x, y]: [i32; 2]| [12_800 - x, y];
        if k % 2 == 0 {
            triangle(a, b, c)
        } else {
            triangle(mirrored(a), mirrored(b), mirrored(c))
        }
    };
    (0..count).map(at).collect()
}

/// Triangles that reach from side to side of the screen, in both windings; every 31 of them are much as the first 31.
pub fn wide(count: u32) -> Vec<Shape<Vertex>> {
    let at = |k: u32| {
        let (along, down) = ((k % 31 * 11) as i32, (k / 31) as i32);
        let (a, b, c) = ([along, down], [12_800, along + down], [12_000 - along, 7_680 - down]);
        if along % 2 == 0 {
            triangle(a, b, c)
        } else {
            triangle(a, c, b)
        }
    };
    (0..count).map(at).collect()
}
