//! How many tiles the shapes of a list overlap, by their boxes and by touching.

use crate::{raw, Refusal, Screen, Shape, Vertex};

/// The words of a shape in a list: its kind and six coordinates.
pub const SHAPE_WORDS: usize = 7;

/// The most shapes that a list may have.
pub const MOST_SHAPES: usize = 1_048_576;

/// The totals of a list of shapes, all but `out_of_range` of those in range.
#[derive(Clone, Copy, PartialEq, Eq, Debug)]
pub struct Overlaps {
    /// the shapes in range, of which each coordinate is from -262,144 to 262,143
    pub shapes: u32,
    /// the others
    pub out_of_range: u32,
    /// the tiles that meet a shape's bounding box, in sum
    pub box_tiles: u64,
    /// the tiles that a shape touches, in sum
    pub touched_tiles: u64,
    /// the false overlaps: what the boxes have more
    pub difference: u64,
    /// the most tiles that one shape touches
    pub largest: u32,
    /// the first place, from 0 and among all shapes of the list, of one that touches so many
    pub place: u32,
}

impl Shape<Vertex> {
    /// The shape as a list has it: its kind, 1 for a point, 2 for a line and 3 for a triangle, and its coordinates, with 0
    /// for each that it has not.
    pub fn words(self) -> [i32; SHAPE_WORDS] {
        match self {
            Shape::Point(a) => [1, a.x, a.y, 0, 0, 0, 0],
            Shape::Line(a, b) => [2, a.x, a.y, b.x, b.y, 0, 0],
            Shape::Triangle(a, b, c) => [3, a.x, a.y, b.x, b.y, c.x, c.y],
        }
    }
}

/// The list of these shapes.
pub fn list_of(shapes: impl IntoIterator<Item = Shape<Vertex>>) -> Vec<i32> {
    shapes.into_iter().flat_map(Shape::words).collect()
}

/// How many tiles of a screen the shapes of a list overlap. The list is one that `list_of` makes, of at most `MOST_SHAPES`
/// shapes; any other is refused.
///
/// ```
/// use flourscoop::{list_of, overlaps, Refusal, Screen, Shape, Vertex};
///
/// let screen = Screen { width: 64, height: 32, s: 4 };
/// let [origin, right, low] = [[0, 0], [1024, 0], [0, 512]].map(|[x, y]| Vertex { x, y });
/// let list = list_of([Shape::Point(low), Shape::Line(origin, right), Shape::Triangle(origin, right, low)]);
///
/// // the triangle misses one of the eight tiles that its box meets
/// let totals = overlaps(screen, &list)?;
/// assert_eq!((totals.shapes, totals.out_of_range), (3, 0));
/// assert_eq!((totals.box_tiles, totals.touched_tiles, totals.difference), (1 + 4 + 8, 1 + 4 + 7, 1));
/// assert_eq!((totals.largest, totals.place), (7, 2));
///
/// // a word of the last shape is missing
/// assert_eq!(overlaps(screen, &list[..20]), Err(Refusal::List));
/// # Ok::<(), Refusal>(())
/// ```
pub fn overlaps(screen: Screen, list: &[i32]) -> Result<Overlaps, Refusal> {
    raw::overlaps(screen, list).done()
}
