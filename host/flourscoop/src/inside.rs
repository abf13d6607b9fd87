//! A shape inside a shape.

use crate::{raw, Refusal, Shape, Vertex};

/// Whether every vertex of the first shape is a point of the second, its edges and vertices included. A coordinate out of range, of
/// either, is refused.
///
/// Where it is, the second touches each tile that the first touches and covers wholly each that the first covers wholly, on every
/// screen. So one outer triangle may be binned in the place of a cluster of triangles inside it:
///
/// ```
/// use flourscoop::{inside, map, Refusal, Screen, Shape, Vertex};
///
/// let triangle = |corners: [[i32; 2]; 3]| {
///     let [a, b, c] = corners.map(|[x, y]| Vertex { x, y });
///     Shape::Triangle(a, b, c)
/// };
/// let outer = triangle([[0, 0], [1024, 0], [0, 512]]);
/// // (512,256) lies on the long side of the outer one
/// let cluster = [[[10, 10], [300, 20], [80, 200]], [[0, 0], [512, 256], [0, 512]], [[512, 256], [700, 30], [1024, 0]]];
/// for shape in cluster.map(triangle) {
///     assert_eq!(inside(shape, outer), Ok(true));
/// }
///
/// // each tile of the cluster is one of the outer triangle
/// let screen = Screen { width: 64, height: 32, s: 4 };
/// let tiles = |shape| {
///     let mut bytes = [0; 8];
///     map(screen, shape, &mut bytes).map(|()| bytes)
/// };
/// let kept = tiles(outer)?;
/// for shape in cluster.map(triangle) {
///     assert!(tiles(shape)?.iter().zip(kept).all(|(&touched, kept)| touched <= kept));
/// }
///
/// // a unit past the long side is outside
/// assert_eq!(inside(triangle([[0, 0], [512, 257], [0, 512]]), outer), Ok(false));
/// # Ok::<(), Refusal>(())
/// ```
///
/// Any kind may be inside any kind, and those without area or length may hold others:
///
/// ```
/// use flourscoop::{inside, Refusal, Shape, Vertex};
///
/// let [a, b, c] = [[0, 0], [512, 512], [256, 256]].map(|[x, y]| Vertex { x, y });
/// let (line, flat) = (Shape::Line(a, b), Shape::Triangle(a, b, c));
/// assert_eq!([inside(line, flat), inside(flat, line), inside(line, line)], [Ok(true); 3]);
/// assert_eq!(inside(Shape::Point(c), line), Ok(true));
/// assert_eq!(inside(Shape::Line(c, c), Shape::Point(c)), Ok(true));
/// assert_eq!(inside(line, Shape::Point(c)), Ok(false));
///
/// let far = Shape::Point(Vertex { x: 262_144, y: 0 });
/// assert_eq!([inside(far, line), inside(line, far)], [Err(Refusal::OutOfRange); 2]);
/// ```
pub fn inside(first: Shape<Vertex>, second: Shape<Vertex>) -> Result<bool, Refusal> {
    raw::inside(&first.words(), &second.words()).done().map(|[inside]| inside == 1)
}
