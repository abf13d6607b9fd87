//! The tiles that one shape touches, as a map of bytes.

use crate::{raw, Refusal, Screen, Shape, Vertex};

/// Writes for each tile of a screen, in the order of their numbers, a byte: 1 where the shape touches the tile and 0 where it does
/// not. Bytes past the tiles stay as they are. No pool is needed; these are the tiles in which a bin lists the shape.
///
/// It is made by quarters: a square of tiles that the shape does not touch is left out as a whole, one that it covers wholly is
/// filled as a whole, and any other is split into four.
///
/// With fewer bytes than tiles the call is refused, as it is for a screen outside the rules and a coordinate out of range, and no
/// byte is written. There are at most 4,096 tiles.
///
/// ```
/// use flourscoop::{map, Refusal, Screen, Shape, Vertex};
///
/// let screen = Screen { width: 64, height: 32, s: 4 };
/// let [a, b, c] = [[700, 0], [1024, 0], [1024, 300]].map(|[x, y]| Vertex { x, y });
/// let mut bytes = [9; 10];
/// map(screen, Shape::Triangle(a, b, c), &mut bytes)?;
///
/// // two rows of four tiles, and two bytes past them
/// assert_eq!(bytes, [0, 0, 1, 1, 0, 0, 0, 1, 9, 9]);
///
/// // the touched tiles, in rising number
/// let touched = (0_u32..).zip(&bytes[..8]).filter(|(_, &byte)| byte == 1).map(|(tile, _)| tile);
/// assert_eq!(touched.collect::<Vec<u32>>(), [2, 3, 7]);
///
/// // seven bytes for eight tiles
/// assert_eq!(map(screen, Shape::Point(a), &mut bytes[..7]), Err(Refusal::Buffer));
/// # Ok::<(), Refusal>(())
/// ```
pub fn map(screen: Screen, shape: Shape<Vertex>, map: &mut [u8]) -> Result<(), Refusal> {
    raw::map(screen, shape, map).done().map(|[]| ())
}
