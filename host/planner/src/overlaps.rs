//! How many tiles the shapes of a list overlap, for each s.

use flourscoop::{list_of, overlaps, unit, Overlaps, Pixel, Refusal, Screen, Shape, Vertex};

use crate::parse::{Call, List};

/// The totals of a list's shapes for one s, or none where the screen has too many tiles.
pub struct Size {
    pub s: u32,
    pub tiles: u32,
    pub totals: Option<Overlaps>,
}

/// What was counted.
pub struct Counted {
    pub sizes: Vec<Size>,
    /// the line of each shape that was counted, in range or not
    pub lines: Vec<usize>,
    /// the shapes that have no units, each with its line
    pub refused: Vec<(usize, Refusal)>,
}

/// A shape that is out of range.
const OUT_OF_RANGE: Shape<Vertex> = Shape::Point(Vertex { x: i32::MAX, y: i32::MAX });

/// The shape in units, or its first offence, vertices in order with x before y.
fn in_units(shape: Shape<Pixel>) -> Result<Shape<Vertex>, Refusal> {
    let vertex = |pixel: Pixel| Ok::<_, Refusal>(Vertex { x: unit(pixel.x)?, y: unit(pixel.y)? });
    Ok(match shape {
        Shape::Point(a) => Shape::Point(vertex(a)?),
        Shape::Line(a, b) => Shape::Line(vertex(a)?, vertex(b)?),
        Shape::Triangle(a, b, c) => Shape::Triangle(vertex(a)?, vertex(b)?, vertex(c)?),
    })
}

/// The totals of all shapes that the list bins, or why there are none for any s.
pub fn count(list: &List) -> Result<Counted, Refusal> {
    let (mut lines, mut shapes, mut refused) = (Vec::new(), Vec::new(), Vec::new());
    for (line, call) in &list.calls {
        let shape = match *call {
            Call::Bin(_, shape) => Ok(shape),
            Call::BinPixels(_, shape) => match in_units(shape) {
                // counted apart, as one in units is
                Err(Refusal::OutOfRange) => Ok(OUT_OF_RANGE),
                other => other,
            },
            Call::Release(_) => continue,
        };
        match shape {
            Ok(shape) => {
                lines.push(*line);
                shapes.push(shape);
            }
            Err(refusal) => refused.push((*line, refusal)),
        }
    }
    let words = list_of(shapes);
    let Screen { width, height, .. } = list.opening.screen;
    // with the largest tiles there are the fewest, so that what is refused there is refused for every s
    overlaps(Screen { width, height, s: 6 }, &words)?;
    let size = |s: u32| {
        let tiles = width.div_ceil(1 << s) * height.div_ceil(1 << s);
        Size { s, tiles, totals: overlaps(Screen { width, height, s }, &words).ok() }
    };
    Ok(Counted { sizes: (3..=6).map(size).collect(), lines, refused })
}
