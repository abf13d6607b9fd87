//! The forms in which a shape can be binned.

use model::{Pixel, Vertex};

use crate::call::Call;
use crate::draw::Draw;
use crate::list::{bin_words, words_of, List};

/// The vertices in each of their orders, the one that they have first.
pub fn orders(shape: &[Vertex]) -> Vec<Vec<Vertex>> {
    match *shape {
        [a, b] => vec![vec![a, b], vec![b, a]],
        [a, b, c] => [[a, b, c], [a, c, b], [b, a, c], [b, c, a], [c, a, b], [c, b, a]].map(Vec::from).to_vec(),
        _ => vec![shape.to_vec()],
    }
}

/// The shape in pixels, which it has exactly.
pub fn in_pixels(shape: &[Vertex]) -> Vec<Pixel> {
    shape.iter().map(|vertex| vertex.map(|unit| (unit as f32 / 16.0).to_bits())).collect()
}

/// A draw call of one shape.
fn drawn(id: u32, shape: &[Vertex]) -> Call {
    let list = List { shapes: vec![(1, bin_words(words_of(shape), id as i32))], rest: Vec::new() };
    Call::BinList(Draw { list, spare: 0 })
}

/// The bins of a shape with this id: in units, in pixels and by a draw call.
pub fn bins(id: u32, shape: &[Vertex]) -> [Call; 3] {
    [Call::Bin { id, shape: shape.to_vec() }, Call::BinPixels { id, shape: in_pixels(shape) }, drawn(id, shape)]
}
