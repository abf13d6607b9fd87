//! Lists of shapes, over the words to a shape: what in one is not as it should be, and the vertices of a shape.

use crate::Vertex;

/// The words of a shape: its kind, and x and y of three vertices.
pub const WORDS_OF_SHAPE: usize = 7;
/// The words of a shape with its id behind them.
pub const WORDS_OF_BIN: usize = 8;
pub const MOST_SHAPES: usize = 1 << 20;

/// What in a list is not as it should be.
#[derive(Clone, Copy, PartialEq, Eq, PartialOrd, Ord, Debug)]
pub enum Fault {
    /// there are too many shapes
    Long,
    /// so many words stand past the last whole shape
    Part(usize),
    /// a kind is not 1, 2 or 3
    Kind(i32),
    /// the word in this column, of a vertex that the kind does not have, is not zero
    Unused { kind: i32, column: usize },
}

/// The fault of a word, where it has one: the first word of a shape is its kind, each of the next six belongs to a vertex, and
/// any other may be what it is.
fn fault_at(list: &[i32], words_of_each: usize, place: usize) -> Option<Fault> {
    let column = place % words_of_each;
    let (word, kind) = (list[place], list[place - column]);
    match (column, kind) {
        (0, 1..=3) => None,
        (0, _) => Some(Fault::Kind(kind)),
        (1..WORDS_OF_SHAPE, 1..=3) if word != 0 && column.div_ceil(2) > kind as usize => {
            Some(Fault::Unused { kind, column })
        }
        _ => None,
    }
}

/// All faults of a list with so many words to a shape.
pub fn faults(list: &[i32], words_of_each: usize) -> impl Iterator<Item = Fault> + '_ {
    let long = (list.len() > words_of_each * MOST_SHAPES).then_some(Fault::Long);
    let part = Some(list.len() % words_of_each).filter(|&words| words != 0).map(Fault::Part);
    let in_words = (0..list.len()).filter_map(move |place| fault_at(list, words_of_each, place));
    long.into_iter().chain(part).chain(in_words)
}

/// The vertices that the words of a shape without a fault say.
pub fn vertices(words: &[i32]) -> Vec<Vertex> {
    words[1..].chunks(2).take(words[0] as usize).map(|vertex| [vertex[0], vertex[1]]).collect()
}
