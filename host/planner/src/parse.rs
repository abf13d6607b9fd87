//! Reads a list of calls.

use std::str::FromStr;

use flourscoop::{Pixel, Screen, Shape, Vertex};

use crate::opening::Opening;

/// A call after the opening.
pub enum Call {
    Bin(u32, Shape<Vertex>),
    BinPixels(u32, Shape<Pixel>),
    Release(u32),
}

/// A list of calls: the opening with its line, and the others, each with its line.
pub struct List {
    pub line: usize,
    pub opening: Opening,
    pub calls: Vec<(usize, Call)>,
}

/// A number that may stand in a list.
trait Number: FromStr + Copy {
    const KIND: &'static str;
}

impl Number for u32 {
    const KIND: &'static str = "a whole number from 0 to 4294967295";
}

impl Number for i32 {
    const KIND: &'static str = "a whole number from -2147483648 to 2147483647";
}

impl Number for f32 {
    const KIND: &'static str = "a number";
}

/// The numbers that the words say, where they are so many.
fn numbers<N: Number>(words: &[&str], count: usize, takes: &str) -> Result<Vec<N>, String> {
    if words.len() != count {
        return Err(takes.into());
    }
    words.iter().map(|word| word.parse().map_err(|_| format!("{word:?} is not {}", N::KIND))).collect()
}

/// The id and the shape of a call that bins.
fn shape<N: Number, V: Copy>(words: &[&str], vertex: fn(N, N) -> V) -> Result<(u32, Shape<V>), String> {
    let (vertices, takes) = match words.first() {
        Some(&"point") => (1, "point takes an id and 2 coordinates"),
        Some(&"line") => (2, "line takes an id and 4 coordinates"),
        Some(&"triangle") => (3, "triangle takes an id and 6 coordinates"),
        Some(word) => return Err(format!("{word:?} is not a call")),
        None => return Err("pixels stands before point, line or triangle".into()),
    };
    let (id, coordinates) = words[1..].split_at_checked(1).ok_or(takes)?;
    let id = numbers(id, 1, takes)?[0];
    let coordinates = numbers(coordinates, 2 * vertices, takes)?;
    let vertices: Vec<V> = coordinates.chunks(2).map(|along| vertex(along[0], along[1])).collect();
    Ok((id, Shape::of(&vertices).ok_or(takes)?))
}

fn call(words: &[&str]) -> Result<Call, String> {
    match words {
        ["open" | "open_two", ..] => Err(format!("{} stands first, and once", words[0])),
        ["release", tile @ ..] => Ok(Call::Release(numbers(tile, 1, "release takes a tile")?[0])),
        ["pixels", words @ ..] => shape(words, |x, y| Pixel { x, y }).map(|(id, shape)| Call::BinPixels(id, shape)),
        _ => shape(words, |x, y| Vertex { x, y }).map(|(id, shape)| Call::Bin(id, shape)),
    }
}

fn opening(words: &[&str]) -> Result<Opening, String> {
    let sizes: Vec<u32> = match words {
        ["open", sizes @ ..] => numbers(sizes, 4, "open takes width, height, s and blocks")?,
        ["open_two", sizes @ ..] => {
            numbers(sizes, 5, "open_two takes width, height, s, blocks and the words per block")?
        }
        _ => return Err("a list begins with open or open_two".into()),
    };
    let screen = Screen { width: sizes[0], height: sizes[1], s: sizes[2] };
    Ok(Opening { screen, blocks: sizes[3], block_words: sizes.get(4).copied() })
}

/// The list that a text says, or which line is wrong and why.
pub fn list(text: &str) -> Result<List, String> {
    let lines = text.lines().map(|line| line.split_whitespace().collect::<Vec<_>>());
    let mut lines = (1..).zip(lines).filter(|(_, words)| words.first().is_some_and(|word| !word.starts_with('#')));
    let wrong_in = |line: usize| move |why: String| format!("line {line}: {why}");
    let (line, words) = lines.next().ok_or("the list is empty; it begins with open or open_two")?;
    let opening = opening(&words).map_err(wrong_in(line))?;
    let calls = lines.map(|(line, words)| Ok((line, call(&words).map_err(wrong_in(line))?)));
    Ok(List { line, opening, calls: calls.collect::<Result<_, String>>()? })
}
