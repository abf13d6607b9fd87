//! The totals of a list of shapes.

use std::cmp::Reverse;
use std::collections::BTreeMap;

use crate::screen::Screen;
use crate::shapes::{faults, vertices, WORDS_OF_SHAPE};
use crate::touch::{box_meets, in_range, touches};
use crate::{number, Vertex};

/// The totals of a list.
#[derive(Clone, Copy, PartialEq, Eq, Default, Debug)]
pub struct Totals {
    pub shapes: u128,
    pub out_of_range: u128,
    pub box_tiles: u128,
    pub touched_tiles: u128,
    pub difference: u128,
    pub largest: u128,
    pub place: u128,
}

/// How many tiles of a screen the box of a shape meets, how many the shape touches, and how many only the box has.
fn tiles(screen: Screen, shape: &[Vertex]) -> [u128; 3] {
    let mut tiles = [0; 3];
    for rectangle in (0..screen.tiles()).map(|tile| screen.rectangle(tile)) {
        let (boxed, touched) = (box_meets(shape, rectangle), touches(shape, rectangle));
        for (tiles, counts) in tiles.iter_mut().zip([boxed, touched, boxed && !touched]) {
            *tiles += u128::from(counts);
        }
    }
    tiles
}

/// The totals of a list on a screen, or the number of the refusal. Each different shape is asked about once, at every tile.
pub fn overlaps(screen: Screen, list: &[i32]) -> Result<Totals, u32> {
    if !screen.allowed() {
        return Err(number::SCREEN);
    }
    if faults(list, WORDS_OF_SHAPE).next().is_some() {
        return Err(number::LIST);
    }
    // how often each shape stands in the list, and where first
    let mut different: BTreeMap<&[i32], (u128, u128)> = BTreeMap::new();
    for (place, words) in (0..).zip(list.chunks(WORDS_OF_SHAPE)) {
        different.entry(words).or_insert((0, place)).0 += 1;
    }
    let (mut totals, mut by_touching) = (Totals::default(), Vec::new());
    for (words, (times, first)) in different {
        let shape = vertices(words);
        if !in_range(&shape) {
            totals.out_of_range += times;
            continue;
        }
        let [boxed, touched, only_boxed] = tiles(screen, &shape);
        totals.shapes += times;
        totals.box_tiles += times * boxed;
        totals.touched_tiles += times * touched;
        totals.difference += times * only_boxed;
        by_touching.push((touched, Reverse(first)));
    }
    if let Some((largest, Reverse(place))) = by_touching.into_iter().max() {
        (totals.largest, totals.place) = (largest, place);
    }
    Ok(totals)
}
