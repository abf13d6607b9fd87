//! What a tile costs, of shapes all of which are on the screen: the tests per tile listed, by the stepping walk and by a walk
//! through the box, and the time per tile, one by one and by a draw call.

use std::hint::black_box;

use flourscoop::{bin_list_of, raw, Shape, Vertex};
use model::stepping::{tests, tests_through_box};

use crate::lists::entries_in;
use crate::plain::vertices;
use crate::shapes::{diagonals, small, wide};
use crate::{bin_all, time, Edition, BLOCKS, SCREEN};

/// A mix of shapes: its tiles per shape, its tests per tile by either walk, and its times per tile in nanoseconds.
pub struct Walked {
    pub kind: &'static str,
    pub tiles: f64,
    pub through_box: f64,
    pub stepping: f64,
    pub bin: f64,
    pub bin_list: f64,
}

/// The tests of all shapes by a walk of the model.
fn tests_by(walk: fn(model::screen::Screen, &[model::Vertex]) -> u32, shapes: &[Shape<Vertex>]) -> u32 {
    let screen = model::screen::Screen { width: SCREEN.width, height: SCREEN.height, s: SCREEN.s };
    shapes.iter().map(|&shape| walk(screen, &vertices(shape).map(|Vertex { x, y }| [x, y]))).sum()
}

fn walked(kind: &'static str, shapes: &[Shape<Vertex>]) -> Walked {
    let opened = || Edition::One.opened(SCREEN, BLOCKS);
    let mut words = opened();
    let bin = |(id, &shape): (usize, &Shape<Vertex>)| raw::bin(&mut words, id as u32, shape).done().unwrap();
    let stepping: u32 = shapes.iter().enumerate().map(bin).map(|[.., tests]| tests).sum();
    assert_eq!(stepping, tests_by(tests, shapes));
    let tiles = entries_in(&words);
    let list = bin_list_of((0..).zip(shapes.iter().copied()));
    let per_tile = |tests: u32| f64::from(tests) / tiles as f64;
    Walked {
        kind,
        tiles: tiles as f64 / shapes.len() as f64,
        through_box: per_tile(tests_by(tests_through_box, shapes)),
        stepping: per_tile(stepping),
        bin: time(tiles, opened, |words| bin_all(words, shapes)),
        bin_list: time(
            tiles,
            || (opened(), vec![1; shapes.len()]),
            |(words, answers)| {
                black_box(raw::bin_list(words, black_box(&list), answers)).done().unwrap();
            },
        ),
    }
}

/// The mixes, each in one pool.
pub fn run() -> Vec<Walked> {
    vec![
        walked("300 thin diagonals", &diagonals(300)),
        walked("1,500 small shapes", &small(1500)),
        walked("31 screen-wide shapes", &wide(31)),
    ]
}
