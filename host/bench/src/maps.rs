//! What a map costs: its tests, by quarters with the step for wholly covered squares and by quarters alone, beside those of the
//! walks of a bin; and its time, in turn with the same map tile by tile in plain Rust and with a bin, which audits its pool.

use std::hint::black_box;

use flourscoop::{raw, Screen, Shape, Vertex};
use model::quarters::{by_quarters, by_quarters_alone};
use model::stepping::{on_screen, tests, tests_through_box};

use crate::plain::{self, vertices};
use crate::shapes::{diagonals, over, small, wide};
use crate::{round, Edition, BLOCKS, ROUNDS, SCREEN};

const LARGEST: Screen = Screen { width: 4096, height: 4096, s: 6 };

/// The maps of a round, at least, so that it takes far longer than to look at the clock.
const CALLS: usize = 300;

/// A mix of shapes: per shape its tiles, and its tests by quarters with the step and alone, by the stepping walk, where all
/// vertices are on the screen, and through the box; and the times of each round in nanoseconds per call.
pub struct Mapped {
    pub kind: &'static str,
    pub tiles: f64,
    pub with_step: f64,
    pub alone: f64,
    pub stepping: Option<f64>,
    pub through_box: f64,
    /// by the archive, and tile by tile in plain Rust
    pub maps: Vec<[f64; 2]>,
    /// one bin into an opened pool, with its audit; none where the pool cannot have the blocks
    pub bins: Option<Vec<f64>>,
}

/// The map of each shape is the same by the archive, by plain Rust and by the model's quarters. The answer is how many tiles they
/// touch.
fn check(screen: Screen, shapes: &[Shape<Vertex>]) -> usize {
    let each = |&shape: &Shape<Vertex>| {
        let [alone, with_step] = [by_quarters_alone, by_quarters].map(|walk| walk(model_of(screen), &units(shape)).map);
        let (mut archive, mut tile_by_tile) = (vec![9; alone.len()], vec![9; alone.len()]);
        raw::map(screen, shape, &mut archive).done().unwrap();
        plain::map(screen, shape, &mut tile_by_tile);
        assert_eq!((&archive, &archive, &archive), (&tile_by_tile, &alone, &with_step), "{shape:?}");
        archive.iter().filter(|&&byte| byte == 1).count()
    };
    shapes.iter().map(each).sum()
}

fn model_of(Screen { width, height, s }: Screen) -> model::screen::Screen {
    model::screen::Screen { width, height, s }
}

fn units(shape: Shape<Vertex>) -> [model::Vertex; 3] {
    vertices(shape).map(|Vertex { x, y }| [x, y])
}

/// The time of a map, of each shape so many times.
fn maps(screen: Screen, shapes: &[Shape<Vertex>], map: impl Fn(Shape<Vertex>, &mut [u8])) -> f64 {
    let times = CALLS.div_ceil(shapes.len());
    let bytes = || vec![9; model_of(screen).tiles() as usize];
    round(times * shapes.len(), bytes, |bytes| {
        for _ in 0..times {
            for &shape in shapes {
                map(black_box(shape), black_box(bytes));
            }
        }
    })
}

/// The time of a bin, of each shape into an opened pool of its own.
fn bins(screen: Screen, shapes: &[Shape<Vertex>]) -> f64 {
    let bin = |&shape: &Shape<Vertex>| {
        round(
            1,
            || Edition::One.opened(screen, BLOCKS),
            |words| {
                black_box(raw::bin(words, 1, black_box(shape))).done().unwrap();
            },
        )
    };
    shapes.iter().map(bin).sum::<f64>() / shapes.len() as f64
}

fn mapped(kind: &'static str, screen: Screen, shapes: &[Shape<Vertex>]) -> Mapped {
    let tiles = check(screen, shapes);
    let model = model_of(screen);
    let each = |tests: &dyn Fn(&[model::Vertex]) -> u32| {
        f64::from(shapes.iter().map(|&shape| tests(&units(shape))).sum::<u32>()) / shapes.len() as f64
    };
    let has_bins = model.tiles() <= BLOCKS;
    let (mut by_map, mut by_bin) = (Vec::new(), Vec::new());
    for count in 0..ROUNDS {
        let mut times = [0.0; 3];
        for turn in [0, 1, 2].map(|turn| (turn + count) % 3) {
            times[turn] = match turn {
                0 => maps(screen, shapes, |shape, bytes| {
                    black_box(raw::map(screen, shape, bytes)).done().unwrap();
                }),
                1 => maps(screen, shapes, |shape, bytes| plain::map(screen, shape, bytes)),
                _ if has_bins => bins(screen, shapes),
                _ => 0.0,
            };
        }
        by_map.push([times[0], times[1]]);
        by_bin.push(times[2]);
    }
    Mapped {
        kind,
        tiles: tiles as f64 / shapes.len() as f64,
        with_step: each(&|shape| by_quarters(model, shape).tests),
        alone: each(&|shape| by_quarters_alone(model, shape).tests),
        stepping: shapes
            .iter()
            .all(|&shape| on_screen(model, &units(shape)))
            .then(|| each(&|shape| tests(model, shape))),
        through_box: each(&|shape| tests_through_box(model, shape)),
        maps: by_map,
        bins: has_bins.then_some(by_bin),
    }
}

pub fn run() -> Vec<Mapped> {
    vec![
        mapped("a triangle over the whole screen", SCREEN, &[over(SCREEN)]),
        mapped("31 screen-wide shapes", SCREEN, &wide(31)),
        mapped("300 thin diagonals", SCREEN, &diagonals(300)),
        mapped("1,500 small shapes", SCREEN, &small(1500)),
        mapped("a triangle over 4096 by 4096, s = 6", LARGEST, &[over(LARGEST)]),
    ]
}
