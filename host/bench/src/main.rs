//! Nanoseconds per call of the archive beside a plain Rust binner, in five runs; of draw calls and of the totals of a list, per
//! shape, and of shapes inside shapes, per pair; what a tile costs, in tests and in time, what a map does, and what it costs to read
//! a frame; and by turns with another version's archive, where one is given. Screen 800 by 480, s = 4, 2,048 blocks; pools of
//! edition one and, in the rows that say so, of edition two with 64 words to a block.

mod clock;
mod draws;
mod frames;
mod insides;
mod lists;
mod maps;
mod plain;
mod shapes;
mod table;
#[cfg(other)]
mod turns;
mod unit;
mod walks;

use std::hint::black_box;

use draws::draw_calls;
use flourscoop::{list_of, raw, room, room_two, Screen, Shape, Vertex};
use lists::lists_in;
use plain::Plain;
use shapes::{small, triangle, wide};
use table::{Beside, Row};
use unit::unit;

const SCREEN: Screen = Screen { width: 800, height: 480, s: 4 };
const BLOCKS: u32 = 2048;
const TILES: u32 = 50 * 30;
const RUNS: usize = 5;
const ROUNDS: usize = 21;

/// The time of one round, in nanoseconds per call. Its preparation is not timed.
fn round<P>(calls: usize, prepare: impl Fn() -> P, run: impl Fn(&mut P)) -> f64 {
    let mut prepared = prepare();
    let began = clock::nanoseconds();
    run(&mut prepared);
    (clock::nanoseconds() - began) as f64 / calls as f64
}

fn middle(times: impl Iterator<Item = f64>) -> f64 {
    let mut times: Vec<f64> = times.collect();
    times.sort_by(f64::total_cmp);
    times[times.len() / 2]
}

/// The middle of the times of all rounds.
fn time<P>(calls: usize, prepare: impl Fn() -> P, run: impl Fn(&mut P)) -> f64 {
    middle((0..ROUNDS).map(|_| round(calls, &prepare, &run)))
}

/// An edition; the second with so many words to a block.
#[derive(Clone, Copy)]
enum Edition {
    One,
    Two(u32),
}

impl Edition {
    fn unopened(self, screen: Screen, blocks: u32) -> Vec<u32> {
        let room = match self {
            Edition::One => room(screen, blocks),
            Edition::Two(block_words) => room_two(screen, blocks, block_words),
        };
        vec![1; room.unwrap()]
    }

    fn open(self, words: &mut [u32], screen: Screen, blocks: u32) {
        let answer = match self {
            Edition::One => raw::open(words, screen, blocks),
            Edition::Two(block_words) => raw::open_two(words, screen, blocks, block_words),
        };
        black_box(answer).done().unwrap();
    }

    fn opened(self, screen: Screen, blocks: u32) -> Vec<u32> {
        let mut words = self.unopened(screen, blocks);
        self.open(&mut words, screen, blocks);
        words
    }

    /// The name of a call on such a pool.
    fn named(self, call: &str) -> String {
        match self {
            Edition::One => call.into(),
            Edition::Two(block_words) => format!("{call}, {block_words}-word blocks"),
        }
    }

    /// How many ids a block holds.
    fn ids_of_block(self) -> u32 {
        match self {
            Edition::One => 31,
            Edition::Two(block_words) => block_words - 1,
        }
    }
}

fn bin_all(words: &mut [u32], shapes: &[Shape<Vertex>]) {
    for (id, &shape) in shapes.iter().enumerate() {
        black_box(raw::bin(words, id as u32, shape)).done().unwrap();
    }
}

fn bin_all_plain(plain: &mut Plain, shapes: &[Shape<Vertex>]) {
    for (id, &shape) in shapes.iter().enumerate() {
        black_box(plain.bin(id as u32, shape));
    }
}

/// A pool with the shapes binned.
fn filled(edition: Edition, shapes: &[Shape<Vertex>]) -> Vec<u32> {
    let mut words = edition.opened(SCREEN, BLOCKS);
    bin_all(&mut words, shapes);
    words
}

/// A plain binner with the shapes binned.
fn filled_plain(shapes: &[Shape<Vertex>]) -> Plain {
    let mut plain = Plain::open(SCREEN);
    bin_all_plain(&mut plain, shapes);
    plain
}

fn row(call: impl Into<String>, archive: f64, beside: Beside) -> Row {
    Row { call: call.into(), archive, beside }
}

/// The calls on a pool with these shapes. `less_audit` says what stands beside a bin less its audit.
fn calls_on(edition: Edition, kind: &str, shapes: &[Shape<Vertex>], less_audit: fn(f64) -> Beside) -> Vec<Row> {
    let (words, plain) = (filled(edition, shapes), filled_plain(shapes));
    assert_eq!(lists_in(&words), plain.lists);
    let opened = || edition.opened(SCREEN, BLOCKS);
    let listed: usize = plain.lists.iter().map(Vec::len).sum();
    eprintln!("{kind}: {:.1} tiles each", listed as f64 / shapes.len() as f64);
    let bin_plain = time(shapes.len(), || Plain::open(SCREEN), |plain| bin_all_plain(plain, shapes));
    // bins, and then bins with an audit after each, over the same pools that the bins see
    let bins: Vec<[f64; 2]> = (0..ROUNDS)
        .map(|_| {
            let alone = round(shapes.len(), opened, |words| bin_all(words, shapes));
            let with_audits = round(shapes.len(), opened, |words| {
                for (id, &shape) in shapes.iter().enumerate() {
                    black_box(raw::bin(words, id as u32, shape));
                    black_box(raw::audit(words));
                }
            });
            [alone, with_audits]
        })
        .collect();
    let bin = middle(bins.iter().map(|[bin, _]| *bin));
    let audit = middle(bins.iter().map(|[bin, with_audit]| with_audit - bin));
    let rest = middle(bins.iter().map(|[bin, with_audit]| bin - (with_audit - bin)));
    let half = |tile: u32| plain.lists[tile as usize].len() as u32 / 2;
    let places: Vec<(u32, u32)> = (0..TILES).map(|tile| (tile, half(tile))).collect();
    let read = time(
        places.len(),
        || words.clone(),
        |words| {
            for &(tile, place) in &places {
                black_box(raw::read(words, tile, place));
            }
        },
    );
    let read_plain = time(
        places.len(),
        || (),
        |()| {
            for &(tile, place) in &places {
                black_box(plain.read(black_box(tile), place));
            }
        },
    );
    let high_water = time(
        TILES as usize,
        || words.clone(),
        |words| {
            for tile in 0..TILES {
                black_box(raw::high_water(words, tile));
            }
        },
    );
    let release = time(
        TILES as usize,
        || words.clone(),
        |words| {
            for tile in 0..TILES {
                black_box(raw::release(words, tile));
            }
        },
    );
    let release_plain = time(
        TILES as usize,
        || filled_plain(shapes),
        |plain| {
            for tile in 0..TILES {
                plain.release(black_box(tile));
            }
        },
    );
    let named = |call: &str, rest: &str| edition.named(&format!("{call}, {kind}{rest}"));
    vec![
        row(named("bin", ""), bin, Beside::Plain(bin_plain)),
        row(named("bin", ", less its audit"), rest, less_audit(bin_plain)),
        row(named("audit", ""), audit, Beside::Nothing),
        row(named("read", ""), read, Beside::Plain(read_plain)),
        row(named("high_water", ""), high_water, Beside::Nothing),
        row(named("release", ""), release, Beside::Plain(release_plain)),
    ]
}

fn opening(edition: Edition) -> Row {
    let archive = time(1, || edition.unopened(SCREEN, BLOCKS), |words| edition.open(words, SCREEN, BLOCKS));
    let plain = time(
        1,
        || (),
        |()| {
            black_box(Plain::open(SCREEN));
        },
    );
    row(edition.named("open"), archive, Beside::Plain(plain))
}

const ONE_TILE: Screen = Screen { width: 8, height: 8, s: 3 };

/// The read of the last of 1,953 entries, on a pool of one tile and as many blocks as that fills: 63, or 31 of 64 words.
fn long_read(edition: Edition) -> Row {
    const CALLS: usize = 1000;
    const ENTRIES: u32 = 63 * 31;
    let mut words = edition.opened(ONE_TILE, ENTRIES / edition.ids_of_block());
    bin_all(&mut words, &vec![Shape::Point(Vertex { x: 1, y: 1 }); ENTRIES as usize]);
    let read = time(
        CALLS,
        || (),
        |()| {
            for _ in 0..CALLS {
                black_box(raw::read(&words, 0, black_box(ENTRIES - 1))).done().unwrap();
            }
        },
    );
    row(edition.named("read, the last of 1,953 entries in one tile"), read, Beside::Nothing)
}

/// The bin of a triangle off the screen, on a pool of one tile and no block: what a bin takes where there is next to nothing
/// to audit, to walk or to list.
fn least_bin() -> Row {
    const CALLS: usize = 100_000;
    let prepare = || Edition::One.opened(ONE_TILE, 0);
    let shape = triangle([-14_405, -12_803], [-11_202, -10_411], [-10_254, -12_444]);
    let bin = time(CALLS, prepare, |words| {
        for _ in 0..CALLS {
            black_box(raw::bin(words, 1, black_box(shape)));
        }
    });
    row("bin, a triangle off a screen of one tile, no block", bin, Beside::Nothing)
}

/// The totals of a list of these shapes, by the archive and by plain Rust.
fn totals(kind: &str, shapes: &[Shape<Vertex>]) -> Row {
    let list = list_of(shapes.iter().copied());
    assert_eq!(raw::overlaps(SCREEN, &list).done(), Ok(plain::overlaps(SCREEN, &list)));
    let each = |run: &dyn Fn(&[i32])| time(shapes.len(), || (), |()| run(black_box(&list)));
    let archive = each(&|list| {
        black_box(raw::overlaps(SCREEN, list)).done().unwrap();
    });
    let plain = each(&|list| {
        black_box(plain::overlaps(SCREEN, list));
    });
    row(format!("overlaps, {kind}, per shape"), archive, Beside::Plain(plain))
}

/// Coordinates on and around the screen in eighths of a unit, so that one in eight lies half way between two units; in no
/// order, so that nothing of what they answer can be foreseen.
fn coordinates() -> Vec<f32> {
    let mut state = 88_172_645_463_325_252_u64;
    let mut next = || {
        state ^= state << 13;
        state ^= state >> 7;
        state ^= state << 17;
        (state >> 44) as f32 / 128.0 - 2048.0
    };
    (0..1 << 16).map(|_| next()).collect()
}

/// The time of a call for each of some coordinates. What they answer is added up, so that none is left out.
fn each(coordinates: &[f32], call: impl Fn(f32) -> Result<i32, u32>) -> f64 {
    let word = |&v: &f32| call(v).map_or_else(|number| number, |unit| unit as u32);
    time(
        coordinates.len(),
        || (),
        |()| {
            black_box(black_box(coordinates).iter().map(word).fold(0, u32::wrapping_add));
        },
    )
}

/// The unit of each coordinate, by the archive and by plain Rust.
fn snap() -> Row {
    let coordinates = coordinates();
    for &v in &coordinates {
        assert_eq!(unit(v), plain::unit(v), "{v}");
    }
    let archive = each(&coordinates, unit);
    let plain = each(&coordinates, plain::unit);
    row("unit, a coordinate", archive, Beside::Plain(plain))
}

fn run() -> Vec<Row> {
    let mut rows = Vec::new();
    for edition in [Edition::One, Edition::Two(64)] {
        rows.push(opening(edition));
        rows.extend(calls_on(edition, "1,500 small shapes", &small(1500), Beside::PlainOfARange));
        rows.extend(calls_on(edition, "31 screen-wide shapes", &wide(31), Beside::Plain));
        rows.push(long_read(edition));
    }
    rows.extend([least_bin(), snap()]);
    rows.extend(insides::rows());
    rows.extend([totals("1,500 small shapes", &small(1500)), totals("31 screen-wide shapes", &wide(31))]);
    rows.extend(draw_calls("10,000 small shapes", "in one list", &small(10_000), 10_000));
    rows.extend(draw_calls("10,000 screen-wide shapes", "in lists of 31", &wide(10_000), 31));
    rows
}

fn main() {
    let (mut runs, mut walks, mut maps, mut frames) = (Vec::new(), Vec::new(), Vec::new(), Vec::new());
    for count in 1..=RUNS {
        eprintln!("run {count} of {RUNS}");
        runs.push(run());
        walks.push(walks::run());
        maps.push(maps::run());
        frames.push(frames::run());
    }
    table::print(&runs);
    table::print_walks(&walks);
    table::print_maps(&maps);
    table::print_frames(&frames);
    #[cfg(other)]
    turns::print();
}
