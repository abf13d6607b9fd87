//! Draw calls: shapes in lists, each list in a pool or a plain binner of its own, whose opening is not timed.

use std::hint::black_box;

use flourscoop::{bin_list_of, raw, Shape, Vertex};

use crate::lists::lists_in;
use crate::plain::Plain;
use crate::table::{Beside, Row};
use crate::{bin_all, middle, round, row, Edition, BLOCKS, SCREEN};

/// The rounds of draw calls, and of the same shapes one by one; each round is of all lists.
const ROUNDS: usize = 9;
const SINGLE_ROUNDS: usize = 3;

/// Shapes, and the list of them.
struct Draw<'a> {
    shapes: &'a [Shape<Vertex>],
    list: Vec<i32>,
}

fn opened() -> Vec<u32> {
    Edition::One.opened(SCREEN, BLOCKS)
}

/// Every shape of the list is done, and each tile has the list that plain Rust has. The answer is how many entries those have.
fn check(draw: &Draw) -> usize {
    let (mut words, mut plain, mut answers) = (opened(), Plain::open(SCREEN), vec![1; draw.shapes.len()]);
    raw::bin_list(&mut words, &draw.list, &mut answers).done().unwrap();
    plain.bin_list(&draw.list);
    assert_eq!(answers, vec![0; draw.shapes.len()]);
    assert_eq!(lists_in(&words), plain.lists);
    plain.lists.iter().map(Vec::len).sum()
}

/// The time per shape, the middle of some rounds.
fn time<P>(rounds: usize, draws: &[Draw], prepare: impl Fn() -> P, run: impl Fn(&mut P, &Draw)) -> f64 {
    let shapes: usize = draws.iter().map(|draw| draw.shapes.len()).sum();
    let each = |draw| round(1, &prepare, |prepared| run(prepared, draw));
    middle((0..rounds).map(|_| draws.iter().map(each).sum::<f64>() / shapes as f64))
}

/// Shapes in lists of at most so many, by one call for each list and by plain Rust; and by one call for each shape.
pub fn draw_calls(kind: &str, in_lists: &str, shapes: &[Shape<Vertex>], most: usize) -> [Row; 2] {
    let list = |shapes: &[Shape<Vertex>]| bin_list_of((0..).zip(shapes.iter().copied()));
    let draws: Vec<Draw> = shapes.chunks(most).map(|shapes| Draw { shapes, list: list(shapes) }).collect();
    let listed: usize = draws.iter().map(check).sum();
    eprintln!("{kind} {in_lists}: {:.1} tiles each", listed as f64 / shapes.len() as f64);
    let archive = time(
        ROUNDS,
        &draws,
        || (opened(), vec![1; most]),
        |(words, answers), draw| {
            black_box(raw::bin_list(words, black_box(&draw.list), answers)).done().unwrap();
        },
    );
    let plain = time(ROUNDS, &draws, || Plain::open(SCREEN), |plain, draw| plain.bin_list(black_box(&draw.list)));
    let single = time(SINGLE_ROUNDS, &draws, opened, |words, draw| bin_all(words, draw.shapes));
    [
        row(format!("bin_list, {kind} {in_lists}, per shape"), archive, Beside::Plain(plain)),
        row(format!("bin, the same {kind} one by one"), single, Beside::Plain(plain)),
    ]
}
