//! Pairs of shapes, of which about half are inside: whether one is, by the archive and by plain Rust.

use std::hint::black_box;

use flourscoop::{raw, SHAPE_WORDS};

use crate::table::{Beside, Row};
use crate::{plain, row, time};

/// How many pairs there are.
const PAIRS: usize = 1 << 14;

/// A shape and another, each as a list of one.
type Pair = [[i32; SHAPE_WORDS]; 2];

/// Pairs of shapes of at least so many vertices, on and around the screen; in no order, so that nothing of what they answer can be
/// foreseen. The vertices of the first are means of those of the second and, in about half of the pairs, one of them is moved.
fn pairs(least: u64) -> Vec<Pair> {
    let mut state = 88_172_645_463_325_252_u64;
    let mut below = |limit: u64| {
        state ^= state << 13;
        state ^= state >> 7;
        state ^= state << 17;
        (state >> 24) % limit
    };
    let mut pair = || {
        let mut pair = [[0; SHAPE_WORDS]; 2];
        let [vertices, of_first] = [0; 2].map(|_| (least + below(4 - least)) as usize);
        let [first, second] = &mut pair;
        [second[0], first[0]] = [vertices, of_first].map(|vertices| vertices as i32);
        // with steps of 64 a mean by weights that add up to 64 is a whole point
        second[1..=2 * vertices].iter_mut().for_each(|unit| *unit = 64 * (below(250) as i32 - 25));
        for vertex in first[1..=2 * of_first].chunks_exact_mut(2) {
            let one = below(65);
            let two = below(65 - one);
            let weights = [one, two, 64 - one - two].map(|weight| weight as i32);
            for (axis, unit) in vertex.iter_mut().enumerate() {
                // a vertex that the shape lacks is its last one again
                let along = |at: usize| second[1 + 2 * at.min(vertices - 1) + axis];
                *unit = (0..3).map(|at| weights[at] * along(at)).sum::<i32>() / 64;
            }
        }
        if below(2) == 0 {
            first[1 + below(2 * of_first as u64) as usize] += 4000;
        }
        pair
    };
    (0..PAIRS).map(|_| pair()).collect()
}

/// The time of a call for each pair. What they answer is added up, so that none is left out.
fn each(pairs: &[Pair], call: impl Fn(&[i32], &[i32]) -> u32) -> f64 {
    time(
        pairs.len(),
        || (),
        |()| {
            black_box(black_box(pairs).iter().map(|[first, second]| call(first, second)).sum::<u32>());
        },
    )
}

fn inside(kind: &str, pairs: &[Pair]) -> Row {
    let by_archive = |first: &[i32], second: &[i32]| raw::inside(first, second).done().unwrap()[0];
    let by_plain = |first: &[i32], second: &[i32]| u32::from(plain::inside(first, second).unwrap());
    for [first, second] in pairs {
        assert_eq!(by_archive(first, second), by_plain(first, second), "{first:?} in {second:?}");
    }
    let yes = pairs.iter().filter(|[first, second]| by_plain(first, second) == 1).count();
    eprintln!("{kind}: {:.0} % are inside", 100.0 * yes as f64 / pairs.len() as f64);
    let (archive, plain) = (each(pairs, by_archive), each(pairs, by_plain));
    row(format!("inside, {kind}, a pair"), archive, Beside::Plain(plain))
}

pub fn rows() -> [Row; 2] {
    [inside("triangles in triangles", &pairs(3)), inside("each kind in each", &pairs(1))]
}

#[cfg(test)]
mod tests {
    use super::*;

    /// All pairs are of lists of one shape in range, and about half are inside.
    #[test]
    fn about_half_of_the_pairs_are_inside() {
        for (least, kinds) in [(3, 1), (1, 9)] {
            let pairs = pairs(least);
            let answers: Vec<bool> =
                pairs.iter().map(|[first, second]| plain::inside(first, second).unwrap()).collect();
            let yes = answers.iter().filter(|&&inside| inside).count();
            assert!((PAIRS / 3..PAIRS * 2 / 3).contains(&yes), "{yes} of {PAIRS}");
            let mut by_kinds: Vec<[i32; 2]> = pairs.iter().map(|[first, second]| [first[0], second[0]]).collect();
            by_kinds.sort_unstable();
            by_kinds.dedup();
            assert_eq!(by_kinds.len(), kinds);
        }
    }
}
