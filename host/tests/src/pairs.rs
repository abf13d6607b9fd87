//! Pairs of shapes of which the first is often inside the second, most of them where the answer turns; asked of the archive and of
//! the model side by side.

use std::hint::black_box;

use flourscoop::raw::{self, Answer};
use flourscoop::Refusal;
use model::inside::inside;
use model::shapes::{faults, vertices, WORDS_OF_SHAPE};
use model::{number, Vertex, UNITS};

use crate::call::shape_of;
use crate::forms::orders;
use crate::list::{words_of, List};
use crate::random::Random;

const LOW: i32 = *UNITS.start();
const HIGH: i32 = *UNITS.end();

/// Two lists, each of which should be of one shape.
#[derive(Clone, Debug)]
pub struct Pair {
    pub first: List<WORDS_OF_SHAPE>,
    pub second: List<WORDS_OF_SHAPE>,
}

/// The list of a shape.
pub fn list_of(shape: &[Vertex]) -> List<WORDS_OF_SHAPE> {
    List { shapes: vec![(1, words_of(shape))], rest: Vec::new() }
}

/// Whether one shape in range is inside another, by the weights that the model finds; the archive says the same.
pub fn is_inside(first: &[Vertex], second: &[Vertex]) -> bool {
    let inside = model::inside::is_inside(first, second);
    let answer = raw::inside(&words_of(first), &words_of(second));
    assert_eq!(answer, answer_of(Ok(inside)), "{first:?} in {second:?}");
    inside
}

/// The answer with this number and value, or with the number of a refusal and zero.
pub fn answer_of(expected: Result<bool, u32>) -> Answer<[u32; 1]> {
    match expected {
        Ok(inside) => Answer { number: number::DONE, values: [u32::from(inside)] },
        Err(number) => Answer { number, values: [0] },
    }
}

/// Asks the archive about two lists that stand in one buffer with other words around them, and sees that no word was written.
fn side_by_side(first: &[i32], second: &[i32], around: i32) -> Result<Answer<[u32; 1]>, String> {
    let mut words = vec![around; 3];
    let mut lay = |list: &[i32]| {
        let start = words.len();
        words.extend(list);
        let end = words.len();
        words.extend([around, around + 1]);
        start..end
    };
    let [first, second] = [lay(first), lay(second)];
    let before = words.clone();
    let answer = raw::inside(&words[first], &words[second]);
    if black_box(&words) != &before {
        return Err("a word of a list was written".into());
    }
    Ok(answer)
}

impl Pair {
    pub fn of(first: &[Vertex], second: &[Vertex]) -> Pair {
        Pair { first: list_of(first), second: list_of(second) }
    }

    /// Asks the archive, in each order of the vertices, with the lists apart and in one buffer, and by the wrapper, and the model,
    /// and compares the number and the value.
    pub fn run(&self) -> Result<Answer<[u32; 1]>, String> {
        let (first, second) = (self.first.words(), self.second.words());
        let expected = answer_of(inside(&first, &second));
        let compare = |what: &str, archive: Answer<[u32; 1]>| {
            let wrong = || format!("{what}: the archive gives {archive:?}, the model {expected:?}");
            if archive == expected {
                Ok(())
            } else {
                Err(wrong())
            }
        };
        compare("apart", raw::inside(&first, &second))?;
        for around in [1, 3, -1] {
            compare("in one buffer", side_by_side(&first, &second, around)?)?;
        }
        let shape = |list: &[i32]| {
            let one = list.len() == WORDS_OF_SHAPE && faults(list, WORDS_OF_SHAPE).next().is_none();
            one.then(|| vertices(list))
        };
        if let (Some(first), Some(second)) = (shape(&first), shape(&second)) {
            for second in orders(&second).iter().map(|second| words_of(second)) {
                for first in orders(&first).iter().map(|first| words_of(first)) {
                    compare(&format!("{first:?} in {second:?}"), raw::inside(&first, &second))?;
                }
            }
            let by_wrapper = flourscoop::inside(shape_of(&first), shape_of(&second));
            compare("by the wrapper", answer_of(by_wrapper.map_err(Refusal::number)))?;
        }
        Ok(expected)
    }

    /// A pair with one list smaller.
    pub fn smaller(&self) -> Vec<Pair> {
        let firsts = self.first.smaller().into_iter().map(|first| Pair { first, ..self.clone() });
        let seconds = self.second.smaller().into_iter().map(|second| Pair { second, ..self.clone() });
        firsts.chain(seconds).collect()
    }
}

/// The greatest number that both are multiples of.
fn common(a: u32, b: u32) -> u32 {
    if b == 0 {
        a
    } else {
        common(b, a % b)
    }
}

/// A whole point of the line between two vertices, these included.
fn between(random: &Random, [x, y]: Vertex, [to_x, to_y]: Vertex) -> Vertex {
    let steps = common(x.abs_diff(to_x), y.abs_diff(to_y)).max(1);
    let step = random.pick(&[random.below(steps + 1), 1, steps / 2, steps - 1]) as i32;
    [x + (to_x - x) / steps as i32 * step, y + (to_y - y) / steps as i32 * step]
}

/// A mean of the vertices of a shape, each coordinate rounded down.
fn mean(random: &Random, shape: &[Vertex]) -> Vertex {
    let most = random.pick(&[3, 1000]);
    let weights: Vec<i64> = shape.iter().map(|_| 1 + i64::from(random.below(most))).collect();
    let sum = |axis: usize| weights.iter().zip(shape).map(|(weight, v)| weight * i64::from(v[axis])).sum::<i64>();
    [0, 1].map(|axis| sum(axis).div_euclid(weights.iter().sum()) as i32)
}

/// A vertex at a shape: one of its own, a point of a side, or a mean, which is most often a point of it.
fn at(random: &Random, shape: &[Vertex]) -> Vertex {
    let own = || random.pick(shape);
    match random.below(6) {
        0 => own(),
        1..=3 => between(random, own(), own()),
        _ => mean(random, shape),
    }
}

/// The shape with one coordinate a unit off, in range.
fn unit_off(random: &Random, mut shape: Vec<Vertex>) -> Vec<Vertex> {
    let (vertex, axis) = (random.below(shape.len() as u32) as usize, random.below(2) as usize);
    shape[vertex][axis] = (shape[vertex][axis] + random.pick(&[-1, 1])).clamp(LOW, HIGH);
    shape
}

/// A shape that is most often inside another: its vertices are at that, one in four times a unit off.
pub fn inner(random: &Random, outer: &[Vertex]) -> Vec<Vertex> {
    let shape = (0..random.pick(&[1, 2, 2, 3, 3, 3])).map(|_| at(random, outer)).collect();
    if random.once_in(4) {
        unit_off(random, shape)
    } else {
        shape
    }
}

/// A vertex, so many times as far from another as a third one is.
fn times(from: Vertex, to: Vertex, times: i64) -> [i64; 2] {
    [0, 1].map(|axis| {
        let (from, to) = (i64::from(from[axis]), i64::from(to[axis]));
        from + times * (to - from)
    })
}

/// A shape around another, or the same where it would leave the range. Around a triangle it is the one whose sides have the
/// vertices as their middles, or one that is several times as large and has a vertex in common; around a line it is a longer one,
/// perhaps as a triangle without area, or one of its sides; around a point it is a line through it.
pub fn around(random: &Random, shape: &[Vertex]) -> Vec<Vertex> {
    let more = i64::from(random.pick(&[2, 2, 3, 5]));
    let wide = |[x, y]: Vertex| [i64::from(x), i64::from(y)];
    let outer: Vec<[i64; 2]> = match *shape {
        [a, b, c] if random.once_in(2) => {
            let across = |a: Vertex, b: Vertex, c: Vertex| {
                [0, 1].map(|axis| i64::from(b[axis]) + i64::from(c[axis]) - i64::from(a[axis]))
            };
            vec![across(a, b, c), across(b, c, a), across(c, a, b)]
        }
        [a, b, c] => vec![wide(a), times(a, b, more), times(a, c, more)],
        [a, b] => {
            let ends = [times(a, b, random.pick(&[0, -1])), times(a, b, more)];
            let third = random.pick(&[wide(a), wide(b), [ends[1][0], ends[0][1] + 7]]);
            [&ends[..], &[third][..usize::from(random.once_in(2))]].concat()
        }
        _ => {
            let [x, y] = wide(shape[0]);
            let [across, down] = [random.from_to(-9, 9), random.from_to(-9, 9)].map(i64::from);
            vec![[x - across, y - down], [x + more * across, y + more * down]]
        }
    };
    let in_range = |along: i64| i32::try_from(along).ok().filter(|along| UNITS.contains(along));
    let vertices = outer.into_iter().map(|[x, y]| Some([in_range(x)?, in_range(y)?]));
    vertices.collect::<Option<Vec<Vertex>>>().unwrap_or_else(|| shape.to_vec())
}

/// A shape whose sides have many whole points, or with vertices anywhere in range, at its ends or near the origin; often without
/// area.
pub fn shape(random: &Random) -> Vec<Vertex> {
    let step = random.pick(&[1, 1, 2, 12, 720, 8000]);
    let [left, top] = [0; 2].map(|_| random.from_to(-2000, 2000));
    let on_steps = || [left + step * random.from_to(-30, 30), top + step * random.from_to(-30, 30)];
    let end = || random.pick(&[LOW, LOW + 1, -1, 0, HIGH - 1, HIGH, random.from_to(LOW, HIGH)]);
    let small = || random.from_to(-3, 3);
    let way = random.below(4);
    let vertex = || match way {
        0 => [end(), end()],
        1 => [small(), small()],
        _ => on_steps(),
    };
    let mut shape: Vec<Vertex> = (0..random.pick(&[1, 2, 2, 3, 3, 3, 3, 3])).map(|_| vertex()).collect();
    if shape.len() == 3 && random.once_in(4) {
        shape[2] = between(random, shape[0], shape[1]);
        random.shuffle(&mut shape);
    }
    shape
}

/// Two shapes in range, of which the first is often inside the second.
pub fn nested(random: &Random) -> [Vec<Vertex>; 2] {
    let one = shape(random);
    match random.below(8) {
        0 => [shape(random), one],
        1 => {
            let mut same = one.clone();
            random.shuffle(&mut same);
            [same, one]
        }
        2 | 3 => {
            let outer = around(random, &one);
            [random.pick(&[&one, &unit_off(random, one.clone())]).clone(), outer]
        }
        _ => [inner(random, &one), one],
    }
}
