//! A shape inside a shape, by weights that are found and then checked.

use crate::shapes::{faults, vertices, WORDS_OF_SHAPE};
use crate::touch::in_range;
use crate::{number, Vertex};

/// Whether these weights, one for each vertex of a shape, have exactly this point as their mean: none is negative, not all are
/// zero, and the weighted sums are their sum times x and times y.
pub fn is_mean(weights: &[i128], shape: &[Vertex], point: Vertex) -> bool {
    let n: i128 = weights.iter().sum();
    let sum = |axis: usize| weights.iter().zip(shape).map(|(weight, v)| weight * i128::from(v[axis])).sum::<i128>();
    weights.len() == shape.len()
        && weights.iter().all(|&weight| weight >= 0)
        && n > 0
        && [0, 1].iter().all(|&axis| sum(axis) == n * i128::from(point[axis]))
}

/// Weights for a shape among which some have the point as their mean, where any have.
///
/// Then some have it that leave out each vertex they can. One vertex alone is the point. Two hold it between them: along an axis
/// each weighs as much as the other is away. Three solve both equations, which leave one solution and its multiples.
fn candidates(shape: &[Vertex], point: Vertex) -> Vec<Vec<i128>> {
    let away = |axis: usize| shape.iter().map(move |v| i128::from(v[axis]) - i128::from(point[axis])).collect();
    let [x, y]: [Vec<i128>; 2] = [away(0), away(1)];
    let places = || 0..shape.len();
    let only = |weighs: &[(usize, i128)]| {
        let mut weights = vec![0; shape.len()];
        weighs.iter().for_each(|&(place, weight)| weights[place] = weight);
        weights
    };
    let mut all: Vec<Vec<i128>> = places().map(|place| only(&[(place, 1)])).collect();
    for (one, other) in places().flat_map(|one| (0..one).map(move |other| (one, other))) {
        all.extend([&x, &y].map(|away| only(&[(one, away[other].abs()), (other, away[one].abs())])));
    }
    if let ([x1, x2, x3], [y1, y2, y3]) = (&x[..], &y[..]) {
        let solution = [x2 * y3 - x3 * y2, x3 * y1 - x1 * y3, x1 * y2 - x2 * y1];
        all.extend([solution, solution.map(|weight| -weight)].map(Vec::from));
    }
    all
}

/// Whole weights for a shape that have this point as their mean, where there are some.
pub fn weights(shape: &[Vertex], point: Vertex) -> Option<Vec<i128>> {
    candidates(shape, point).into_iter().find(|weights| is_mean(weights, shape, point))
}

/// Whether every vertex of the first shape is a point of the second.
pub fn is_inside(first: &[Vertex], second: &[Vertex]) -> bool {
    first.iter().all(|&vertex| weights(second, vertex).is_some())
}

/// Whether a list is of one shape.
fn is_one_shape(list: &[i32]) -> bool {
    list.len() == WORDS_OF_SHAPE && faults(list, WORDS_OF_SHAPE).next().is_none()
}

/// Whether the shape of one list is inside that of another, or the number of the refusal.
pub fn inside(first: &[i32], second: &[i32]) -> Result<bool, u32> {
    if !is_one_shape(first) || !is_one_shape(second) {
        return Err(number::LIST);
    }
    let (first, second) = (vertices(first), vertices(second));
    if !in_range(&first) || !in_range(&second) {
        return Err(number::OUT_OF_RANGE);
    }
    Ok(is_inside(&first, &second))
}
