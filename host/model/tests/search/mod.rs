//! A search for weights.

use model::Vertex;

/// All weights of three vertices, none negative and not all zero, with at most that sum.
pub fn weights(most: i64) -> Vec<[i64; 3]> {
    let all = (0..=most).flat_map(|a| (0..=most - a).flat_map(move |b| (0..=most - a - b).map(move |c| [a, b, c])));
    all.filter(|&weights| weights != [0; 3]).collect()
}

/// Whether some of these weights have the point as their mean. Vertices that the shape lacks have the weight zero.
pub fn searched(weights: &[[i64; 3]], shape: &[Vertex], point: [i64; 2]) -> bool {
    weights.iter().filter(|weights| weights[shape.len()..].iter().all(|&weight| weight == 0)).any(|weights| {
        let n: i64 = weights.iter().sum();
        let sum = |axis: usize| shape.iter().zip(weights).map(|(v, weight)| weight * i64::from(v[axis])).sum::<i64>();
        [0, 1].iter().all(|&axis| sum(axis) == n * point[axis])
    })
}
