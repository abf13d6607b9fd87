//! All shapes of some vertices.

use model::Vertex;

/// Every vertex with one of these coordinates along each axis.
pub fn grid(across: &[i32], down: &[i32]) -> Vec<Vertex> {
    across.iter().flat_map(|&x| down.iter().map(move |&y| [x, y])).collect()
}

/// Every point, line and triangle of these vertices.
pub fn shapes(vertices: &[Vertex]) -> impl Iterator<Item = Vec<Vertex>> + '_ {
    let lines = vertices.iter().flat_map(|&a| vertices.iter().map(move |&b| [a, b]));
    let triangles = lines.clone().flat_map(|[a, b]| vertices.iter().map(move |&c| vec![a, b, c]));
    vertices.iter().map(|&a| vec![a]).chain(lines.map(Vec::from)).chain(triangles)
}
