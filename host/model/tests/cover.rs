//! Points of a shape, and how it covers a rectangle, against a search for the weights, for all shapes on a small grid.

mod grid;
mod search;

use std::collections::BTreeMap;

use grid::grid;
use model::cover::{corners, cover, has_point, Cover};
use model::screen::Rectangle;
use model::Vertex;
use search::{searched, weights};

/// The vertices of the grid have coordinates below this.
const SIDE: i32 = 4;

/// The greatest sum of weights that is searched: twice the area of the largest triangle. Where some weights give a point as
/// their mean, some with at most this sum do.
const MOST: i64 = 9;

/// Every point, line and triangle of the grid.
fn shapes() -> Vec<Vec<Vertex>> {
    let along: Vec<i32> = (0..SIDE).collect();
    grid::shapes(&grid(&along, &along)).collect()
}

#[test]
fn points_of_a_shape_are_the_means_of_its_weights() {
    let weights = weights(MOST);
    let around = || -1..=i64::from(SIDE);
    let mut points = 0;
    for shape in shapes() {
        for point in around().flat_map(|x| around().map(move |y| [x, y])) {
            let expected = searched(&weights, &shape, point);
            assert_eq!(has_point(&shape, point), expected, "{point:?} of {shape:?}");
            points += u32::from(expected);
        }
    }
    assert!(points > 15_000, "{points} points");
}

#[test]
fn a_rectangle_is_wholly_covered_where_all_four_corners_are_points() {
    let weights = weights(MOST);
    let (mut by_vertices, mut partly_by_corners) = (BTreeMap::new(), BTreeMap::new());
    let sides = || (0..i64::from(SIDE)).flat_map(|low| (low + 1..i64::from(SIDE)).map(move |high| [low, high]));
    for ([left, right], [top, bottom]) in sides().flat_map(|across| sides().map(move |down| (across, down))) {
        let rectangle = Rectangle { left, right, top, bottom };
        for shape in shapes() {
            let found = corners(rectangle).iter().filter(|&&corner| searched(&weights, &shape, corner)).count();
            let said = cover(&shape, rectangle);
            assert_eq!(said == Cover::Wholly, found == 4, "{shape:?} over {rectangle:?}");
            assert!(said != Cover::Apart || found == 0, "{shape:?}");
            *by_vertices.entry((shape.len(), said)).or_insert(0) += 1;
            if said == Cover::Partly {
                *partly_by_corners.entry(found).or_insert(0) += 1;
            }
        }
    }
    println!("{by_vertices:?}, partly covered with so many corners: {partly_by_corners:?}");
    assert!(by_vertices.keys().all(|&(vertices, cover)| cover != Cover::Wholly || vertices == 3));
    assert!(by_vertices[&(3, Cover::Wholly)] > 500);
    assert!((0..4).all(|corners| partly_by_corners[&corners] > 5000));
}
