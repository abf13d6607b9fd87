//! A shape inside a shape: by hand, against a search for the weights of all pairs on a small grid, and against elimination where the
//! coordinates are large; what then holds of the tiles of a screen; and what is refused, in which order.

mod grid;
mod search;

use std::collections::BTreeMap;

use grid::{grid, shapes};
use model::cover::{covered, has_point, Cover};
use model::inside::{inside, is_inside, is_mean, weights};
use model::marked::MARKED;
use model::nested::{Nested, AMONG_MARKED, NESTED};
use model::screen::Screen;
use model::{number, Vertex, UNITS};

const LOW: i32 = *UNITS.start();
const HIGH: i32 = *UNITS.end();

/// The vertices in each of their orders.
fn orders(shape: &[Vertex]) -> Vec<Vec<Vertex>> {
    if shape.len() < 2 {
        return vec![shape.to_vec()];
    }
    let with_first = |first: usize| {
        let rest = [&shape[..first], &shape[first + 1..]].concat();
        orders(&rest).into_iter().map(move |rest| [&shape[first..=first], &rest].concat())
    };
    (0..shape.len()).flat_map(with_first).collect()
}

#[test]
fn pairs_decided_by_hand() {
    for Nested { name, first, second, inside } in NESTED {
        for second in orders(second) {
            for first in orders(first) {
                assert_eq!(is_inside(&first, &second), inside, "{name}: {first:?} in {second:?}");
            }
        }
    }
}

/// Those of the marked cases that are inside others have no tile that these have not, and cover none wholly that these do not.
#[test]
fn marked_cases_inside_others() {
    for (first, by_hand) in MARKED.iter().zip(AMONG_MARKED) {
        let around = || MARKED.iter().filter(|second| is_inside(first.shape, second.shape));
        let names: Vec<&str> = around().map(|second| second.name).filter(|&name| name != first.name).collect();
        assert_eq!((names.len() + 1, &names[..]), (around().count(), by_hand), "{}", first.name);
        for second in around() {
            let among = |tiles: &[u32], others: &[u32]| tiles.iter().all(|tile| others.contains(tile));
            assert!(
                among(first.tiles, second.tiles) && among(first.whole, second.whole),
                "{} in {}",
                first.name,
                second.name
            );
        }
    }
}

#[test]
fn weights_by_hand() {
    for (shape, point, by_hand) in [
        (&[[5, 5]][..], [5, 5], Some(&[1][..])),
        (&[[5, 5]], [5, 6], None),
        (&[[0, 0], [6, 3]], [2, 1], Some(&[4, 2])),
        (&[[0, 0], [0, 6]], [0, 1], Some(&[5, 1])),
        (&[[0, 0], [6, 3]], [2, 2], None),
        (&[[0, 0], [20, 0], [0, 10]], [3, 3], Some(&[110, 30, 60])),
        (&[[0, 10], [20, 0], [0, 0]], [3, 3], Some(&[60, 30, 110])),
        (&[[0, 0], [20, 0], [0, 10]], [10, 6], None),
    ] {
        assert_eq!(weights(shape, point).as_deref(), by_hand, "{point:?} of {shape:?}");
    }
}

/// A mean is one by each of its sentences: as many weights as vertices, none negative, not all zero, and both equations.
#[test]
fn what_is_a_mean() {
    let shape = [[0, 0], [6, 0], [0, 4]];
    for (weights, point, mean) in [
        (&[2, 1, 1][..], [1, 1], false),
        (&[7, 2, 3], [1, 1], true),
        (&[14, 4, 6], [1, 1], true),
        (&[0, 1, 1], [3, 2], true),
        (&[0, 1, 1], [3, 1], false),
        (&[0, 1, 1], [2, 2], false),
        (&[0, 0, 0], [0, 0], false),
        (&[1, 0, 0], [0, 0], true),
        (&[3, -1, -1], [-6, -4], false),
        (&[-7, -2, -3], [1, 1], false),
        (&[1, 1], [3, 0], false),
    ] {
        assert_eq!(is_mean(weights, &shape, point), mean, "{weights:?}, {point:?}");
    }
}

/// Every pair of shapes of nine vertices, by a search through all weights up to twice the area of the largest triangle. Where
/// some weights give a point as their mean, some with at most this sum do.
#[test]
fn all_pairs_of_a_small_grid_are_as_searched() {
    let small = search::weights(4);
    let vertices = grid(&[0, 1, 2], &[0, 1, 2]);
    let shapes: Vec<Vec<Vertex>> = shapes(&vertices).collect();
    let mut kinds: BTreeMap<[usize; 2], [u32; 2]> = BTreeMap::new();
    for second in &shapes {
        let points: Vec<Vertex> =
            vertices.iter().copied().filter(|point| search::searched(&small, second, point.map(i64::from))).collect();
        for first in &shapes {
            let expected = first.iter().all(|vertex| points.contains(vertex));
            assert_eq!(is_inside(first, second), expected, "{first:?} in {second:?}");
            kinds.entry([first.len(), second.len()]).or_default()[usize::from(expected)] += 1;
        }
    }
    println!("pairs by kinds, not inside and inside: {kinds:?}");
    assert!(kinds.len() == 9 && kinds.values().flatten().all(|&pairs| pairs > 5));
}

/// Every point in and around the shapes of sixteen vertices: weights are found exactly where there are some, and are such.
#[test]
fn weights_are_found_where_there_are_some() {
    let (small, along) = (search::weights(9), [0, 1, 2, 3]);
    let around: Vec<i32> = (-1..=4).collect();
    let mut points = 0;
    for shape in shapes(&grid(&along, &along)) {
        for point in grid(&around, &around) {
            let (found, some) = (weights(&shape, point), search::searched(&small, &shape, point.map(i64::from)));
            assert_eq!(found.is_some(), some, "{point:?} of {shape:?}");
            assert!(found.is_none_or(|weights| is_mean(&weights, &shape, point)), "{point:?} of {shape:?}");
            points += u32::from(some);
        }
    }
    assert!(points > 15_000, "{points} points");
}

/// Shapes with vertices at the ends of the range and in its middle, and points there, on lines between and a unit off: by elimination
/// too.
#[test]
fn large_coordinates_are_as_by_elimination() {
    let vertices = grid(&[LOW, -1, HIGH], &[LOW, 0, HIGH]);
    let along = [LOW, LOW + 1, -131_073, -2, -1, 0, 1, 131_071, HIGH - 1, HIGH];
    let (mut points, mut on_lines) = ([0; 2], 0);
    for shape in shapes(&vertices) {
        for point in grid(&along, &along) {
            let found = weights(&shape, point).is_some();
            assert_eq!(found, has_point(&shape, point.map(i64::from)), "{point:?} of {shape:?}");
            points[usize::from(found)] += 1;
            on_lines += u32::from(found && shape.len() == 2 && !shape.contains(&point));
        }
    }
    println!("{points:?} points, {on_lines} of them between the ends of a line");
    assert!(points.iter().all(|&points| points > 10_000) && on_lines > 50);
}

/// How pairs of shapes, of which the first is inside the second, cover tiles: apart, partly and wholly. What the second covers, the
/// first need not.
#[test]
fn what_a_shape_inside_another_covers_the_other_covers() {
    let mut inside: BTreeMap<[Cover; 2], u64> = BTreeMap::new();
    let mut more = 0;
    for (screen, across, down) in [
        // 3 columns and 2 rows, both cut; 4 and 3, neither cut; one tile, cut to a pixel
        (Screen { width: 20, height: 12, s: 3 }, [-200, 0, 448], [-300, 0, 384]),
        (Screen { width: 20, height: 12, s: 3 }, [0, 128, 320], [0, 128, 192]),
        (Screen { width: 64, height: 48, s: 4 }, [0, 500, 1024], [-1, 256, 900]),
        (Screen { width: 1, height: 1, s: 3 }, [-16, 0, 16], [0, 16, 33]),
    ] {
        let vertices = grid(&across, &down);
        let covers: Vec<_> = shapes(&vertices).map(|shape| (covers(screen, &shape), shape)).collect();
        for (of_first, first) in &covers {
            for (of_second, second) in &covers {
                let pairs = of_first.iter().zip(of_second).map(|(&first, &second)| [first, second]);
                if !is_inside(first, second) {
                    more += pairs.filter(|[first, second]| first > second).count();
                    continue;
                }
                for [of_first, of_second] in pairs {
                    assert!(of_first <= of_second, "{first:?} in {second:?} on {screen:?}");
                    *inside.entry([of_first, of_second]).or_default() += 1;
                }
            }
        }
    }
    println!("tiles of pairs by their covers: {inside:?}; {more} tiles of others are covered more by the first");
    assert!(inside.len() == 6 && inside.values().all(|&tiles| tiles > 1000) && more > 100_000);
}

/// How a shape covers each tile of a screen.
fn covers(screen: Screen, shape: &[Vertex]) -> Vec<Cover> {
    let covered: BTreeMap<u32, Cover> = covered(screen, shape).into_iter().collect();
    (0..screen.tiles()).map(|tile| covered.get(&tile).copied().unwrap_or(Cover::Apart)).collect()
}

#[test]
fn a_pair_is_refused_in_order() {
    let good: &[i32] = &[2, 0, 0, 5, 5, 0, 0];
    let no_lists: [&[i32]; 9] = [
        &[],
        &[1],
        &[1, 0, 0, 0, 0, 0],
        &[1, 0, 0, 0, 0, 0, 0, 0],
        &[1, 0, 0, 0, 0, 0, 0, 1, 0, 0, 0, 0, 0, 0],
        &[0, 0, 0, 0, 0, 0, 0],
        &[4, 0, 0, 0, 0, 0, 0],
        &[1, 262_144, 0, 0, 0, 0, 1],
        &[2, 0, 0, 0, 0, -1, 0],
    ];
    let far: [&[i32]; 3] = [&[1, 262_144, 0, 0, 0, 0, 0], &[2, 0, 0, 0, -262_145, 0, 0], &[3, 0, 0, 0, 0, 0, i32::MIN]];
    let both_ways = |one: &[i32], other: &[i32], number: u32| {
        assert_eq!([inside(one, other), inside(other, one)], [Err(number); 2], "{one:?}, {other:?}");
    };
    for no_list in no_lists {
        for other in no_lists.iter().chain(&far).chain([&good]) {
            both_ways(no_list, other, number::LIST);
        }
    }
    for one in far {
        for other in far.iter().chain([&good]) {
            both_ways(one, other, number::OUT_OF_RANGE);
        }
    }
    let ends: &[i32] = &[2, LOW, HIGH, HIGH, LOW, 0, 0];
    assert_eq!([inside(good, good), inside(ends, ends), inside(good, ends)], [Ok(true), Ok(true), Ok(false)]);
}
