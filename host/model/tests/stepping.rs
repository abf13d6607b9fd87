//! The stepping walk: the tiles that it tests by hand, and what holds of each, for all shapes on a grid of vertices most of which
//! lie where tiles meet or where the screen ends.

mod grid;

use std::collections::BTreeMap;

use grid::{grid, shapes};
use model::marked::SCREEN;
use model::screen::Screen;
use model::stepped::{Stepped, STEPPED};
use model::stepping::{on_screen, tests, tests_through_box, walk, Walk};
use model::touch::touched;
use model::Vertex;

#[test]
fn walks_made_by_hand() {
    for Stepped { name, screen, shape, walk: by_hand } in STEPPED {
        let walk = walk(screen, shape);
        let steps = walk.as_ref().map(|walk| (walk.start, &walk.tested[..]));
        assert_eq!(steps, by_hand, "{name}");
        assert_eq!(tests(screen, shape), by_hand.map_or(0, |(_, tested)| tested.len() as u32), "{name}");
    }
}

#[test]
fn a_screen_has_its_ends() {
    for (width, height) in [(64, 32), (60, 28), (1, 1), (4096, 4096)] {
        let screen = Screen { width, height, s: 6 };
        let [right, bottom] = [width, height].map(|extent| 16 * extent as i32);
        for on in [[0, 0], [right, 0], [0, bottom], [right, bottom], [right / 2, bottom / 3]] {
            assert!(on_screen(screen, &[on, [right, bottom], on]), "{on:?} on {screen:?}");
            let off = [[-1, on[1]], [right + 1, on[1]], [on[0], -1], [on[0], bottom + 1]];
            for off in off {
                assert!(!on_screen(screen, &[on, off]) && !on_screen(screen, &[off, on, on]), "{off:?} on {screen:?}");
            }
        }
    }
}

/// What holds of a walk: it starts in a touched tile, lists the touched tiles, and tests each of them but the first, some misses,
/// and in all at most twice as many as it lists and one for each row.
fn check(screen: Screen, shape: &[Vertex], walk: &Walk) {
    let Walk { start, tested, listed, rows } = walk;
    let touched = touched(screen, shape);
    assert_eq!(*listed, touched, "{shape:?} on {screen:?}");
    assert!(touched.contains(start), "{shape:?} on {screen:?}: {walk:?}");
    assert!(touched.iter().all(|tile| (tile == start) != tested.contains(tile)), "{shape:?} on {screen:?}: {walk:?}");
    let mut in_rows: Vec<u32> = listed.iter().map(|tile| tile / screen.columns()).collect();
    in_rows.dedup();
    assert_eq!(*rows, in_rows.len() as u32, "{shape:?} on {screen:?}");
    assert!(tested.len() as u32 <= 2 * listed.len() as u32 + rows, "{shape:?} on {screen:?}: {walk:?}");
}

#[test]
fn a_walk_lists_the_touched_tiles_within_its_price() {
    // the tests less those that the price leaves, and how many tiles are tested twice
    let (mut left, mut twice) = (BTreeMap::new(), 0);
    for (screen, across, down) in [
        // 3 columns and 2 rows, both cut; 4 and 3, neither cut; 2 and 4, the columns cut
        (Screen { width: 20, height: 12, s: 3 }, &[0, 127, 128, 129, 256, 320][..], &[0, 1, 128, 191, 192][..]),
        (Screen { width: 64, height: 48, s: 4 }, &[0, 256, 400, 768, 1024], &[0, 255, 256, 512, 513, 768]),
        (Screen { width: 9, height: 32, s: 3 }, &[0, 128, 129, 144], &[0, 64, 128, 256, 300, 384, 512]),
    ] {
        for shape in shapes(&grid(across, down)) {
            let walk = walk(screen, &shape).unwrap();
            check(screen, &shape, &walk);
            let price = 2 * walk.listed.len() as u32 + walk.rows;
            *left.entry(price - walk.tested.len() as u32).or_insert(0) += 1;
            let mut different = walk.tested.clone();
            different.sort_unstable();
            different.dedup();
            twice += u32::from(different.len() < walk.tested.len());
        }
    }
    println!("shapes by what the price leaves: {left:?}; in {twice} a tile is tested twice");
    assert!(left.values().sum::<u32>() > 70_000 && twice > 5000);
}

/// The walk through the box: every tile of a row up to the one after the run.
#[test]
fn tests_through_the_box_by_hand() {
    for (shape, tests) in [
        (&[[0, 0]][..], 1),
        (&[[256, 256]], 4),
        (&[[0, 0], [512, 512]], 3 + 3),
        (&[[0, 0], [1024, 0], [0, 512]], 4 + 4),
        (&[[700, 0], [1024, 0], [1024, 300]], 2 + 2),
        (&[[300, 500], [1000, 10]], 3 + 3),
        (&[[10, 10], [1000, 200], [900, 500]], 4 + 4),
        (&[[300, 20], [300, 256]], 2),
        (&[[1025, 10]], 0),
    ] {
        assert_eq!(tests_through_box(SCREEN, shape), tests, "{shape:?}");
    }
}
