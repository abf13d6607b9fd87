//! The byte map by quarters: the map by definition, and the tests that it takes, by hand and of a screen full of tiles.

use std::collections::BTreeMap;

use model::cover::{cover, Cover};
use model::marked::{Cut, CUT, MARKED, SCREEN};
use model::number;
use model::quarters::{by_quarters, by_quarters_alone, map};
use model::screen::Screen;
use model::Vertex;

const DISPLAY: Screen = Screen { width: 800, height: 480, s: 4 };
const LARGEST: Screen = Screen { width: 4096, height: 4096, s: 6 };

/// Over every screen.
const COVERING: [Vertex; 3] = [[-262_144, -262_144], [262_143, -262_144], [0, 262_143]];

#[test]
fn maps_have_the_tiles_of_the_marked_cases() {
    let cut = CUT.iter().flat_map(|Cut { screen, cases }| cases.iter().map(move |case| (*screen, case)));
    for (screen, case) in MARKED.iter().map(|case| (SCREEN, case)).chain(cut) {
        let marked: Vec<u8> = (0..8).map(|tile| u8::from(case.tiles.contains(&tile))).collect();
        assert_eq!(map(screen, case.shape, 8), Ok(marked), "{} on {screen:?}", case.name);
    }
}

#[test]
fn a_map_is_refused_in_order() {
    let (no_screen, far) = (Screen { s: 7, ..SCREEN }, [[0, 262_144]]);
    for (screen, shape, bytes, answer) in [
        (no_screen, far, 7, Err(number::SCREEN)),
        (no_screen, [[0, 0]], 8, Err(number::SCREEN)),
        (SCREEN, far, 7, Err(number::OUT_OF_RANGE)),
        (SCREEN, far, 8, Err(number::OUT_OF_RANGE)),
        (SCREEN, [[0, 0]], 0, Err(number::BUFFER)),
        (SCREEN, [[0, 0]], 7, Err(number::BUFFER)),
        (SCREEN, [[0, 0]], 8, Ok(vec![1, 0, 0, 0, 0, 0, 0, 0])),
        (SCREEN, [[0, 0]], 9, Ok(vec![1, 0, 0, 0, 0, 0, 0, 0])),
    ] {
        assert_eq!(map(screen, &shape, bytes), answer, "{shape:?} on {screen:?} in {bytes} bytes");
    }
}

/// Four columns and two rows are held by a square of four: one test of that, one of each of its two quarters on the grid, and one
/// of each tile in those that are split.
#[test]
fn tests_by_hand() {
    for (shape, alone, filled) in [
        // the first quarter is split
        (&[[0, 0]][..], 1 + 2 + 4, 1 + 2 + 4),
        (&[[256, 256]], 1 + 2 + 4, 1 + 2 + 4),
        // the second
        (&[[1024, 10]], 1 + 2 + 4, 1 + 2 + 4),
        // both, since they meet here
        (&[[512, 512]], 1 + 2 + 8, 1 + 2 + 8),
        // the shape is off the screen
        (&[[1025, 10]], 1, 1),
        // neither quarter is wholly covered, and then the first is, up to its end
        (&[[0, 0], [1024, 0], [0, 512]], 1 + 2 + 8, 1 + 2 + 8),
        (&[[0, 0], [1024, 0], [0, 1024]], 1 + 2 + 8, 1 + 2 + 4),
        (&[[0, 0], [1024, 0], [0, 1023]], 1 + 2 + 8, 1 + 2 + 8),
        // up to the last corner, and a unit short of it
        (&[[0, 0], [1536, 0], [0, 1536]], 1 + 2 + 8, 1),
        (&[[0, 0], [1535, 0], [0, 1535]], 1 + 2 + 8, 1 + 2 + 4),
    ] {
        let tests = [by_quarters_alone(SCREEN, shape).tests, by_quarters(SCREEN, shape).tests];
        assert_eq!(tests, [alone, filled], "{shape:?}");
    }
}

/// A grid of 50 columns and 30 rows is held by a square of 64. Of its squares with sides of 64, 32, 16, 8, 4, 2 and 1 so many have
/// a tile on the grid, and a shape over the whole screen touches them all.
#[test]
fn tests_of_a_triangle_over_the_whole_screen() {
    let on_the_grid = 1 + 2 + 4 * 2 + 7 * 4 + 13 * 8 + 25 * 15 + 50 * 30;
    assert_eq!(on_the_grid, 2018);
    assert_eq!(by_quarters_alone(DISPLAY, &COVERING).tests, on_the_grid);
    assert_eq!(by_quarters(DISPLAY, &COVERING).tests, 1);
    assert_eq!(by_quarters_alone(LARGEST, &COVERING).tests, (4_u32.pow(7) - 1) / 3);
    assert_eq!(by_quarters(LARGEST, &COVERING).tests, 1);
}

/// Triangles with all vertices on the screen: half of it, one as wide as it, and a thin one along its diagonal, which covers no
/// tile wholly.
#[test]
fn tests_of_triangles_on_the_screen() {
    for (shape, tiles, alone, filled) in [
        ([[0, 0], [12_800, 0], [0, 7_680]], 794, 1159, 299),
        ([[0, 0], [12_800, 0], [12_000, 7_680]], 804, 1187, 383),
        ([[0, 0], [24, 0], [12_800, 7_680]], 88, 326, 326),
    ] {
        let [by_alone, by_filled] = [by_quarters_alone(DISPLAY, &shape), by_quarters(DISPLAY, &shape)];
        let touched = by_filled.map.iter().filter(|&&byte| byte == 1).count();
        assert_eq!((touched, by_alone.tests, by_filled.tests), (tiles, alone, filled), "{shape:?}");
    }
}

/// Numbers that are the same in every run.
struct Random(u64);

impl Random {
    /// A number from `low` to `high`, both included.
    fn between(&mut self, low: i32, high: i32) -> i32 {
        self.0 ^= self.0 << 13;
        self.0 ^= self.0 >> 7;
        self.0 ^= self.0 << 17;
        low + ((self.0 >> 20) % (i64::from(high) - i64::from(low) + 1) as u64) as i32
    }

    /// A screen of at most so many columns and rows, which may end anywhere in its last ones.
    fn screen(&mut self, most: i32) -> Screen {
        let s = self.between(3, 6);
        let mut extent = || self.between(1, most.min(4096 >> s) << s) as u32;
        Screen { width: extent(), height: extent(), s: s as u32 }
    }

    /// A coordinate where tiles meet, at the end of the screen, on it or around it, or anywhere in range.
    fn along(&mut self, side: i32, end: i32) -> i32 {
        match self.between(0, 7) {
            0..=2 => side * self.between(-1, end / side + 2),
            3 => end + self.between(-1, 1),
            4 | 5 => self.between(0, end),
            6 => self.between(-2 * end, 3 * end),
            _ => self.between(-262_144, 262_143),
        }
    }

    fn shape(&mut self, screen: Screen) -> Vec<Vertex> {
        let [right, bottom] = [screen.width, screen.height].map(|extent| 16 * extent as i32);
        let side = screen.side() as i32;
        (0..self.between(1, 4).min(3)).map(|_| [self.along(side, right), self.along(side, bottom)]).collect()
    }
}

/// On screens of few tiles and of many, both walks give the map by definition; the second never takes more tests, and often fewer.
#[test]
fn quarters_give_the_map_by_definition() {
    let mut random = Random(0xF100_0010);
    let (mut fewer, mut misses, mut by_touched) = (0, 0, BTreeMap::new());
    for (shapes, most) in [(60_000, 5), (3000, 20), (60, 64)] {
        for _ in 0..shapes {
            let screen = random.screen(most);
            let shape = random.shape(screen);
            let bytes = map(screen, &shape, 4096).unwrap();
            let [alone, filled] = [by_quarters_alone(screen, &shape), by_quarters(screen, &shape)];
            assert_eq!((&alone.map, &filled.map), (&bytes, &bytes), "{shape:?} on {screen:?}");
            assert!(filled.tests <= alone.tests, "{shape:?} on {screen:?}");
            let whole = (0..screen.tiles()).any(|tile| cover(&shape, screen.rectangle(tile)) == Cover::Wholly);
            assert!(whole || filled.tests == alone.tests, "{shape:?} on {screen:?}");
            let touched = bytes.iter().filter(|&&byte| byte == 1).count();
            fewer += u32::from(filled.tests < alone.tests);
            misses += u32::from(touched == 0);
            *by_touched.entry(touched.min(8)).or_insert(0) += 1;
        }
    }
    println!("shapes by the tiles touched, of 8 and more together: {by_touched:?}; {fewer} take fewer tests");
    assert!(fewer > 1000 && misses > 5000 && by_touched.len() == 9 && by_touched.values().all(|&shapes| shapes > 500));
}
