//! Maps: against the model and against the tiles that a bin lists, on shapes most of which lie where a tile or a square of tiles
//! turns; on grids of every form, with maps known beforehand; in bytes of every length, at every address and with anything in
//! them; and what refuses a map, in which order.

use std::collections::BTreeMap;

use model::number;
use model::quarters::{by_quarters, by_quarters_alone};
use model::screen::{Rectangle, Screen};
use model::{Vertex, UNITS};
use tests::call::{screen_of, shape_of};
use tests::generate::{self, cut_screens, end_of, full_screens, screen_with};
use tests::hold::{hold, Case};
use tests::list;
use tests::mapped::{Mapped, Seen};
use tests::random::Random;
use tests::square::cut_both_ways;

/// Over every screen.
const COVERING: [Vertex; 3] = [[-262_144, -262_144], [262_143, -262_144], [0, 262_143]];

/// The side of the smallest square that holds the grid, as a power of two.
fn power_of(screen: Screen) -> u32 {
    screen.columns().max(screen.rows()).next_power_of_two().trailing_zeros()
}

/// The screen whose tiles are squares of 2^`power` tiles by as many of this one.
fn in_squares(screen: Screen, power: u32) -> Screen {
    Screen { s: screen.s + power, ..screen }
}

/// A vertex where tiles meet or squares of them do, on the screen or up to a tile off it; or at an end of the screen, or a unit
/// beside such a place.
fn meeting(random: &Random, screen: Screen) -> Vertex {
    let (end, tiles) = (end_of(screen), [screen.columns(), screen.rows()]);
    [0, 1].map(|axis| {
        let between = screen.side() as i32 * random.from_to(-1, tiles[axis] as i32 + 1);
        random.pick(&[between, between, between, end[axis], between + random.pick(&[-1, 1])])
    })
}

/// A shape at a tile, at a square of tiles or over one, with its vertices where tiles meet, or at the ends of the range.
fn shape(random: &Random, screen: Screen) -> Vec<Vertex> {
    let coarse = in_squares(screen, random.below(power_of(screen) + 1));
    let square = generate::tile(random, coarse);
    match random.below(8) {
        0 | 1 => generate::shape(random, coarse, square),
        2 => generate::over(random, coarse, square),
        3..=5 => (0..random.pick(&[1, 2, 3, 3, 3])).map(|_| meeting(random, coarse)).collect(),
        _ => list::shape(random, screen),
    }
}

/// A map that is done or refused.
#[derive(Clone, Debug)]
struct Made(Mapped);

impl Case for Made {
    type Seen = Seen;

    fn make(random: &Random, place: u64) -> Made {
        let screen = match place % 1000 {
            0 => generate::full_screen(random),
            place if place % 100 == 50 => generate::screen(random, random.pick(&[24, 64, 512])),
            _ => generate::screen(random, 6),
        };
        let mut mapped = Mapped {
            screen,
            shape: shape(random, screen),
            spare: random.pick(&[0, 0, 0, 0, 1, 9, 300]),
            before: random.below(9) as usize,
            filling: [random.below(256) as u8, random.pick(&[0, 1, 7, random.below(256)]) as u8],
        };
        if random.once_in(6) {
            mapped.spare = random.pick(&[-1, -1, i32::MIN, -1 - random.below(screen.tiles()) as i32]);
        }
        if random.once_in(12) {
            mapped.shape = generate::out_of_range(random, mapped.shape);
        }
        if random.once_in(12) {
            mapped.screen = generate::bad_screen(random);
        }
        Made(mapped)
    }

    fn smaller(&self) -> Vec<Made> {
        self.0.smaller().into_iter().map(Made).collect()
    }

    fn run(&self) -> Result<Seen, String> {
        self.0.run()
    }
}

/// What the maps reached.
#[derive(Default, Debug)]
struct Reached {
    /// maps by the number that they get
    numbers: BTreeMap<u32, u64>,
    /// refused maps by the causes that they have: of 1, of 7 and of 11
    causes: BTreeMap<[bool; 3], u64>,
    /// maps that are done, by the number of vertices and s
    done: BTreeMap<(usize, u32), u64>,
    /// of these, those with no tile, some and all, on screens of several tiles
    touched: [u64; 3],
    /// those by the side of the square that holds the grid, a power of two
    powers: BTreeMap<u32, u64>,
    /// those on screens that are cut on both axes
    cut: u64,
    /// those on screens of 4,096 tiles, and those that touch more than 2,048
    largest: [u64; 2],
    /// those in which bytes past the tiles are lent
    longer: u64,
    /// those by the address of the first byte, less whole eights
    addresses: [u64; 8],
    /// of those that are looked at, all, and those in which a square of several tiles is filled
    looked_at: u64,
    filled: u64,
}

impl Reached {
    fn add(&mut self, case: &Mapped, Seen { number, map, address }: &Seen, look: bool) {
        *self.numbers.entry(*number).or_default() += 1;
        if *number != number::DONE {
            *self.causes.entry(case.causes()).or_default() += 1;
            return;
        }
        let screen = case.screen;
        *self.done.entry((case.shape.len(), screen.s)).or_default() += 1;
        let touched = map.iter().filter(|&&byte| byte == 1).count();
        if map.len() > 1 {
            let which = usize::from(touched > 0) + usize::from(touched == map.len());
            self.touched[which] += 1;
        }
        *self.powers.entry(power_of(screen)).or_default() += 1;
        self.cut += u64::from(cut_both_ways(screen));
        self.largest[0] += u64::from(map.len() == 4096);
        self.largest[1] += u64::from(touched > 2048);
        self.longer += u64::from(case.spare > 0);
        self.addresses[address % 8] += 1;
        if look {
            let [alone, filled] = [by_quarters_alone(screen, &case.shape), by_quarters(screen, &case.shape)];
            self.looked_at += 1;
            self.filled += u64::from(filled.tests < alone.tests);
        }
    }
}

#[test]
fn maps_are_the_model_s_and_the_tiles_of_a_bin() {
    let (mut reached, mut cases) = (Reached::default(), 0);
    hold(0xF100_000C, 500_000, |Made(case): &Made, seen| {
        cases += 1;
        reached.add(case, &seen, cases % 10 == 0);
    });
    println!("{reached:?}");
    let Reached { numbers, causes, done, touched, powers, cut, .. } = reached;
    for (number, maps) in [(number::DONE, 300_000), (number::SCREEN, 20_000), (number::OUT_OF_RANGE, 20_000)] {
        assert!(numbers[&number] > maps, "{number} should be returned often");
    }
    assert!(numbers[&number::BUFFER] > 20_000 && numbers.len() == 4, "11 too, and no other");
    // a screen outside the rules has no tiles for which bytes could be enough
    assert_eq!(causes.len(), 5);
    assert!(causes.values().all(|&maps| maps > 2000), "each cause alone, and with those after it");
    assert!(done.len() == 12 && done.values().all(|&maps| maps > 5000), "points, lines and triangles on each s");
    assert!(touched.iter().all(|&maps| maps > 20_000), "no tile, some and all");
    assert!((0..=9).all(|power| powers[&power] > 100), "squares of each side");
    assert!(cut > 80_000, "screens that are cut on both axes should be common");
    let Reached { largest, longer, addresses, looked_at, filled, .. } = reached;
    assert!(largest.iter().all(|&maps| maps > 20) && longer > 80_000, "some should be largest, and many longer");
    assert!(addresses.iter().all(|&maps| maps > 10_000), "at each address");
    assert!(10 * filled > looked_at, "squares should often be wholly covered");
}

/// Every shape with so many of these vertices, in one order, since a map is made in all.
fn shapes_of(vertices: &[Vertex], count: usize) -> Vec<Vec<Vertex>> {
    if count == 0 {
        return vec![Vec::new()];
    }
    let from = |at: usize| shapes_of(&vertices[at..], count - 1).into_iter();
    (0..vertices.len()).flat_map(|at| from(at).map(move |rest| [&vertices[at..=at], &rest].concat())).collect()
}

/// How many shapes of one, two or three of these vertices touch so many tiles, of 7 and more together; their maps are the model's.
fn by_touched(screen: Screen, across: &[i32], down: &[i32]) -> BTreeMap<usize, u32> {
    let vertices: Vec<Vertex> = down.iter().flat_map(|&y| across.iter().map(move |&x| [x, y])).collect();
    let mut shapes = BTreeMap::new();
    for shape in (1..=3).flat_map(|count| shapes_of(&vertices, count)) {
        let case = Mapped::plain(screen, &shape);
        let Seen { map, .. } = case.run().unwrap_or_else(|wrong| panic!("{case:?}: {wrong}"));
        *shapes.entry(map.iter().filter(|&&byte| byte == 1).count().min(7)).or_insert(0) += 1;
    }
    println!("{} shapes on {screen:?}, by the tiles touched: {shapes:?}", shapes.values().sum::<u32>());
    shapes
}

/// Every point, line and triangle with its vertices at corners of tiles, on the grid and a tile off it.
#[test]
fn maps_of_every_shape_of_corners() {
    for (s, less) in [(3, [0, 0]), (4, [1, 15]), (5, [3, 2]), (6, [63, 0])] {
        let screen = screen_with([3, 2, s], less);
        let ([right, bottom], side) = (end_of(screen), screen.side() as i32);
        let across = [-side, 0, side, 2 * side, right, right + side];
        let shapes = by_touched(screen, &across, &[-side, 0, side, bottom, bottom + side]);
        assert!((0..=6).all(|tiles| shapes[&tiles] > 100));
    }
}

/// The same with coordinates at the ends of the range, a unit inside it and on the screen.
#[test]
fn maps_of_the_farthest_vertices() {
    let (low, high) = (*UNITS.start(), *UNITS.end());
    for (screen, most) in [(screen_with([2, 3, 3], [3, 1]), 6), (screen_with([64, 1, 6], [0, 63]), 7)] {
        let [right, bottom] = end_of(screen);
        let shapes = by_touched(screen, &[low, low + 1, 0, right, high], &[low, 0, bottom / 2, high - 1, high]);
        assert!([0, 1, most].iter().all(|tiles| shapes[tiles] > 100));
    }
}

/// One row of 512 tiles and one column, squares of 64 by 64, one tile, 800 by 480, and odd forms that are cut on both axes.
fn grids() -> impl Iterator<Item = Screen> {
    let cut = [
        ([512, 1, 3], [7, 7]),
        ([1, 512, 3], [1, 1]),
        ([64, 64, 4], [15, 1]),
        ([65, 63, 3], [7, 7]),
        ([63, 65, 3], [1, 7]),
        ([33, 31, 4], [9, 2]),
        ([17, 5, 6], [63, 63]),
        ([3, 7, 5], [1, 30]),
        ([127, 2, 3], [3, 5]),
        ([9, 257, 3], [7, 1]),
    ];
    let whole = [[512, 1, 3], [1, 512, 3], [64, 64, 3], [64, 64, 6], [1, 1, 3], [1, 1, 6], [50, 30, 4], [4, 4, 5]];
    let whole = whole.into_iter().map(|sizes| screen_with(sizes, [0, 0]));
    whole.chain(cut.map(|(sizes, less)| screen_with(sizes, less))).chain(cut_screens())
}

/// The archive's map of a shape is this, whatever the model says; the bytes beside it stay.
fn expect(screen: Screen, shape: &[Vertex], touched: impl Fn(u32) -> bool) {
    let case = Mapped::plain(screen, shape);
    let mut bytes = case.all();
    let answer = flourscoop::map(screen_of(screen), shape_of(shape), &mut bytes[case.lent()]);
    assert_eq!(answer, Ok(()), "{shape:?} on {screen:?}");
    let mut expected = case.all();
    for (byte, tile) in expected[case.lent()].iter_mut().zip(0..) {
        *byte = u8::from(touched(tile));
    }
    let wrong = (0..bytes.len()).find(|&at| bytes[at] != expected[at]).map(|at| (at as isize - 1, bytes[at]));
    assert_eq!(wrong, None, "a byte and what it is, {shape:?} on {screen:?}");
}

/// The points of a tile's middle and, on grids with several rows and columns, of the corner where it meets three others.
#[test]
fn maps_of_a_point_in_each_tile() {
    for screen in grids() {
        let columns = screen.columns();
        for tile in 0..screen.tiles() {
            let Rectangle { left, right, top, bottom } = screen.rectangle(tile);
            let middle = [(left + right) / 2, (top + bottom) / 2].map(|along| along as i32);
            expect(screen, &[middle], |other| other == tile);
            if tile % columns > 0 && tile >= columns {
                let meeting = [tile, tile - 1, tile - columns, tile - columns - 1];
                expect(screen, &[[left as i32, top as i32]], |other| meeting.contains(&other));
            }
        }
    }
}

/// The shape mirrored in the middle of the screen, along each of these axes.
fn mirrored(screen: Screen, shape: &[Vertex], axes: [bool; 2]) -> Vec<Vertex> {
    let end = end_of(screen);
    let mirror = |vertex: Vertex, axis: usize| if axes[axis] { end[axis] - vertex[axis] } else { vertex[axis] };
    shape.iter().map(|&vertex| [mirror(vertex, 0), mirror(vertex, 1)]).collect()
}

/// How far from the corner of the screen, which one the axes say, a tile begins.
fn begins(screen: Screen, tile: u32, axes: [bool; 2]) -> [i32; 2] {
    let (end, Rectangle { left, right, top, bottom }) = (end_of(screen), screen.rectangle(tile));
    let far = [end[0] - right as i32, end[1] - bottom as i32];
    let near = [left as i32, top as i32];
    [0, 1].map(|axis| if axes[axis] { far[axis] } else { near[axis] })
}

const AXES: [[bool; 2]; 4] = [[false, false], [true, false], [false, true], [true, true]];

/// Of the tiles, at most so many, the first and the last among them.
fn some_tiles(screen: Screen, most: u32) -> impl Iterator<Item = u32> {
    let tiles = screen.tiles();
    (0..tiles).step_by(tiles.div_ceil(most) as usize).chain([tiles - 1])
}

/// A triangle over all up to a line that falls at 45 degrees through the corner of a tile, or a unit short of it, from each corner
/// of the screen. The last tile has the one corner that is touched by the largest alone.
#[test]
fn maps_up_to_a_slanted_line() {
    const FAR: i32 = 131_000;
    for screen in grids() {
        for axes in AXES {
            let sum = |tile: u32| begins(screen, tile, axes).iter().sum::<i32>();
            for tile in some_tiles(screen, 24) {
                for up_to in [sum(tile), sum(tile) - 1] {
                    let shape = [[-FAR, -FAR], [up_to + FAR, -FAR], [-FAR, up_to + FAR]];
                    expect(screen, &mirrored(screen, &shape, axes), |other| sum(other) <= up_to);
                }
            }
        }
    }
}

/// Triangles over the first rows and columns, and the last ones, each up to where the next begins and a unit short of it.
#[test]
fn maps_of_rows_and_columns() {
    for screen in grids() {
        for (axes, axis) in [([false, false], 0), ([false, false], 1), ([true, false], 0), ([false, true], 1)] {
            let begin = |tile: u32| begins(screen, tile, axes)[axis];
            for tile in some_tiles(screen, 24) {
                for up_to in [begin(tile), begin(tile) - 1] {
                    let down = [[-150_000, up_to], [190_000, up_to], [0, -150_000]];
                    let shape = if axis == 1 { down } else { down.map(|[x, y]| [y, x]) };
                    expect(screen, &mirrored(screen, &shape, axes), |other| begin(other) <= up_to);
                }
            }
        }
    }
}

/// A triangle over all, and shapes a unit off each end of the screen, of which the lines and triangles reach along all of it.
#[test]
fn maps_of_all_tiles_and_of_none() {
    let full = full_screens().into_iter().flat_map(|sizes| {
        let less = (1 << sizes[2]) - 1;
        [screen_with(sizes, [0, 0]), screen_with(sizes, [less, less])]
    });
    for screen in grids().chain(full) {
        expect(screen, &COVERING, |_| true);
        for (axes, axis) in AXES.into_iter().flat_map(|axes| [(axes, 0), (axes, 1)]) {
            let off = [[-1, 0], [-1, 65_536], [-100_000, 9]].map(|[x, y]| if axis == 0 { [x, y] } else { [y, x] });
            for vertices in 1..=3 {
                expect(screen, &mirrored(screen, &off[..vertices], axes), |_| false);
            }
            let on =
                off.map(|vertex| [0, 1].map(|along| if along == axis { vertex[along] + 1 } else { vertex[along] }));
            expect(screen, &mirrored(screen, &on[..2], axes), |tile| begins(screen, tile, axes)[axis] == 0);
        }
    }
}

/// Bytes of each length up to some more than the tiles, at each address and with anything in them: a map takes as many as there are
/// tiles, and leaves those past them.
#[test]
fn a_map_has_as_many_bytes_as_tiles_or_more() {
    let small = [screen_with([1, 1, 3], [0, 0]), screen_with([4, 2, 4], [0, 0]), screen_with([3, 3, 5], [1, 31])];
    let full = [screen_with([512, 8, 3], [0, 0]), screen_with([64, 64, 6], [63, 63])];
    let large = [screen_with([512, 1, 3], [0, 0]), screen_with([50, 30, 4], [0, 0])].into_iter().chain(full);
    let by_length = small.into_iter().flat_map(|screen| {
        let tiles = screen.tiles() as i32;
        (-tiles..=20).map(move |spare| (screen, spare))
    });
    let lengths =
        by_length.chain(large.flat_map(|screen| [i32::MIN, -2, -1, 0, 1, 2, 999].map(|spare| (screen, spare))));
    for (screen, spare) in lengths {
        let number = if spare < 0 { number::BUFFER } else { number::DONE };
        for shape in [&COVERING[..], &[[5, 5], [9, 9]], &[[-1, -1]]] {
            for (before, filling) in
                [[0, 0], [1, 0], [255, 0], [2, 0], [0x80, 0], [0xA5, 3], [0, 1], [254, 255]].into_iter().enumerate()
            {
                let case = Mapped { screen, shape: shape.to_vec(), spare, before, filling };
                assert_eq!(case.run().map(|seen| seen.number), Ok(number), "{case:?}");
            }
        }
    }
}

/// Screens that break each rule; some would be within the rules if a number were cut to fewer bits.
const BAD_SCREENS: [[u32; 3]; 18] = [
    [0, 32, 4],
    [32, 0, 4],
    [4097, 8, 3],
    [8, 4097, 3],
    [64, 32, 2],
    [64, 32, 7],
    [64, 32, 0],
    [64, 32, 4 + 32],
    [64, 32, 4 + 256],
    [64 + 65_536, 32, 4],
    [64, 32 + 65_536, 4],
    [513, 4096, 3],
    [1025, 1024, 4],
    [4096, 65, 3],
    [272, 3856, 4],
    [4096, 4096, 5],
    [1 << 31, 1 << 31, 6],
    [u32::MAX, u32::MAX, u32::MAX],
];

/// Each coordinate of each kind of shape out of range, each screen that breaks a rule, and too few bytes, alone and together: 1 comes
/// before 7, and 7 before 11, and no byte is written.
#[test]
fn a_map_is_refused_in_order() {
    let good = screen_with([4, 2, 4], [3, 5]);
    let bad = BAD_SCREENS.map(|[width, height, s]| Screen { width, height, s });
    let (low, high) = (*UNITS.start(), *UNITS.end());
    let mut refused = BTreeMap::new();
    for (vertices, screen) in
        (1..=3).flat_map(|vertices| bad.iter().chain([&good]).map(move |&screen| (vertices, screen)))
    {
        let inside = vec![[300, 200]; vertices];
        let with = |coordinate: usize, unit: i32| {
            let mut shape = inside.clone();
            shape[coordinate / 2][coordinate % 2] = unit;
            shape
        };
        let each = |units: [i32; 6]| (0..2 * vertices).flat_map(move |coordinate| units.map(|unit| (coordinate, unit)));
        let far = each([low - 1, high + 1, i32::MIN, i32::MAX, low - 65_536, 1 << 20]);
        let ends = each([low, high, low + 1, high - 1, 0, -1]);
        let shapes = far.map(|(at, unit)| (with(at, unit), true)).chain(ends.map(|(at, unit)| (with(at, unit), false)));
        for (shape, far) in shapes {
            for spare in [i32::MIN, -7, -1, 0, 1, 5000] {
                let number = match (screen == good, far, spare < 0) {
                    (false, ..) => number::SCREEN,
                    (true, true, _) => number::OUT_OF_RANGE,
                    (true, false, true) => number::BUFFER,
                    (true, false, false) => number::DONE,
                };
                let case = Mapped { screen, shape: shape.clone(), spare, before: 3, filling: [0xA5, 1] };
                assert_eq!(case.run().map(|seen| seen.number), Ok(number), "{case:?}");
                *refused.entry(number).or_insert(0) += 1;
            }
        }
    }
    println!("maps by their number: {refused:?}");
}
