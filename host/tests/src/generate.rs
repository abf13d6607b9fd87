//! Screens, shapes and pools, most of them where an answer turns.

use model::layout::{Layout, LAYOUTS};
use model::pool::{State, Tile, MOST_ENTRY, MOST_ID, WHOLE};
use model::screen::{Rectangle, Screen};
use model::{Pixel, Vertex, UNITS};

use crate::random::Random;
use crate::square::square;

/// The screen with these columns, rows and s that has so many pixels less than whole tiles along each axis.
pub fn screen_with([columns, rows, s]: [u32; 3], less: [u32; 2]) -> Screen {
    Screen { width: (columns << s) - less[0], height: (rows << s) - less[1], s }
}

/// Where a screen ends, in units.
pub fn end_of(screen: Screen) -> Vertex {
    [screen.width, screen.height].map(|extent| 16 * extent as i32)
}

/// The columns, rows and s of every screen of 4,096 tiles.
pub fn full_screens() -> Vec<[u32; 3]> {
    (3..=6).flat_map(|s| (s..=12 - s).map(move |power| [1 << power, 4096 >> power, s])).collect()
}

/// Screens of every s that end inside their last tiles along both axes: a single pixel, 4,095 by 9 either way, and one
/// pixel more or less than whole tiles.
pub fn cut_screens() -> Vec<Screen> {
    let of = |s: u32| {
        let (more, less) = ((1 << s) + 1, (2 << s) - 1);
        let sizes = [[1, 1], [4095, 9], [9, 4095], [more, more], [more, less], [less, more], [less, less]];
        sizes.map(|[width, height]| Screen { width, height, s })
    };
    (3..=6).flat_map(of).collect()
}

/// How often the rarest of the `cut_screens` stands among these screens.
pub fn rarest_cut(screens: &[Screen]) -> usize {
    let times = |cut: Screen| screens.iter().filter(|screen| **screen == cut).count();
    cut_screens().into_iter().map(times).min().unwrap()
}

/// A screen with these columns, rows and s, which often ends inside its last tiles: with their first pixel, before their
/// last one, or anywhere.
fn ragged(random: &Random, sizes: [u32; 3]) -> Screen {
    let side = 1 << sizes[2];
    let less = || random.pick(&[0, 1, side - 1, random.below(side)]);
    screen_with(sizes, [less(), less()])
}

/// A screen within the rules, of at most so many columns and rows; one in four is among the `cut_screens`.
pub fn screen(random: &Random, most: u32) -> Screen {
    if random.once_in(4) {
        let mut cut = cut_screens();
        cut.retain(|screen| screen.columns().max(screen.rows()) <= most);
        return random.pick(&cut);
    }
    let s = random.from_to(3, 6) as u32;
    let most = most.min(4096 >> s);
    let one = 1 + random.below(most);
    let other = 1 + random.below(most.min(4096 / one));
    ragged(random, random.pick(&[[one, other, s], [other, one, s]]))
}

/// A screen of 4,096 tiles.
pub fn full_screen(random: &Random) -> Screen {
    ragged(random, random.pick(&full_screens()))
}

/// A screen that breaks a rule.
pub fn bad_screen(random: &Random) -> Screen {
    let (width, height, s) = random.pick(&[
        (0, 32, 4),
        (32, 0, 4),
        (4097, 32, 4),
        (32, 4097, 4),
        (64, 64, 2),
        (64, 64, 7),
        (4096, 4096, 5),
        (4096, 2049, 5),
        (513, 4096, 3),
        // 65 columns of 64 tiles, 9 rows of 512, and 17 columns of 241
        (1025, 1024, 4),
        (4096, 65, 3),
        (272, 3856, 4),
        (u32::MAX, u32::MAX, u32::MAX),
        (1, 1, 32),
    ]);
    Screen { width, height, s }
}

/// The layouts in turn.
pub fn layout(place: u64) -> Layout {
    LAYOUTS[(place % LAYOUTS.len() as u64) as usize]
}

/// Edition two with words per block that it cannot have.
pub fn bad_layouts() -> [Layout; 12] {
    [0, 1, 16, 31, 33, 48, 63, 65, 96, 128, 1 << 31 | 32, u32::MAX].map(|block_words| Layout::Two { block_words })
}

/// One of the `bad_layouts`.
pub fn bad_layout(random: &Random) -> Layout {
    random.pick(&bad_layouts())
}

/// A tile of the screen; those of the first and of the last column and row more often.
pub fn tile(random: &Random, screen: Screen) -> u32 {
    let along = |tiles: u32| {
        let any = random.below(tiles);
        random.pick(&[any, any, 0, tiles - 1, tiles - 1])
    };
    along(screen.rows()) * screen.columns() + along(screen.columns())
}

/// A coordinate on one of two sides of a tile, beside it, between, or up to two full tiles away.
fn near(random: &Random, low: i64, high: i64, full: i64) -> i32 {
    let (low, high, full) = (low as i32, high as i32, full as i32);
    let side = random.pick(&[low, high]);
    let between = random.from_to(low, high);
    let step = random.pick(&[-1, 1]);
    random.pick(&[side, side, side + step, between, between, side + step * random.from_to(0, 2 * full)])
}

/// A vertex in the full square of a tile, in what the screen cuts off of it or beside that.
fn cut_off(random: &Random, rectangle: Rectangle, square: Rectangle) -> Vertex {
    let from_to = |low: i64, high: i64| random.from_to(low as i32, high as i32);
    let past = |end: i64, full: i64| random.pick(&[end as i32, end as i32 + 1, from_to(end, full)]);
    let within = |low: i64, end: i64, full: i64| random.pick(&[from_to(low, end), from_to(low, full)]);
    let past_right = [past(rectangle.right, square.right), within(square.top, rectangle.bottom, square.bottom)];
    let past_bottom = [within(square.left, rectangle.right, square.right), past(rectangle.bottom, square.bottom)];
    random.pick(&[past_right, past_bottom])
}

/// A coordinate anywhere in range; its ends more often.
fn far(random: &Random) -> i32 {
    let (low, high) = (*UNITS.start(), *UNITS.end());
    let any = random.from_to(low, high);
    random.pick(&[any, any, low, high, low + 1, high - 1])
}

/// `from` plus `times` times `step`, or `from` where that is out of range.
fn along(from: Vertex, step: [i64; 2], times: i64) -> Vertex {
    let to = [0, 1].map(|axis| i32::try_from(i64::from(from[axis]) + times * step[axis]));
    match to {
        [Ok(x), Ok(y)] if UNITS.contains(&x) && UNITS.contains(&y) => [x, y],
        _ => from,
    }
}

/// A line that meets a tile in a corner or in part of a side: a vertex there, the normal of the line, which points away from
/// the tile and reaches so far along each axis, and the step along the line.
fn line_at(random: &Random, rectangle: Rectangle, reach: i32) -> (Vertex, [i64; 2], [i64; 2]) {
    let sides = [[rectangle.left, rectangle.right], [rectangle.top, rectangle.bottom]];
    let (mut corner, mut away) = ([0; 2], [0; 2]);
    for axis in 0..2 {
        let slant = random.from_to(-reach, reach);
        let [low, high] = sides[axis].map(|side| side as i32);
        away[axis] = i64::from(slant);
        corner[axis] = match slant.signum() {
            -1 => low,
            0 => random.from_to(low, high),
            _ => high,
        };
    }
    (corner, away, [away[1], -away[0]])
}

/// A shape of so many vertices that meets a tile in a corner or in part of a side: a point there, a line, or a triangle
/// of which an edge is that line and the third vertex lies on it or on the side away from the tile.
fn against(random: &Random, rectangle: Rectangle, vertices: usize) -> Vec<Vertex> {
    let reach = random.pick(&[1, 3, 40, 5000, 262_143]);
    let (corner, away, on_line) = line_at(random, rectangle, reach);
    let times = || i64::from(random.below(random.pick(&[2, 40, 5000])));
    let one = along(corner, on_line, times());
    let other = along(corner, on_line, -times());
    let beyond = |vertex: &Vertex| {
        let outwards = |axis: usize| i64::from(vertex[axis] - corner[axis]) * away[axis];
        outwards(0) + outwards(1) >= 0
    };
    let far_away = (0..8).map(|_| [far(random), far(random)]).find(beyond).unwrap_or(corner);
    let third = random.pick(&[one, along(along(corner, away, times()), on_line, times()), far_away, far_away]);
    match vertices {
        1 => vec![corner],
        2 => vec![one, other],
        _ => vec![one, other, third],
    }
}

/// A triangle of which an edge meets a tile in a corner or in part of a side, the third vertex on the side of the tile; so
/// long and so high that it most often covers the tile wholly.
fn over_edge(random: &Random, rectangle: Rectangle) -> Vec<Vertex> {
    let Rectangle { left, right, top, bottom } = rectangle;
    let reach = random.pick(&[1, 3, 40, 1000]);
    let (corner, away, on_line) = line_at(random, rectangle, reach);
    let step = away[0].abs().max(away[1].abs()).max(1);
    let times = || 1 + random.pick(&[1, 2, 4, 16]) * (right - left).max(bottom - top) / step;
    let inwards = along(corner, away, -times());
    let [one, other] = [times(), -times()].map(|times| along(corner, on_line, times));
    vec![one, other, along(inwards, on_line, random.pick(&[0, times(), -times()]))]
}

/// A triangle that covers a tile wholly, with a right angle at a corner of it or outside that, and its long side through the
/// opposite corner.
fn over_corners(random: &Random, rectangle: Rectangle) -> Vec<Vertex> {
    // along an axis the right angle and the opposite corner
    let ends = |low: i64, high: i64| {
        let (from, to) = random.pick(&[(low, high), (high, low)]);
        let outside = i64::from(random.pick(&[0, 0, 1, random.below(300)]));
        [from - (to - from).signum() * outside, to]
    };
    let ([x, to_x], [y, to_y]) = (ends(rectangle.left, rectangle.right), ends(rectangle.top, rectangle.bottom));
    // that corner parts the long side as this is to 1
    let parts = Some(random.pick(&[1, 1, 2, 4, 8, 16])).filter(|parts| (to_y - y) % parts == 0).unwrap_or(1);
    let (far_x, far_y) = (x + (to_x - x) * (parts + 1), y + (to_y - y) / parts * (parts + 1));
    [[x, y], [far_x, y], [x, far_y]].map(|vertex| vertex.map(|along| along as i32)).to_vec()
}

/// A triangle at a tile that most often covers it wholly, with some of its corners on the edges.
pub fn over(random: &Random, screen: Screen, tile: u32) -> Vec<Vertex> {
    let way = random.pick(&[over_edge, over_corners]);
    way(random, screen.rectangle(tile))
}

/// A shape in range that lies at a tile so that its answer often turns on one unit.
pub fn shape(random: &Random, screen: Screen, tile: u32) -> Vec<Vertex> {
    let (rectangle, square) = (screen.rectangle(tile), square(screen, tile));
    let along = |low, high| near(random, low, high, screen.side());
    let beside = || [along(rectangle.left, rectangle.right), along(rectangle.top, rectangle.bottom)];
    let anywhere = || [far(random), far(random)];
    let vertices = random.pick(&[1, 2, 2, 3, 3, 3]);
    let mut shape = match random.below(16) {
        0 => (0..vertices).map(|_| anywhere()).collect(),
        1 => (0..vertices).map(|_| random.pick(&[beside(), beside(), anywhere()])).collect(),
        2 | 3 => (0..vertices).map(|_| beside()).collect(),
        4 | 5 if rectangle != square => (0..vertices).map(|_| cut_off(random, rectangle, square)).collect(),
        6 | 7 if vertices == 3 => over_edge(random, rectangle),
        8 if vertices == 3 => over_corners(random, rectangle),
        _ => against(random, rectangle, vertices),
    };
    // one unit off
    if random.once_in(3) {
        let vertex = random.below(vertices as u32) as usize;
        let axis = random.below(2) as usize;
        shape[vertex][axis] = (shape[vertex][axis] + random.pick(&[-1, 1])).clamp(*UNITS.start(), *UNITS.end());
    }
    random.shuffle(&mut shape);
    shape
}

/// The shape with one coordinate out of range.
pub fn out_of_range(random: &Random, mut shape: Vec<Vertex>) -> Vec<Vertex> {
    let vertex = random.below(shape.len() as u32) as usize;
    shape[vertex][random.below(2) as usize] = random.pick(&[*UNITS.start() - 1, *UNITS.end() + 1, i32::MIN, i32::MAX]);
    shape
}

/// The pixels of a shape in units, some of them up to half a unit off, or no number at all.
pub fn pixels(random: &Random, shape: &[Vertex]) -> Vec<Pixel> {
    let strange = [f32::NAN, f32::INFINITY, f32::NEG_INFINITY, f32::MAX, -16384.0 - 0.0625, 16384.0, f32::MIN_POSITIVE];
    let pixel = |unit: i32| {
        let exact = unit as f32 / 16.0;
        let half = random.pick(&[-1.0, 1.0]) / 32.0;
        let bits = random.pick(&[exact, exact, exact, exact + half]).to_bits();
        // the next f32 on either side, where there is one
        let beside = bits.wrapping_add(random.pick(&[0, 0, 1, u32::MAX]));
        if random.once_in(40) {
            random.pick(&strange).to_bits()
        } else {
            beside
        }
    };
    shape.iter().map(|vertex| vertex.map(pixel)).collect()
}

/// An id, sometimes one of the last and, once in a while, one too many.
pub fn id(random: &Random) -> u32 {
    let any = random.below(MOST_ID + 1);
    match random.below(60) {
        0 => random.pick(&[MOST_ID + 1, u32::MAX, 0xDEAD_BEEF]),
        1 => MOST_ID,
        2 => 0,
        _ => any,
    }
}

/// An id as a list has it; once in a while one that is too high or below 0.
pub fn listed_id(random: &Random) -> i32 {
    match random.below(30) {
        0 => random.pick(&[-1, i32::MIN, i32::MAX, MOST_ID as i32 + 1]),
        _ => id(random) as i32,
    }
}

/// An entry with the flag or without; the ends of both ranges more often.
fn entry(random: &Random) -> u32 {
    random.pick(&[0, MOST_ID, WHOLE, MOST_ENTRY, random.below(MOST_ENTRY)])
}

/// A mark of a tile with so many entries, in a pool whose blocks hold so many: the entries, the most that there can be, or
/// between.
fn mark(random: &Random, entries: usize, most: usize) -> u32 {
    let (least, most) = (entries as u32, most as u32);
    random.pick(&[least, least, most, least + random.below(most - least + 1)])
}

/// The state of a sound pool in which each tile has so many entries and so many blocks are free, the blocks in any order.
pub fn filled(random: &Random, layout: Layout, screen: Screen, entries: &[usize], free: usize) -> State {
    let ids_of_block = layout.ids_of_block();
    let chain = |entries: usize| entries.div_ceil(ids_of_block);
    let blocks = entries.iter().map(|&entries| chain(entries)).sum::<usize>() + free;
    let mut state = State::opened(layout, screen, blocks as u32);
    random.shuffle(state.free.make_contiguous());
    for (tile, &entries) in state.tiles.iter_mut().zip(entries) {
        *tile = Tile {
            blocks: state.free.drain(..chain(entries)).collect(),
            entries: (0..entries).map(|_| entry(random)).collect(),
            mark: mark(random, entries, ids_of_block * blocks),
        };
    }
    state
}

/// A number of entries that needs so many blocks, most often one with which a block begins or ends.
pub fn entries(random: &Random, ids_of_block: usize, blocks: usize) -> usize {
    let any = random.below(ids_of_block as u32) as usize;
    let places_left = random.pick(&[0, 1, ids_of_block - 2, ids_of_block - 1, any]);
    (ids_of_block * blocks).saturating_sub(places_left)
}

/// The state of a sound pool, its blocks in any order: most have chains of up to three blocks, one in a hundred has longer
/// ones, and one in four thousand is as large as a pool can be.
pub fn state(random: &Random, layout: Layout) -> State {
    let (screen, blocks, long) = match random.below(4000) {
        0 => (full_screen(random), 2048, 70),
        1..=40 => (screen(random, 3), random.below(200), 70),
        _ => (screen(random, 5), random.below(random.pick(&[3, 12, 40])), 3),
    };
    state_on(random, layout, screen, blocks, long)
}

/// The state of a sound pool for this screen with so many blocks in any order, some of them in chains of up to so many.
pub fn state_on(random: &Random, layout: Layout, screen: Screen, blocks: u32, long: u32) -> State {
    let mut free = blocks as usize;
    let mut entries_of_a_tile = || {
        let chain = random.pick(&[0, 0, 1, 1, 2, 1 + random.below(long)]) as usize;
        let chain = if chain > free { 0 } else { chain };
        free -= chain;
        entries(random, layout.ids_of_block(), chain)
    };
    let entries: Vec<usize> = (0..screen.tiles()).map(|_| entries_of_a_tile()).collect();
    filled(random, layout, screen, &entries, free)
}
