//! A plain binner to compare with: a vector of entries for each tile, and the same corner test. It refuses nothing, and there
//! is nothing to audit. It takes shapes one by one or as a list. And the totals of a list of shapes and the map of one, by the same
//! test; and whether a shape is inside another, by the signs of its edges.

use std::ops::Range;

use flourscoop::{Entry, Overlaps, Screen, Shape, Vertex, BIN_WORDS, SHAPE_WORDS, WHOLE};

pub struct Plain {
    grid: Grid,
    pub lists: Vec<Vec<u32>>,
}

/// The tiles of a screen.
struct Grid {
    x: Axis,
    y: Axis,
}

/// An axis of the screen: a tile's full side, how many tiles there are, how many of them are whole, and where the screen
/// ends.
struct Axis {
    side: i64,
    tiles: i64,
    whole: i64,
    end: i64,
}

impl Axis {
    fn of(extent: u32, s: u32) -> Axis {
        let (tiles, whole) = (extent.div_ceil(1 << s), extent >> s);
        Axis { side: 16 << s, tiles: tiles.into(), whole: whole.into(), end: 16 * i64::from(extent) }
    }

    /// How long a tile is: a full side, or as far as the screen goes.
    fn length(&self, tile: i64) -> i64 {
        self.side.min(self.end - tile * self.side)
    }

    /// The whole tiles of a range and the one that the screen cuts, each with the length: one length in a loop is faster.
    fn by_length(&self, tiles: Range<i64>) -> [(Range<i64>, i64); 2] {
        let Range { start, end } = tiles;
        [(start..end.min(self.whole), self.side), (start.max(self.whole)..end, self.length(self.whole))]
    }

    /// The tiles that meet the box of these coordinates.
    fn meeting(&self, along: [i32; 3]) -> Range<i64> {
        let low = i64::from(along.into_iter().min().unwrap());
        let high = i64::from(along.into_iter().max().unwrap());
        if self.end < low {
            return 0..0;
        }
        (low - 1).div_euclid(self.side).max(0)..(high.div_euclid(self.side) + 1).min(self.tiles)
    }
}

/// The vertices of a shape, the last one again where it has fewer than three.
pub fn vertices<V: Copy>(shape: Shape<V>) -> [V; 3] {
    match shape {
        Shape::Point(a) => [a, a, a],
        Shape::Line(a, b) => [a, b, b],
        Shape::Triangle(a, b, c) => [a, b, c],
    }
}

/// The same of a shape as a list has it.
#[inline(always)]
fn listed_vertices([kind, x1, y1, x2, y2, x3, y3]: [i32; SHAPE_WORDS]) -> [Vertex; 3] {
    let [a, b, c] = [(x1, y1), (x2, y2), (x3, y3)].map(|(x, y)| Vertex { x, y });
    match kind {
        1 => [a, a, a],
        2 => [a, b, b],
        _ => [a, b, c],
    }
}

/// The value of the edge from a to b at (x, y), whose sign says the side.
fn edge(a: Vertex, b: Vertex, x: i64, y: i64) -> i64 {
    let (from_x, from_y) = (i64::from(a.x), i64::from(a.y));
    (x - from_x) * (i64::from(b.y) - from_y) - (y - from_y) * (i64::from(b.x) - from_x)
}

/// Whether no corner of a tile lies strictly on the outer side of an edge; none where all four corners lie so of one of the
/// edges. In line for the binner and for the totals, as it would be for either alone.
#[inline(always)]
fn cover(v: [Vertex; 3], left: i64, top: i64, wide: i64, high: i64) -> Option<bool> {
    let area = edge(v[0], v[1], i64::from(v[2].x), i64::from(v[2].y));
    let corners = [(left, top), (left + wide, top), (left, top + high), (left + wide, top + high)];
    let mut whole = area != 0;
    for (a, b) in [(v[0], v[1]), (v[1], v[2]), (v[2], v[0])] {
        let values = corners.map(|(x, y)| edge(a, b, x, y));
        let below = values.map(|value| value < 0);
        let above = values.map(|value| value > 0);
        if (area >= 0 && below == [true; 4]) || (area <= 0 && above == [true; 4]) {
            return None;
        }
        whole &= if area > 0 { below == [false; 4] } else { above == [false; 4] };
    }
    Some(whole)
}

impl Grid {
    fn of(screen: Screen) -> Grid {
        Grid { x: Axis::of(screen.width, screen.s), y: Axis::of(screen.height, screen.s) }
    }

    /// Finds each tile that a shape touches, and whether it covers that wholly; the answer is how many tiles its box meets.
    #[inline(always)]
    fn touched(&self, v: [Vertex; 3], mut found: impl FnMut(usize, bool)) -> u64 {
        let (columns, rows) = (self.x.meeting(v.map(|v| v.x)), self.y.meeting(v.map(|v| v.y)));
        let boxed = [&columns, &rows].map(|along| (along.end - along.start).max(0) as u64);
        for (columns, wide) in self.x.by_length(columns) {
            for row in rows.clone() {
                let (top, high) = (row * self.y.side, self.y.length(row));
                for column in columns.clone() {
                    if let Some(whole) = cover(v, column * self.x.side, top, wide, high) {
                        found((row * self.x.tiles + column) as usize, whole);
                    }
                }
            }
        }
        boxed[0] * boxed[1]
    }
}

impl Plain {
    pub fn open(screen: Screen) -> Plain {
        let grid = Grid::of(screen);
        Plain { lists: vec![Vec::new(); (grid.x.tiles * grid.y.tiles) as usize], grid }
    }

    pub fn bin(&mut self, id: u32, shape: Shape<Vertex>) -> usize {
        self.bin_vertices(id, vertices(shape))
    }

    /// Bins the shapes of a list with ids. A call, as the archive's is.
    #[inline(never)]
    pub fn bin_list(&mut self, list: &[i32]) {
        for words in list.chunks_exact(BIN_WORDS) {
            let [kind, x1, y1, x2, y2, x3, y3, id] = <[i32; BIN_WORDS]>::try_from(words).unwrap();
            self.bin_vertices(id as u32, listed_vertices([kind, x1, y1, x2, y2, x3, y3]));
        }
    }

    #[inline(always)]
    fn bin_vertices(&mut self, id: u32, v: [Vertex; 3]) -> usize {
        let Plain { grid, lists } = self;
        let mut listed = 0;
        grid.touched(v, |tile, whole| {
            lists[tile].push(if whole { id + WHOLE } else { id });
            listed += 1;
        });
        listed
    }

    pub fn read(&self, tile: u32, place: u32) -> Option<Entry> {
        let &entry = self.lists.get(tile as usize)?.get(place as usize)?;
        Some(Entry::of(entry))
    }

    /// Copies all lists, one after the other, and writes where each starts and where the last one ends. A call, as the archive's is.
    #[inline(never)]
    pub fn read_all(&self, starts: &mut [u32], entries: &mut [u32]) {
        let mut at = 0;
        for (start, list) in starts.iter_mut().zip(&self.lists) {
            *start = at as u32;
            entries[at..at + list.len()].copy_from_slice(list);
            at += list.len();
        }
        starts[self.lists.len()] = at as u32;
    }

    pub fn release(&mut self, tile: u32) {
        self.lists[tile as usize].clear();
    }
}

/// The totals of a list of shapes. A call, as the archive's is.
#[inline(never)]
pub fn overlaps(screen: Screen, list: &[i32]) -> Overlaps {
    let grid = Grid::of(screen);
    let (mut shapes, mut out_of_range, mut box_tiles, mut touched_tiles) = (0, 0, 0, 0);
    let mut largest: Option<(u32, u32)> = None;
    for (place, words) in (0..).zip(list.chunks_exact(SHAPE_WORDS)) {
        if words[1..].iter().any(|unit| !(-262_144..=262_143).contains(unit)) {
            out_of_range += 1;
            continue;
        }
        let v = listed_vertices(words.try_into().unwrap());
        let mut touched = 0;
        box_tiles += grid.touched(v, |_, _| touched += 1);
        shapes += 1;
        touched_tiles += u64::from(touched);
        if largest.is_none_or(|(most, _)| most < touched) {
            largest = Some((touched, place));
        }
    }
    let (largest, place) = largest.unwrap_or((0, 0));
    let difference = box_tiles - touched_tiles;
    Overlaps { shapes, out_of_range, box_tiles, touched_tiles, difference, largest, place }
}

/// The map of a shape, tile by tile through its box, in a byte for each tile. A call, as the archive's is.
#[inline(never)]
pub fn map(screen: Screen, shape: Shape<Vertex>, map: &mut [u8]) {
    map.fill(0);
    Grid::of(screen).touched(vertices(shape), |tile, _| map[tile] = 1);
}

/// The words of a list that is of one shape.
#[inline(always)]
fn one_shape(list: &[i32]) -> Option<[i32; SHAPE_WORDS]> {
    let words = <[i32; SHAPE_WORDS]>::try_from(list).ok()?;
    let unused = match words[0] {
        1 => &words[3..],
        2 => &words[5..],
        3 => &[],
        _ => return None,
    };
    unused.iter().all(|&word| word == 0).then_some(words)
}

/// Whether a point lies on no outer side of an edge or, where the shape has no area, on all of its edges and in its box.
#[inline(always)]
fn has_point(v: [Vertex; 3], point: Vertex) -> bool {
    let (x, y) = (i64::from(point.x), i64::from(point.y));
    let area = edge(v[0], v[1], i64::from(v[2].x), i64::from(v[2].y));
    let values = [(v[0], v[1]), (v[1], v[2]), (v[2], v[0])].map(|(a, b)| edge(a, b, x, y));
    let in_box =
        |along: i32, ends: [i32; 3]| ends.iter().any(|&end| end <= along) && ends.iter().any(|&end| along <= end);
    match area {
        1.. => values.iter().all(|&value| value >= 0),
        0 => values == [0; 3] && in_box(point.x, v.map(|v| v.x)) && in_box(point.y, v.map(|v| v.y)),
        _ => values.iter().all(|&value| value <= 0),
    }
}

/// Whether the shape of one list is inside that of another, or the number of the refusal. A call, as the archive's is.
#[inline(never)]
pub fn inside(first: &[i32], second: &[i32]) -> Result<bool, u32> {
    let (Some(first), Some(second)) = (one_shape(first), one_shape(second)) else {
        return Err(15);
    };
    if first[1..].iter().chain(&second[1..]).any(|unit| !(-262_144..=262_143).contains(unit)) {
        return Err(7);
    }
    let v = listed_vertices(second);
    Ok(listed_vertices(first).into_iter().all(|vertex| has_point(v, vertex)))
}

/// The unit of a coordinate, or the number of its refusal. A call, as the archive's is.
#[inline(never)]
pub fn unit(v: f32) -> Result<i32, u32> {
    if !v.is_finite() {
        return Err(6);
    }
    let scaled = (v * 16.0).round_ties_even();
    if !(-262_144.0..=262_143.0).contains(&scaled) {
        return Err(7);
    }
    Ok(scaled as i32)
}

#[cfg(test)]
mod tests {
    use super::*;
    use crate::lists::lists_in;
    use flourscoop::{bin_list_of, list_of, raw, room};

    const SCREEN: Screen = Screen { width: 60, height: 28, s: 4 };

    /// Lines around (960,448), where the last tile ends.
    fn lines() -> impl Iterator<Item = Shape<Vertex>> {
        let line = |x, y| Shape::Line(Vertex { x, y }, Vertex { x: x + 8, y: y - 8 });
        (950..970).flat_map(move |x| (440..460).map(move |y| line(x, y)))
    }

    /// A pool of so many blocks.
    fn opened(blocks: u32) -> Vec<u32> {
        let mut words = vec![0; room(SCREEN, blocks).unwrap()];
        raw::open(&mut words, SCREEN, blocks).done().unwrap();
        words
    }

    /// They, as a list between a point and a triangle, are listed as the archive lists them.
    #[test]
    fn a_list_is_binned_as_by_the_archive() {
        let (mut words, mut plain) = (opened(40), Plain::open(SCREEN));
        let [low, right, far] = [[-9, -9], [2000, -9], [-9, 700]].map(|[x, y]| Vertex { x, y });
        let shapes = [Shape::Point(right), Shape::Point(Vertex { x: 256, y: 256 })].into_iter().chain(lines());
        let list = bin_list_of((0..).zip(shapes.chain([Shape::Triangle(low, right, far)])));
        let mut answers = [1; 403];
        raw::bin_list(&mut words, &list, &mut answers).done().unwrap();
        plain.bin_list(&list);
        assert_eq!(answers, [0; 403]);
        assert_eq!(lists_in(&words), plain.lists);
        // the triangle covers all tiles wholly but 6 and 7
        let entries_of = |entry: u32| plain.lists.iter().flatten().filter(|&&other| other == entry).count();
        assert_eq!([entries_of(402), entries_of(402 + WHOLE)], [2, 6]);
    }

    /// Triangles around the last tile, in both windings, are listed as the archive lists them.
    #[test]
    fn a_tile_is_wholly_covered_as_by_the_archive() {
        let (mut words, mut plain) = (opened(64), Plain::open(SCREEN));
        let vertex = |[x, y]: [i32; 2]| Vertex { x, y };
        // the last tile has its corners at 768 and 960, and at 256 and 448
        for by in -2..=2 {
            for corners in [[[768, 256], [1152, 256], [768, 640]], [[576, 448], [1152, 448], [864, 160]]] {
                let [a, b, c] = corners.map(vertex);
                let moved = Vertex { x: c.x, y: c.y + by };
                for shape in [Shape::Triangle(a, b, moved), Shape::Triangle(b, a, moved), Shape::Triangle(a, b, a)] {
                    let [tiles, ..] = raw::bin(&mut words, 1, shape).done().unwrap();
                    assert_eq!(plain.bin(1, shape), tiles as usize, "{shape:?}");
                }
            }
        }
        assert_eq!(lists_in(&words), plain.lists);
        let whole = plain.lists[7].iter().filter(|&&entry| entry == 1 + WHOLE).count();
        assert_eq!((whole, plain.lists[7].len()), (12, 30));
        assert_eq!(plain.read(7, 0), raw::read(&words, 7, 0).done().ok().map(Entry::from));
    }

    /// They are listed as the archive lists them.
    #[test]
    fn a_tile_ends_where_the_screen_ends() {
        let (mut words, mut plain) = (opened(16), Plain::open(SCREEN));
        for line in lines() {
            let [tiles, ..] = raw::bin(&mut words, 1, line).done().unwrap();
            assert_eq!(plain.bin(1, line), tiles as usize, "{line:?}");
        }
        assert!((100..300).contains(&plain.lists[7].len()));
    }

    /// They, points and a triangle have the maps that the archive makes.
    #[test]
    fn a_map_is_the_archive_s() {
        let point = |x, y| Shape::Point(Vertex { x, y });
        let triangle = Shape::Triangle(Vertex { x: -9, y: -9 }, Vertex { x: 700, y: -9 }, Vertex { x: -9, y: 700 });
        let (mut tiles, mut maps) = ([0; 8], [[0; 8], [9; 8]]);
        for shape in [point(256, 256), point(-1, 0), triangle].into_iter().chain(lines()) {
            let [archive, plain] = &mut maps;
            raw::map(SCREEN, shape, archive).done().unwrap();
            map(SCREEN, shape, plain);
            assert_eq!(archive, plain, "{shape:?}");
            tiles.iter_mut().zip(plain).for_each(|(tiles, byte)| *tiles += u32::from(*byte));
        }
        assert!(tiles[..7] == [2, 2, 1, 0, 2, 2, 0] && (100..300).contains(&tiles[7]), "{tiles:?}");
    }

    /// Every pair of triangles of a few vertices, of lines and points as well since these may coincide, and lists that are refused.
    #[test]
    fn pairs_are_answered_as_by_the_archive() {
        let vertices: Vec<Vertex> = (0..9).map(|at| Vertex { x: at % 3 * 7, y: at / 3 * 7 }).collect();
        let lines = vertices.iter().flat_map(|&a| vertices.iter().map(move |&b| Shape::Line(a, b)));
        let triangles = vertices.iter().flat_map(|&a| {
            let vertices = &vertices;
            vertices.iter().flat_map(move |&b| vertices.iter().map(move |&c| Shape::Triangle(a, b, c)))
        });
        let points = vertices.iter().map(|&a| Shape::Point(a));
        let mut lists: Vec<Vec<i32>> =
            points.chain(lines).chain(triangles).map(|shape| shape.words().to_vec()).collect();
        lists.extend([vec![], vec![1; 6], vec![4, 0, 0, 0, 0, 0, 0], vec![2, 0, 0, 0, 0, 0, 1]]);
        lists.extend([vec![1, 262_144, 0, 0, 0, 0, 0], vec![3, 0, 0, 0, 0, 0, -262_145]]);
        let mut answers = [0; 4];
        for first in &lists {
            for second in &lists {
                let archive = raw::inside(first, second).done().map(|[inside]| inside == 1);
                let plain = inside(first, second);
                assert_eq!(archive.map_err(|refusal| refusal.number()), plain, "{first:?} in {second:?}");
                answers[match plain {
                    Ok(inside) => usize::from(inside),
                    Err(7) => 2,
                    Err(_) => 3,
                }] += 1;
            }
        }
        assert!(answers.iter().all(|&pairs| pairs > 3000), "{answers:?}");
    }

    /// They, with a point before and a triangle after them, and shapes out of range, are counted as the archive counts them.
    #[test]
    fn totals_are_the_archive_s() {
        let point = |x, y| Shape::Point(Vertex { x, y });
        let triangle = Shape::Triangle(Vertex { x: -9, y: -9 }, Vertex { x: 2000, y: -9 }, Vertex { x: -9, y: 700 });
        let shapes = [point(0, 262_144), point(256, 256), point(-1, 0)].into_iter().chain(lines()).chain([triangle; 2]);
        let list = list_of(shapes);
        let totals = overlaps(SCREEN, &list);
        assert_eq!(raw::overlaps(SCREEN, &list).done(), Ok(totals));
        assert_eq!((totals.out_of_range, totals.largest, totals.place), (1, 8, 403));
        assert_eq!(raw::overlaps(SCREEN, &[]).done(), Ok(overlaps(SCREEN, &[])));
    }
}
