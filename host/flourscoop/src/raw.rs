//! The calls as the archive has them: a number, and the values that it wrote.

use crate::{Overlaps, Pixel, Screen, Shape, Vertex};

// The declarations of include/flourscoop.h. Nothing checks them against the source of the archive but the tests.
#[rustfmt::skip]
extern "C" {
    fn flourscoop_open(pool: *mut u32, words: usize, width: u32, height: u32, s: u32, blocks: u32) -> u32;
    fn flourscoop_open_two(pool: *mut u32, words: usize, width: u32, height: u32, s: u32, blocks: u32,
        block_words: u32) -> u32;
    fn flourscoop_audit(pool: *const u32, words: usize) -> u32;
    fn flourscoop_read(pool: *const u32, words: usize, tile: u32, place: u32, id: *mut u32, whole: *mut u32) -> u32;
    fn flourscoop_read_list(pool: *const u32, words: usize, tile: u32, entries: *mut u32, room: usize,
        count: *mut u32) -> u32;
    fn flourscoop_read_all(pool: *const u32, words: usize, starts: *mut u32, starts_room: usize,
        entries: *mut u32, entries_room: usize, count: *mut u32) -> u32;
    fn flourscoop_counts(pool: *const u32, words: usize, tiles: *mut u32, blocks: *mut u32, free: *mut u32,
        entries: *mut u32) -> u32;
    fn flourscoop_high_water(pool: *const u32, words: usize, tile: u32, entries: *mut u32) -> u32;
    fn flourscoop_release(pool: *mut u32, words: usize, tile: u32, blocks: *mut u32) -> u32;

    fn flourscoop_bin_point(pool: *mut u32, words: usize, id: u32,
        x1: i32, y1: i32, tiles: *mut u32, blocks: *mut u32, tests: *mut u32) -> u32;
    fn flourscoop_bin_line(pool: *mut u32, words: usize, id: u32,
        x1: i32, y1: i32, x2: i32, y2: i32, tiles: *mut u32, blocks: *mut u32, tests: *mut u32) -> u32;
    fn flourscoop_bin_triangle(pool: *mut u32, words: usize, id: u32,
        x1: i32, y1: i32, x2: i32, y2: i32, x3: i32, y3: i32, tiles: *mut u32, blocks: *mut u32, tests: *mut u32) -> u32;

    fn flourscoop_bin_pixels_point(pool: *mut u32, words: usize, id: u32,
        x1: f32, y1: f32, tiles: *mut u32, blocks: *mut u32, tests: *mut u32) -> u32;
    fn flourscoop_bin_pixels_line(pool: *mut u32, words: usize, id: u32,
        x1: f32, y1: f32, x2: f32, y2: f32, tiles: *mut u32, blocks: *mut u32, tests: *mut u32) -> u32;
    fn flourscoop_bin_pixels_triangle(pool: *mut u32, words: usize, id: u32,
        x1: f32, y1: f32, x2: f32, y2: f32, x3: f32, y3: f32, tiles: *mut u32, blocks: *mut u32, tests: *mut u32) -> u32;

    fn flourscoop_bin_list(pool: *mut u32, words: usize, list: *const i32, list_words: usize,
        answers: *mut u8, answer_bytes: usize) -> u32;

    fn flourscoop_unit(v: f32, unit: *mut i32) -> u32;

    fn flourscoop_box_point(width: u32, height: u32, s: u32, tile: u32,
        x1: i32, y1: i32, touches: *mut u32) -> u32;
    fn flourscoop_box_line(width: u32, height: u32, s: u32, tile: u32,
        x1: i32, y1: i32, x2: i32, y2: i32, touches: *mut u32) -> u32;
    fn flourscoop_box_triangle(width: u32, height: u32, s: u32, tile: u32,
        x1: i32, y1: i32, x2: i32, y2: i32, x3: i32, y3: i32, touches: *mut u32) -> u32;

    fn flourscoop_corner_point(width: u32, height: u32, s: u32, tile: u32,
        x1: i32, y1: i32, cover: *mut u32) -> u32;
    fn flourscoop_corner_line(width: u32, height: u32, s: u32, tile: u32,
        x1: i32, y1: i32, x2: i32, y2: i32, cover: *mut u32) -> u32;
    fn flourscoop_corner_triangle(width: u32, height: u32, s: u32, tile: u32,
        x1: i32, y1: i32, x2: i32, y2: i32, x3: i32, y3: i32, cover: *mut u32) -> u32;

    fn flourscoop_map_point(width: u32, height: u32, s: u32,
        x1: i32, y1: i32, map: *mut u8, bytes: usize) -> u32;
    fn flourscoop_map_line(width: u32, height: u32, s: u32,
        x1: i32, y1: i32, x2: i32, y2: i32, map: *mut u8, bytes: usize) -> u32;
    fn flourscoop_map_triangle(width: u32, height: u32, s: u32,
        x1: i32, y1: i32, x2: i32, y2: i32, x3: i32, y3: i32, map: *mut u8, bytes: usize) -> u32;

    fn flourscoop_overlaps(list: *const i32, words: usize, width: u32, height: u32, s: u32,
        shapes: *mut u32, out_of_range: *mut u32, box_tiles: *mut u64, touched_tiles: *mut u64, difference: *mut u64,
        largest: *mut u32, place: *mut u32) -> u32;

    fn flourscoop_inside(first: *const i32, first_words: usize, second: *const i32, second_words: usize,
        inside: *mut u32) -> u32;
}

/// The number that a call returned, and what it wrote through its pointers: zeros where it refused.
#[derive(Clone, Copy, PartialEq, Eq, Debug)]
pub struct Answer<V> {
    pub number: u32,
    pub values: V,
}

/// What stands behind a pointer before the call; a value that is still this was not written.
const UNWRITTEN: u32 = 0xAAAA_AAAA;
const UNWRITTEN_TOTAL: u64 = 0xAAAA_AAAA_AAAA_AAAA;

/// The answer of a call that is handed pointers to so many values.
fn answer<const VALUES: usize>(call: impl FnOnce(&mut [u32; VALUES]) -> u32) -> Answer<[u32; VALUES]> {
    let mut values = [UNWRITTEN; VALUES];
    let number = call(&mut values);
    Answer { number, values }
}

/// Calls the point, line or triangle form: what comes before the coordinates, the shape, what comes after.
macro_rules! call {
    ($point:ident $line:ident $triangle:ident: ($($before:expr),*) $shape:ident ($($after:expr),*)) => {
        // the pointers are those of references that live through the call
        match $shape {
            Shape::Point(a) => unsafe { $point($($before,)* a.x, a.y, $($after),*) },
            Shape::Line(a, b) => unsafe { $line($($before,)* a.x, a.y, b.x, b.y, $($after),*) },
            Shape::Triangle(a, b, c) => unsafe {
                $triangle($($before,)* a.x, a.y, b.x, b.y, c.x, c.y, $($after),*)
            },
        }
    };
}

/// Opens a pool of edition one. Numbers: 0, 1, 2, 3.
pub fn open(pool: &mut [u32], screen: Screen, blocks: u32) -> Answer<[u32; 0]> {
    let Screen { width, height, s } = screen;
    answer(|_| unsafe { flourscoop_open(pool.as_mut_ptr(), pool.len(), width, height, s, blocks) })
}

/// Opens a pool of edition two. Numbers: 0, 1, 2, 3.
pub fn open_two(pool: &mut [u32], screen: Screen, blocks: u32, block_words: u32) -> Answer<[u32; 0]> {
    let Screen { width, height, s } = screen;
    answer(|_| unsafe { flourscoop_open_two(pool.as_mut_ptr(), pool.len(), width, height, s, blocks, block_words) })
}

/// Whether the pool is sound. Numbers: 0, 4.
pub fn audit(pool: &[u32]) -> Answer<[u32; 0]> {
    answer(|_| unsafe { flourscoop_audit(pool.as_ptr(), pool.len()) })
}

/// Bins a shape in units. Values: tiles listed, blocks taken, tests made. Numbers: 0, 4, 5, 7, 8.
pub fn bin(pool: &mut [u32], id: u32, shape: Shape<Vertex>) -> Answer<[u32; 3]> {
    answer(|[tiles, blocks, tests]| {
        call!(flourscoop_bin_point flourscoop_bin_line flourscoop_bin_triangle:
            (pool.as_mut_ptr(), pool.len(), id) shape (tiles, blocks, tests))
    })
}

/// Bins a shape in pixels. Values: tiles listed, blocks taken, tests made. Numbers: 0, 4, 5, 6, 7, 8.
pub fn bin_pixels(pool: &mut [u32], id: u32, shape: Shape<Pixel>) -> Answer<[u32; 3]> {
    answer(|[tiles, blocks, tests]| {
        call!(flourscoop_bin_pixels_point flourscoop_bin_pixels_line flourscoop_bin_pixels_triangle:
            (pool.as_mut_ptr(), pool.len(), id) shape (tiles, blocks, tests))
    })
}

/// Bins the shapes of a list, and writes the number of each to the answers. Numbers: 0, 4, 11, 15.
pub fn bin_list(pool: &mut [u32], list: &[i32], answers: &mut [u8]) -> Answer<[u32; 0]> {
    let bytes = answers.len();
    answer(|_| unsafe {
        flourscoop_bin_list(pool.as_mut_ptr(), pool.len(), list.as_ptr(), list.len(), answers.as_mut_ptr(), bytes)
    })
}

/// Reads the entry at a place of a tile's list. Values: the id; 1 where it has the flag, else 0. Numbers: 0, 4, 9, 10.
pub fn read(pool: &[u32], tile: u32, place: u32) -> Answer<[u32; 2]> {
    answer(|[id, whole]| unsafe { flourscoop_read(pool.as_ptr(), pool.len(), tile, place, id, whole) })
}

/// Writes the entries of a tile's list. Value: how many they are. Numbers: 0, 4, 9, 11.
pub fn read_list(pool: &[u32], tile: u32, entries: &mut [u32]) -> Answer<[u32; 1]> {
    let room = entries.len();
    answer(|[count]| unsafe {
        flourscoop_read_list(pool.as_ptr(), pool.len(), tile, entries.as_mut_ptr(), room, count)
    })
}

/// Writes the entries of all lists, and where each list starts. Value: how many entries they are. Numbers: 0, 4, 11.
pub fn read_all(pool: &[u32], starts: &mut [u32], entries: &mut [u32]) -> Answer<[u32; 1]> {
    let (words, starts_room, entries_room) = (pool.len(), starts.len(), entries.len());
    let (pool, starts, entries) = (pool.as_ptr(), starts.as_mut_ptr(), entries.as_mut_ptr());
    answer(|[count]| unsafe { flourscoop_read_all(pool, words, starts, starts_room, entries, entries_room, count) })
}

/// Counts what a pool has. Values: tiles, blocks, free blocks, entries of all lists. Numbers: 0, 4.
pub fn counts(pool: &[u32]) -> Answer<[u32; 4]> {
    answer(|[tiles, blocks, free, entries]| unsafe {
        flourscoop_counts(pool.as_ptr(), pool.len(), tiles, blocks, free, entries)
    })
}

/// The most entries that a tile's list had since the opening. Value: that number. Numbers: 0, 4, 9.
pub fn high_water(pool: &[u32], tile: u32) -> Answer<[u32; 1]> {
    answer(|[entries]| unsafe { flourscoop_high_water(pool.as_ptr(), pool.len(), tile, entries) })
}

/// Empties a tile's list. Value: the blocks given back. Numbers: 0, 4, 9.
pub fn release(pool: &mut [u32], tile: u32) -> Answer<[u32; 1]> {
    answer(|[blocks]| unsafe { flourscoop_release(pool.as_mut_ptr(), pool.len(), tile, blocks) })
}

/// The unit of a coordinate in pixels. Value: the unit, as the word that holds the i32. Numbers: 0, 6, 7.
pub fn unit(v: f32) -> Answer<[u32; 1]> {
    answer(|[unit]| unsafe { flourscoop_unit(v, std::ptr::from_mut(unit).cast()) })
}

/// Whether a tile meets a shape's bounding box. Value: 1 for yes, 0 for no. Numbers: 0, 1, 7, 9.
pub fn box_touches(screen: Screen, tile: u32, shape: Shape<Vertex>) -> Answer<[u32; 1]> {
    let Screen { width, height, s } = screen;
    answer(|[touches]| {
        call!(flourscoop_box_point flourscoop_box_line flourscoop_box_triangle:
            (width, height, s, tile) shape (touches))
    })
}

/// How a shape covers a tile. Value: 0 for apart, 1 for partly, 2 for wholly. Numbers: 0, 1, 7, 9.
pub fn corner_cover(screen: Screen, tile: u32, shape: Shape<Vertex>) -> Answer<[u32; 1]> {
    let Screen { width, height, s } = screen;
    answer(|[cover]| {
        call!(flourscoop_corner_point flourscoop_corner_line flourscoop_corner_triangle:
            (width, height, s, tile) shape (cover))
    })
}

/// Writes the map of a shape. Numbers: 0, 1, 7, 11.
pub fn map(screen: Screen, shape: Shape<Vertex>, map: &mut [u8]) -> Answer<[u32; 0]> {
    let Screen { width, height, s } = screen;
    answer(|_| {
        call!(flourscoop_map_point flourscoop_map_line flourscoop_map_triangle:
            (width, height, s) shape (map.as_mut_ptr(), map.len()))
    })
}

/// The totals of a list of shapes. Numbers: 0, 1, 15.
pub fn overlaps(screen: Screen, list: &[i32]) -> Answer<Overlaps> {
    let Screen { width, height, s } = screen;
    let mut values = Overlaps {
        shapes: UNWRITTEN,
        out_of_range: UNWRITTEN,
        box_tiles: UNWRITTEN_TOTAL,
        touched_tiles: UNWRITTEN_TOTAL,
        difference: UNWRITTEN_TOTAL,
        largest: UNWRITTEN,
        place: UNWRITTEN,
    };
    let Overlaps { shapes, out_of_range, box_tiles, touched_tiles, difference, largest, place } = &mut values;
    // the pointers are those of references that live through the call
    #[rustfmt::skip]
    let number = unsafe {
        flourscoop_overlaps(list.as_ptr(), list.len(), width, height, s,
            shapes, out_of_range, box_tiles, touched_tiles, difference, largest, place)
    };
    Answer { number, values }
}

/// Whether the shape of one list is inside that of another. Value: 1 for yes, 0 for no. Numbers: 0, 7, 15.
pub fn inside(first: &[i32], second: &[i32]) -> Answer<[u32; 1]> {
    answer(|[inside]| unsafe { flourscoop_inside(first.as_ptr(), first.len(), second.as_ptr(), second.len(), inside) })
}
