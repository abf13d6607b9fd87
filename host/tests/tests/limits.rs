//! Every limit from both sides, on the archive and on the model, in each layout: 4,096 tiles, the end of the screen, 2,048
//! blocks of 32 or 64 words, chains, marks and lists read at once up to the longest, and slices as long as the room and a word less.

use flourscoop::Refusal;
use model::cover::Cover;
use model::layout::{Layout, LAYOUTS};
use model::number;
use model::pool::{State, Tile, MOST_BLOCKS};
use model::screen::Screen;
use model::Vertex;
use tests::call::{self, alone, ask, done, screen_of, Asked, Blocks, Call, Outcome, Slot};
use tests::generate::{bad_layouts, cut_screens, end_of, full_screens, screen_with};

const ONE_TILE: Screen = Screen { width: 8, height: 8, s: 3 };
/// Columns, rows and s of screens of 4,096 tiles: the widest, the highest and the squares with the least and largest tiles.
const FULL: [[u32; 3]; 4] = [[512, 8, 3], [8, 512, 3], [64, 64, 3], [64, 64, 6]];

/// Makes the call on the archive and on the model, compares every word, and expects this outcome of both.
fn expect(slot: &mut Slot, call: Call, outcome: Outcome) {
    assert_eq!(slot.call(&call), Ok(outcome), "{call:?} on {} words", slot.words.len());
}

fn open(layout: Layout, screen: Screen, blocks: u32) -> Call {
    Call::Open { layout, screen, blocks: Blocks::These(blocks) }
}

/// Each of these in every layout.
fn in_each_layout<T: Copy>(items: impl IntoIterator<Item = T>) -> impl Iterator<Item = (Layout, T)> {
    items.into_iter().flat_map(|item| LAYOUTS.map(|layout| (layout, item)))
}

/// Words that say nothing.
fn unopened(words: usize) -> Slot {
    Slot::over(vec![0xFFFF_FFFF; words], 0)
}

/// A pool as long as its room.
fn opened(layout: Layout, screen: Screen, blocks: u32) -> Slot {
    let mut slot = unopened(layout.room(screen, blocks));
    expect(&mut slot, open(layout, screen, blocks), alone(number::DONE));
    slot
}

/// Reads the list of a tile, which has so many entries, and all lists, with as many words as they take, with more and with fewer;
/// and counts tiles, blocks, free blocks and entries.
fn expect_at_once(slot: &mut Slot, tile: u32, list: u32, counts: [u32; 4]) {
    let or_refused = |count: u32| if count == 0 { done([0]) } else { alone(number::BUFFER) };
    let [.., entries] = counts;
    for spare in [0, 1, 40] {
        expect(slot, Call::ReadList { tile, spare }, done([list]));
        expect(slot, Call::ReadAll { spare: [spare, spare] }, done([entries]));
    }
    for spare in [-1, i32::MIN] {
        expect(slot, Call::ReadList { tile, spare }, or_refused(list));
        expect(slot, Call::ReadAll { spare: [0, spare] }, or_refused(entries));
        expect(slot, Call::ReadAll { spare: [spare, 40] }, alone(number::BUFFER));
    }
    expect(slot, Call::Counts, done(counts));
}

/// The bin of a point in the middle of a tile.
fn bin_at(screen: Screen, tile: u32, id: u32) -> Call {
    let rectangle = screen.rectangle(tile);
    let middle = [(rectangle.left + rectangle.right) / 2, (rectangle.top + rectangle.bottom) / 2];
    Call::Bin { id, shape: vec![middle.map(|along| along as i32)] }
}

/// The tests of a point that touches these tiles: each of them but the first, and each tile beside them in a row, which it
/// misses.
fn tests_of_point(screen: Screen, tiles: &[u32]) -> u32 {
    let columns = screen.columns();
    let missed = |tile: &u32| {
        let left = tile % columns > 0 && !tiles.contains(&(tile - 1));
        let right = tile % columns < columns - 1 && !tiles.contains(&(tile + 1));
        u32::from(left) + u32::from(right)
    };
    tiles.len() as u32 - 1 + tiles.iter().map(missed).sum::<u32>()
}

/// A triangle that touches every tile of the first so many rows, and no other; it covers all but those of the last wholly, and
/// reaches off the screen.
fn first_rows(screen: Screen, rows: u32) -> Vec<Vertex> {
    let low = (16 << screen.s) * rows as i32 - 1;
    vec![[-262_144, low], [262_143, low], [0, -262_144]]
}

/// The columns, rows and s of every screen of 4,096 tiles, and the screen: with whole tiles, and with last tiles of one
/// pixel across.
fn each_full_screen() -> impl Iterator<Item = ([u32; 3], Screen)> {
    full_screens().into_iter().flat_map(|sizes| {
        let less = (1 << sizes[2]) - 1;
        [[0, 0], [less, less]].map(|less| (sizes, screen_with(sizes, less)))
    })
}

/// The screens with one column more and with one row more, of one pixel across.
fn one_more([columns, rows, s]: [u32; 3]) -> [Screen; 2] {
    let less = (1 << s) - 1;
    [screen_with([columns + 1, rows, s], [less, 0]), screen_with([columns, rows + 1, s], [0, less])]
}

/// The cut screens, 800 by 480, and 3 by 2 tiles with a pixel more or less, or none, along each axis.
fn each_end() -> impl Iterator<Item = Screen> {
    let around = (3..=6).flat_map(|s| {
        let extents = move |tiles: u32| [(tiles << s) - 1, tiles << s, (tiles << s) + 1];
        extents(3).into_iter().flat_map(move |width| extents(2).map(|height| Screen { width, height, s }))
    });
    cut_screens().into_iter().chain([screen_with([50, 30, 4], [0, 0])]).chain(around)
}

#[test]
fn a_screen_has_4096_tiles_and_no_more() {
    assert!(FULL.iter().all(|sizes| full_screens().contains(sizes)));
    for (layout, (sizes, screen)) in in_each_layout(each_full_screen()) {
        assert_eq!(screen.tiles(), 4096);
        let mut slot = opened(layout, screen, 0);
        for larger in one_more(sizes) {
            expect(&mut slot, open(layout, larger, 0), alone(number::SCREEN));
        }
    }
    // 4,095 and 4,097 tiles
    for (layout, s) in in_each_layout(3..=4) {
        let mut slot = unopened(10 + 4 * 4097);
        for [columns, rows] in [[63, 65], [65, 63]] {
            expect(&mut slot, open(layout, screen_with([columns, rows, s], [0, 0]), 0), alone(number::DONE));
        }
        for [columns, rows] in [[17, 241], [241, 17]] {
            expect(&mut slot, open(layout, screen_with([columns, rows, s], [0, 0]), 0), alone(number::SCREEN));
        }
    }
}

#[test]
fn a_question_is_about_one_of_4096_tiles() {
    for (sizes, screen) in each_full_screen() {
        let last = screen.rectangle(4095);
        let corner = [last.left, last.top].map(|along| along as i32);
        let over_all = first_rows(screen, screen.rows() + 1);
        for (shape, cover) in [
            (vec![corner], Cover::Partly),
            (vec![[0, 0], corner], Cover::Partly),
            (vec![[0, 0], [corner[0], 0], corner], Cover::Partly),
            (over_all, Cover::Wholly),
        ] {
            let said = |screen, tile| ask(screen, tile, &shape).map(|asked| asked.cover);
            assert_eq!(said(screen, 4095), Ok(Ok(cover)), "{shape:?} on {screen:?}");
            assert_eq!(said(screen, 4096), Ok(Err(number::NO_TILE)), "{shape:?} on {screen:?}");
            for larger in one_more(sizes) {
                assert_eq!(said(larger, 0), Ok(Err(number::SCREEN)), "{shape:?} on {larger:?}");
            }
        }
    }
}

/// Asks box and corner whether a point touches each of these tiles, and bins it; it should touch them all and no other, or
/// none.
fn expect_point(slot: &mut Slot, screen: Screen, point: Vertex, tiles: &[u32], touched: bool) {
    let listed = tiles.len() as u32;
    let binned = if touched { done([listed, listed, tests_of_point(screen, tiles)]) } else { alone(number::DONE) };
    expect(slot, Call::Bin { id: 5, shape: vec![point] }, binned);
    for &tile in tiles {
        let cover = if touched { Cover::Partly } else { Cover::Apart };
        let asked = Asked { boxed: Ok(touched), cover: Ok(cover) };
        assert_eq!(ask(screen, tile, &[point]), Ok(asked), "{point:?} at tile {tile} of {screen:?}");
        expect(slot, Call::Read { tile, place: 0 }, if touched { done([5, 0]) } else { alone(number::NO_PLACE) });
        expect(slot, Call::Release { tile }, done([u32::from(touched)]));
    }
}

#[test]
fn the_last_tile_ends_where_the_screen_ends() {
    let full = each_full_screen().map(|(_, screen)| screen).chain([screen_with([64, 64, 6], [1, 1])]);
    for (layout, screen) in in_each_layout(each_end().chain(full)) {
        let [right, bottom] = end_of(screen);
        let mut slot = opened(layout, screen, 1);
        for x in right - 1..=right + 1 {
            for y in bottom - 1..=bottom + 1 {
                let on_glass = x <= right && y <= bottom;
                expect_point(&mut slot, screen, [x, y], &[screen.tiles() - 1], on_glass);
            }
        }
    }
}

#[test]
fn the_last_column_and_row_end_where_the_screen_ends() {
    for (layout, screen) in in_each_layout(each_end()) {
        let [columns, rows] = [screen.columns(), screen.rows()];
        let [right, bottom] = end_of(screen);
        let side = 16 << screen.s;
        let mut slot = opened(layout, screen, 2);
        // where two of their tiles meet, and a unit past it; the last such places and, of many, one in eight
        let meetings = |tiles: u32| (1..tiles).rev().step_by(if tiles > 64 { 8 } else { 1 });
        for past in 0..=1 {
            for column in meetings(columns) {
                let tile = (rows - 1) * columns + column;
                let point = [column as i32 * side, bottom + past];
                expect_point(&mut slot, screen, point, &[tile - 1, tile], past == 0);
            }
            for row in meetings(rows) {
                let tile = row * columns + columns - 1;
                let point = [right + past, row as i32 * side];
                expect_point(&mut slot, screen, point, &[tile - columns, tile], past == 0);
            }
        }
    }
}

#[test]
fn a_pool_has_2048_blocks_and_no_more() {
    for (layout, screen) in in_each_layout([ONE_TILE, screen_with(FULL[3], [0, 0])]) {
        let mut slot = unopened(layout.room(screen, MOST_BLOCKS + 1));
        expect(&mut slot, open(layout, screen, MOST_BLOCKS + 1), alone(number::BLOCKS));
        expect(&mut slot, open(layout, screen, u32::MAX), alone(number::BLOCKS));
        expect(&mut slot, open(layout, screen, MOST_BLOCKS), alone(number::DONE));
        expect(&mut slot, Call::Audit, alone(number::DONE));
    }
}

/// Another size is refused after the screen and before the length, as too many blocks are, and every word stays.
#[test]
fn a_block_has_32_or_64_words() {
    let screen = screen_with([4, 2, 4], [0, 0]);
    let [larger, _] = one_more(FULL[0]);
    for bad in bad_layouts() {
        for mut slot in
            LAYOUTS.map(|layout| opened(layout, screen, 2)).into_iter().chain([unopened(0), unopened(1 << 16)])
        {
            expect(&mut slot, open(bad, larger, 2), alone(number::SCREEN));
            for blocks in [0, 1, 2, MOST_BLOCKS, MOST_BLOCKS + 1, u32::MAX] {
                expect(&mut slot, open(bad, screen, blocks), alone(number::BLOCKS));
            }
        }
    }
}

#[test]
fn a_slice_is_as_long_as_the_room_or_longer() {
    let full = FULL.map(|sizes| (screen_with(sizes, [0, 0]), MOST_BLOCKS));
    let small = [(ONE_TILE, 0), (ONE_TILE, 1), (screen_with([4, 2, 4], [0, 0]), 2)];
    for (layout, (screen, blocks)) in in_each_layout(small.into_iter().chain(full)) {
        let words = layout.room(screen, blocks);
        expect(&mut unopened(0), open(layout, screen, blocks), alone(number::SHORT));
        expect(&mut unopened(words - 1), open(layout, screen, blocks), alone(number::SHORT));
        expect(&mut unopened(words + 1), open(layout, screen, blocks), alone(number::DONE));

        let mut pool = opened(layout, screen, blocks);
        let binned = done([1, 1, tests_of_point(screen, &[0])]);
        expect(&mut pool, bin_at(screen, 0, 7), if blocks == 0 { alone(number::NO_ROOM) } else { binned });
        let mut cut = Slot::over(pool.words[..words - 1].to_vec(), blocks);
        for call in Call::each_on_a_pool() {
            expect(&mut cut, call, alone(number::UNSOUND));
        }
    }
}

#[test]
fn a_shape_takes_2048_blocks_and_no_more() {
    let full = each_full_screen().filter(|(sizes, _)| FULL.contains(sizes));
    for (layout, ([columns, rows, _], screen)) in in_each_layout(full) {
        let half = |id| Call::Bin { id, shape: first_rows(screen, rows / 2) };
        expect(&mut opened(layout, screen, MOST_BLOCKS - 1), half(1), alone(number::NO_ROOM));

        let mut slot = opened(layout, screen, MOST_BLOCKS);
        expect(&mut slot, Call::Bin { id: 1, shape: first_rows(screen, rows) }, alone(number::NO_ROOM));
        expect(&mut slot, half(1), done([2048, 2048, 0]));
        expect(&mut slot, half(2), done([2048, 0, 0]));
        expect(&mut slot, bin_at(screen, 4095, 3), alone(number::NO_ROOM));
        for tile in [0, columns - 1, columns, 2047 - columns, 2048 - columns, 2047] {
            let whole = u32::from(tile < 2048 - columns);
            expect(&mut slot, Call::Read { tile, place: 0 }, done([1, whole]));
            expect(&mut slot, Call::Read { tile, place: 1 }, done([2, whole]));
            expect(&mut slot, Call::Read { tile, place: 2 }, alone(number::NO_PLACE));
        }
        for tile in [2048, 4095] {
            expect(&mut slot, Call::Read { tile, place: 0 }, alone(number::NO_PLACE));
        }
        expect(&mut slot, Call::Read { tile: 4096, place: 0 }, alone(number::NO_TILE));
        for (tile, list) in [(0, 2), (2047, 2), (2048, 0), (4095, 0)] {
            expect_at_once(&mut slot, tile, list, [4096, 2048, 0, 4096]);
        }
        expect(&mut slot, Call::ReadList { tile: 4096, spare: 9 }, alone(number::NO_TILE));
        expect(&mut slot, Call::Release { tile: 4096 }, alone(number::NO_TILE));
        expect(&mut slot, Call::Release { tile: 4095 }, done([0]));
        expect(&mut slot, Call::Release { tile: 2047 }, done([1]));
        for (tile, mark) in [(0, 2), (2047, 2), (2048, 0), (4095, 0)] {
            expect(&mut slot, Call::HighWater { tile }, done([mark]));
        }
        expect(&mut slot, Call::HighWater { tile: 4096 }, alone(number::NO_TILE));
        expect(&mut slot, bin_at(screen, 4095, 3), done([1, 1, 1]));
        expect(&mut slot, Call::Read { tile: 4095, place: 0 }, done([3, 0]));
        expect_at_once(&mut slot, 4095, 1, [4096, 2048, 0, 4095]);
    }
}

#[test]
fn pools_without_an_entry_are_read() {
    let full = FULL.map(|sizes| screen_with(sizes, [0, 0]));
    for (layout, screen) in in_each_layout([ONE_TILE, screen_with([65, 63, 3], [7, 1])].into_iter().chain(full)) {
        for blocks in [0, 1, MOST_BLOCKS] {
            let (mut slot, tiles) = (opened(layout, screen, blocks), screen.tiles());
            expect_at_once(&mut slot, tiles - 1, 0, [tiles, blocks, blocks, 0]);
            expect(&mut slot, Call::ReadList { tile: tiles, spare: 0 }, alone(number::NO_TILE));
        }
    }
}

/// Whether a place is the first or the last of its block.
fn ends_a_block(ids_of_block: u32, place: u32) -> bool {
    [0, ids_of_block - 1].contains(&(place % ids_of_block))
}

#[test]
fn chains_of_1_to_70_blocks_are_read_at_both_ends_of_each_block() {
    const CHAIN: u32 = 70;
    let screen = Screen { width: 16, ..ONE_TILE };
    let id = |tile, place| 2 * place + tile;
    for layout in LAYOUTS {
        let ids = layout.ids_of_block() as u32;
        let mut slot = opened(layout, screen, 2 * CHAIN);
        for last in 0..CHAIN * ids {
            // the blocks of the two chains alternate
            for tile in 0..2 {
                expect(&mut slot, bin_at(screen, tile, id(tile, last)), done([1, u32::from(last % ids == 0), 1]));
            }
            if !ends_a_block(ids, last) {
                continue;
            }
            for tile in 0..2 {
                for place in (0..=last).filter(|&place| ends_a_block(ids, place)) {
                    expect(&mut slot, Call::Read { tile, place }, done([id(tile, place), 0]));
                }
                expect(&mut slot, Call::Read { tile, place: last + 1 }, alone(number::NO_PLACE));
                expect(&mut slot, Call::HighWater { tile }, done([last + 1]));
                let (list, free) = (last + 1, 2 * (CHAIN - (last / ids + 1)));
                expect_at_once(&mut slot, tile, list, [2, 2 * CHAIN, free, 2 * list]);
            }
        }
        expect(&mut slot, bin_at(screen, 0, 0), alone(number::NO_ROOM));
        for tile in 0..2 {
            expect(&mut slot, Call::Release { tile }, done([CHAIN]));
            expect(&mut slot, Call::HighWater { tile }, done([CHAIN * ids]));
        }
    }
}

/// A tile is filled and released again and again; its mark is asked for after every call.
#[test]
fn a_mark_rises_only_past_itself_and_no_release_lowers_it() {
    for layout in LAYOUTS {
        let ids = layout.ids_of_block() as u32;
        let mut slot = opened(layout, ONE_TILE, 3);
        let mut mark = 0;
        for entries in [0, 3, 2, 3, 4, 0, 1, ids, ids - 1, ids + 1, ids, 3 * ids, 3 * ids - 1, 1] {
            for place in 0..entries {
                expect(&mut slot, bin_at(ONE_TILE, 0, place), done([1, u32::from(place % ids == 0), 0]));
                mark = mark.max(place + 1);
                expect(&mut slot, Call::HighWater { tile: 0 }, done([mark]));
            }
            if entries == 3 * ids {
                expect(&mut slot, bin_at(ONE_TILE, 0, entries), alone(number::NO_ROOM));
            }
            expect(&mut slot, Call::Release { tile: 0 }, done([entries.div_ceil(ids)]));
            expect(&mut slot, Call::HighWater { tile: 0 }, done([mark]));
        }
        assert_eq!(mark, 3 * ids);
        expect(&mut slot, open(layout, ONE_TILE, 3), alone(number::DONE));
        expect(&mut slot, Call::HighWater { tile: 0 }, done([0]));
    }
}

#[test]
fn the_longest_chain_has_2048_blocks() {
    for layout in LAYOUTS {
        let ids = layout.ids_of_block() as u32;
        let full = MOST_BLOCKS * ids;
        let mut state = State::opened(layout, ONE_TILE, MOST_BLOCKS);
        state.tiles[0] =
            Tile { blocks: state.free.drain(..).rev().collect(), entries: (0..full - 1).collect(), mark: full - 1 };
        let mut slot = Slot::over(state.words(), MOST_BLOCKS);
        expect(&mut slot, Call::Audit, alone(number::DONE));
        expect(&mut slot, Call::Read { tile: 0, place: full - 1 }, alone(number::NO_PLACE));
        expect(&mut slot, Call::HighWater { tile: 0 }, done([full - 1]));
        expect_at_once(&mut slot, 0, full - 1, [1, MOST_BLOCKS, 0, full - 1]);
        expect(&mut slot, bin_at(ONE_TILE, 0, full - 1), done([1, 0, 0]));
        expect(&mut slot, Call::HighWater { tile: 0 }, done([full]));
        expect_at_once(&mut slot, 0, full, [1, MOST_BLOCKS, 0, full]);
        // the ends of every fiftieth block, and of the last two
        let looked_at = |place: u32| place / ids % 50 == 0 || place / ids >= MOST_BLOCKS - 2;
        for place in (0..full).filter(|&place| ends_a_block(ids, place) && looked_at(place)) {
            expect(&mut slot, Call::Read { tile: 0, place }, done([place, 0]));
        }
        expect(&mut slot, Call::Read { tile: 0, place: full }, alone(number::NO_PLACE));
        expect(&mut slot, bin_at(ONE_TILE, 0, full), alone(number::NO_ROOM));
        expect(&mut slot, Call::Release { tile: 0 }, done([MOST_BLOCKS]));
        expect(&mut slot, bin_at(ONE_TILE, 0, 0), done([1, 1, 0]));
        expect(&mut slot, Call::HighWater { tile: 0 }, done([full]));
    }
}

/// The wrapper's room for a pool of this layout.
fn wrapper_room(layout: Layout, screen: Screen, blocks: u32) -> Result<usize, Refusal> {
    match layout {
        Layout::One => flourscoop::room(screen_of(screen), blocks),
        Layout::Two { block_words } => flourscoop::room_two(screen_of(screen), blocks, block_words),
    }
}

#[test]
fn the_wrapper_s_room_is_what_open_needs() {
    // 272 by 3,856 pixels with s = 4 are 4,097 tiles
    let extents = [0, 1, 8, 9, 63, 64, 65, 272, 1025, 3856, 4095, 4096, 4097, u32::MAX];
    let exponents = [0, 2, 3, 4, 5, 6, 7, 31, 32, u32::MAX];
    let screens = extents
        .iter()
        .flat_map(|&width| extents.iter().flat_map(move |&height| exponents.map(|s| Screen { width, height, s })));
    let pools: Vec<_> =
        screens.flat_map(|screen| [0, 1, 2047, 2048, 2049, u32::MAX].map(|blocks| (screen, blocks))).collect();
    let mut words = vec![0; 10 + 4 * 4096 + 64 * 2048];
    for layout in LAYOUTS.into_iter().chain(bad_layouts()) {
        let mut accepted = 0;
        for &(screen, blocks) in &pools {
            let case = format!("{screen:?} with {blocks} blocks in {layout:?}");
            let said = wrapper_room(layout, screen, blocks);
            let model = State::open(usize::MAX, layout, screen, blocks).map(|_| layout.room(screen, blocks));
            assert_eq!(said.map_err(Refusal::number), model, "{case}");

            let all = words.len();
            let mut open = |length: usize| call::open(&mut words[..length], layout, screen, blocks).done();
            match said {
                Ok(room) => {
                    accepted += 1;
                    assert_eq!((open(room), open(room - 1)), (Ok([]), Err(Refusal::Short)), "{case}");
                }
                Err(refusal) => assert_eq!(open(all), Err(refusal), "{case}"),
            }
        }
        assert_eq!(accepted > 500, layout.allowed(), "{accepted} of these are accepted in {layout:?}");
    }
}
