//! What document 01 and requests P1, P2, P4, P5, P6, P8 and P12 list, by the wrapper; request P9's maps of it; and its lists read
//! at once.

use flourscoop::{
    bin_list_of, box_touches, corner_cover, list_of, map, overlaps, refused, room, room_two, unit, Binned, Counts,
    Cover, Entry, Overlaps, Pixel, Pool, Refusal, Shape, Vertex, BIN_WORDS, WHOLE,
};
use model::layout::{Layout, LAYOUTS};
use model::listed::{Drawn, Listed, DRAWN, LISTED};
use model::marked::{Cut, Marked, PoolCase, CUT, MARKED, POOL_CASES, SCREEN};
use model::pool::MOST_ID;
use model::screen::Screen;
use model::stepped::{Stepped, STEPPED};
use model::stepping::tests;
use model::unit::TABLE;
use tests::call::{self, screen_of, shape_of};
use tests::list::overlaps_of;

const fn point(x: i32, y: i32) -> Shape<Vertex> {
    Shape::Point(Vertex { x, y })
}

/// Bins a case on a screen of eight tiles, reads each list, asks both questions of each tile, and makes the map.
fn check(case_screen: Screen, case: &Marked) {
    let name = format!("{} on {case_screen:?}", case.name);
    let (screen, shape) = (screen_of(case_screen), shape_of(case.shape));
    let mut words = vec![0; room(screen, 8).unwrap()];
    let mut pool = Pool::open(&mut words, screen, 8).unwrap();
    let tiles = case.tiles.len() as u32;
    let binned = Binned { tiles, blocks: tiles, tests: tests(case_screen, case.shape) };
    assert_eq!(pool.bin(77, shape), Ok(binned), "{name}");
    for tile in 0..8 {
        let (listed, whole) = (case.tiles.contains(&tile), case.whole.contains(&tile));
        let (cover, entry) = match (listed, whole) {
            (false, _) => (Cover::Apart, Err(Refusal::NoPlace)),
            (true, false) => (Cover::Partly, Ok(Entry { id: 77, whole })),
            (true, true) => (Cover::Wholly, Ok(Entry { id: 77, whole })),
        };
        assert_eq!(pool.read(tile, 0), entry, "{name}");
        assert_eq!(corner_cover(screen, tile, shape), Ok(cover), "{name}");
        assert_eq!(box_touches(screen, tile, shape), Ok(case.boxed.contains(&tile)), "{name}");
    }
    let mut bytes = [9; 9];
    assert_eq!(map(screen, shape, &mut bytes), Ok(()), "{name}");
    assert_eq!(bytes[..8], [0, 1, 2, 3, 4, 5, 6, 7].map(|tile| u8::from(case.tiles.contains(&tile))), "{name}");
    assert_eq!(bytes[8], 9, "{name}");
}

#[test]
fn marked_cases() {
    MARKED.iter().for_each(|case| check(SCREEN, case));
}

#[test]
fn a_tile_ends_where_the_screen_ends() {
    for Cut { screen, cases } in CUT {
        cases.iter().for_each(|case| check(screen, case));
    }
}

/// A bin tells as many tests as the walk makes by hand, and none for a shape that reaches off the screen.
#[test]
fn walks_made_by_hand() {
    for Stepped { name, screen, shape, walk } in STEPPED {
        let tests = walk.map_or(0, |(_, tested)| tested.len() as u32);
        let pixel = |&[x, y]: &[i32; 2]| Pixel { x: x as f32 / 16.0, y: y as f32 / 16.0 };
        let pixels = Shape::of(&shape.iter().map(pixel).collect::<Vec<_>>()).unwrap();
        let mut words = vec![0; room(screen_of(screen), 8).unwrap()];
        let mut pool = Pool::open(&mut words, screen_of(screen), 8).unwrap();
        let binned = [pool.bin(1, shape_of(shape)), pool.bin_pixels(1, pixels)];
        assert_eq!(binned.map(|binned| binned.map(|binned| binned.tests)), [Ok(tests); 2], "{name} on {screen:?}");
    }
}

/// Counts the cases on a screen as a list.
fn check_list(screen: Screen, cases: &[Marked]) {
    let list = list_of(cases.iter().map(|case| shape_of(case.shape)));
    let sum = |tiles: fn(&Marked) -> usize| cases.iter().map(|case| tiles(case) as u64).sum::<u64>();
    let (box_tiles, touched_tiles) = (sum(|case| case.boxed.len()), sum(|case| case.tiles.len()));
    let largest = cases.iter().map(|case| case.tiles.len()).max().unwrap();
    let expected = Overlaps {
        shapes: cases.len() as u32,
        out_of_range: 0,
        box_tiles,
        touched_tiles,
        difference: box_tiles - touched_tiles,
        largest: largest as u32,
        place: cases.iter().position(|case| case.tiles.len() == largest).unwrap() as u32,
    };
    assert_eq!(overlaps(screen_of(screen), &list), Ok(expected), "{screen:?}");
}

#[test]
fn the_cases_as_lists_of_shapes() {
    check_list(SCREEN, &MARKED);
    CUT.iter().for_each(|Cut { screen, cases }| check_list(*screen, cases));
}

#[test]
fn lists_of_shapes() {
    let screen = screen_of(SCREEN);
    for Listed { name, list, totals } in LISTED {
        assert_eq!(overlaps(screen, list).map_err(Refusal::number), totals.map(overlaps_of), "{name}");
        assert_eq!(overlaps(flourscoop::Screen { s: 7, ..screen }, list), Err(Refusal::Screen), "{name}");
    }
}

/// The words of a pool for the screen of the marked cases, opened.
fn opened(layout: Layout, blocks: u32) -> Vec<u32> {
    let mut words = vec![0; layout.room(SCREEN, blocks)];
    call::open(&mut words, layout, SCREEN, blocks).done().unwrap();
    words
}

/// The entry words of each tile of the screen of the marked cases, as they are read: entry by entry, list by list, and all at
/// once.
fn lists(pool: &Pool) -> Vec<Vec<u32>> {
    let (mut starts, mut entries) = (vec![0; 9], vec![0; pool.counts().unwrap().entries as usize]);
    let frame = pool.read_all(&mut starts, &mut entries).unwrap();
    let list = |tile| {
        let list: Vec<u32> = (0..).map_while(|place| pool.read(tile, place).ok()).map(Entry::word).collect();
        let mut entries = vec![0; list.len()];
        assert_eq!(pool.read_list(tile, &mut entries).map(|entries| entries.words()), Ok(&list[..]));
        assert_eq!(frame.tile(tile).map(|entries| entries.words()), Some(&list[..]));
        list
    };
    (0..SCREEN.tiles()).map(list).collect()
}

/// What the counts, all lists and the list of tile 0 of a pool for that screen are, read with words to spare: the starts, the
/// entries, and those words.
fn read_at_once(pool: &Pool) -> (Counts, [Vec<u32>; 2], Vec<u32>) {
    let (mut starts, mut entries, mut alone) = (vec![0xAA; 11], vec![0xAA; 3], vec![0xAA; 3]);
    let frame = pool.read_all(&mut starts, &mut entries).unwrap();
    assert_eq!(frame.tiles(), 8);
    pool.read_list(0, &mut alone).unwrap();
    (pool.counts().unwrap(), [starts, entries], alone)
}

#[test]
fn lists_with_ids() {
    for layout in LAYOUTS {
        for Drawn { name, blocks, list, answers, lists: listed } in DRAWN {
            let mut words = opened(layout, blocks);
            let mut pool = Pool::over(&mut words);
            let mut bytes = vec![0xAA; list.len() / BIN_WORDS + 2];
            assert_eq!(pool.bin_list(list, &mut bytes).map_err(Refusal::number), answers.map(|_| ()), "{name}");
            let answers = answers.unwrap_or(&[]);
            assert_eq!(bytes[..answers.len()], *answers, "{name}");
            assert!(bytes[answers.len()..].iter().all(|&byte| byte == 0xAA), "{name}");
            assert_eq!(lists(&pool), listed, "{name}");
        }
    }
}

/// The marked cases as one list are in the tiles that the table has for each, in rising id, and cover those that it has.
#[test]
fn the_cases_as_a_list_with_ids() {
    let list = bin_list_of((0..).zip(MARKED.iter().map(|case| shape_of(case.shape))));
    let in_tile = |tile: u32| (0..).zip(&MARKED).filter(move |(_, case)| case.tiles.contains(&tile));
    let entry = |tile: u32, id: u32, case: &Marked| if case.whole.contains(&tile) { id + WHOLE } else { id };
    let entries = |tile: u32| in_tile(tile).map(|(id, case)| entry(tile, id, case)).collect();
    let listed: Vec<Vec<u32>> = (0..8).map(entries).collect();
    for layout in LAYOUTS {
        let mut words = opened(layout, 8);
        let mut pool = Pool::over(&mut words);
        let mut answers = [0xAA; MARKED.len()];
        assert_eq!(pool.bin_list(&list, &mut answers), Ok(()));
        assert_eq!((answers, lists(&pool)), ([0; MARKED.len()], listed.clone()));
    }
}

/// Every id, in a list or by itself, gets the same answer.
#[test]
fn an_id_goes_to_a_list_as_it_goes_to_a_bin() {
    let ids = [0, 1, MOST_ID, MOST_ID + 1, 1 << 31, (1 << 31) - 1, 0xDEAD_BEEF, u32::MAX];
    let list = bin_list_of(ids.map(|id| (id, point(0, 0))));
    let (mut words, mut single) = (opened(Layout::One, 1), opened(Layout::One, 1));
    let mut answers = [0xAA; 8];
    Pool::over(&mut words).bin_list(&list, &mut answers).unwrap();
    let alone = (0..).zip(ids).filter_map(|(place, id)| {
        let refusal = Pool::over(&mut single).bin(id, point(0, 0)).err()?;
        Some((place, refusal))
    });
    let expected = [3, 4, 5, 6, 7].map(|place| (place, Refusal::Id));
    assert_eq!(alone.collect::<Vec<_>>(), expected);
    assert_eq!(refused(&answers).collect::<Vec<_>>(), expected);
    assert_eq!(words, single);
}

#[test]
fn the_box_of_a_negative_point_gains_no_tile() {
    assert_eq!(box_touches(screen_of(SCREEN), 0, point(-1, 10)), Ok(false));
}

/// The entry of id 7 in a tile that its shape does not cover wholly.
const SEVEN: Entry = Entry { id: 7, whole: false };

#[test]
fn pool_cases() {
    let screen = screen_of(SCREEN);
    for PoolCase { layout, words, header } in POOL_CASES {
        let mut lent = vec![0; words];
        let (room, opened) = match layout {
            Layout::One => (room(screen, 2), Pool::open(&mut lent, screen, 2)),
            Layout::Two { block_words } => {
                (room_two(screen, 2, block_words), Pool::open_two(&mut lent, screen, 2, block_words))
            }
        };
        let mut pool = opened.unwrap();
        assert_eq!((room, &pool.words()[..header.len()]), (Ok(words), header));
        let opened = pool.words().to_vec();
        assert_eq!(pool.high_water(0), Ok(0));
        let empty = [vec![0, 0, 0, 0, 0, 0, 0, 0, 0, 0xAA, 0xAA], vec![0xAA; 3]];
        let counts = Counts { tiles: 8, blocks: 2, free: 2, entries: 0 };
        assert_eq!(read_at_once(&pool), (counts, empty.clone(), vec![0xAA; 3]));

        assert_eq!(pool.bin(7, point(0, 0)), Ok(Binned { tiles: 1, blocks: 1, tests: 1 }));
        assert_eq!(pool.words()[4..6], [1, 2]);
        assert_eq!(pool.words()[header.len()..][..4], [1, 1, 1, 1]);
        let binned = pool.words().to_vec();
        assert_eq!(pool.bin(9, point(256, 256)), Err(Refusal::NoRoom));
        assert_eq!(pool.words(), binned);
        assert_eq!(pool.read(0, 0), Ok(SEVEN));
        assert_eq!(pool.read(0, 1), Err(Refusal::NoPlace));
        assert_eq!(pool.read(8, 0), Err(Refusal::NoTile));
        assert_eq!([0, 1, 7, 8].map(|tile| pool.high_water(tile)), [Ok(1), Ok(0), Ok(0), Err(Refusal::NoTile)]);
        let seven = [vec![0, 1, 1, 1, 1, 1, 1, 1, 1, 0xAA, 0xAA], vec![7, 0xAA, 0xAA]];
        assert_eq!(read_at_once(&pool), (Counts { free: 1, entries: 1, ..counts }, seven.clone(), seven[1].clone()));
        assert_eq!(pool.read_list(8, &mut []).err(), Some(Refusal::NoTile));
        assert_eq!(pool.read_list(0, &mut []).err(), Some(Refusal::Buffer));
        assert_eq!(pool.read_all(&mut [0; 9], &mut []).err(), Some(Refusal::Buffer));
        assert_eq!(pool.read_all(&mut [0; 8], &mut [0]).err(), Some(Refusal::Buffer));
        assert_eq!(pool.words(), binned);

        // every word is as opened, but for the mark of tile 0
        assert_eq!(pool.release(0), Ok(1));
        let changed: Vec<usize> = (0..words).filter(|&at| pool.words()[at] != opened[at]).collect();
        assert_eq!((&changed[..], pool.words()[changed[0]]), (&[header.len() + 3][..], 1));
        assert_eq!(pool.high_water(0), Ok(1));
        assert_eq!(pool.release(0), Ok(0));
        assert_eq!(pool.high_water(0), Ok(1));
        assert_eq!(read_at_once(&pool), (counts, empty, vec![0xAA; 3]));
        assert!(pool.is_sound());
    }
}

#[test]
fn an_edition_two_pool_is_refused_while_word_6_is_8() {
    let screen = screen_of(SCREEN);
    for block_words in [32, 64] {
        let mut words = vec![0; room_two(screen, 2, block_words).unwrap()];
        Pool::open_two(&mut words, screen, 2, block_words).unwrap().bin(7, point(0, 0)).unwrap();
        let mut read_with = |word_6| {
            words[6] = word_6;
            let mut pool = Pool::over(&mut words);
            let (mut starts, mut entries) = ([0; 9], [0; 1]);
            let listed = pool.read_list(0, &mut entries).map(|entries| entries.len());
            let framed = pool.read_all(&mut starts, &mut entries).map(|frame| frame.words().len());
            let told =
                (pool.read(0, 0), listed, framed, pool.counts().map(|counts| counts.entries), pool.high_water(0));
            (pool.is_sound(), told, pool.bin(8, point(1, 1)), pool.release(1))
        };
        let refused = |refusal| {
            (false, (Err(refusal), Err(refusal), Err(refusal), Err(refusal), Err(refusal)), Err(refusal), Err(refusal))
        };
        assert_eq!(read_with(8), refused(Refusal::Unsound));
        let told = (Ok(SEVEN), Ok(1), Ok(1), Ok(1), Ok(1));
        assert_eq!(read_with(10), (true, told, Ok(Binned { tiles: 1, blocks: 0, tests: 1 }), Ok(0)));
    }
}

#[test]
fn units_of_the_table() {
    let screen = screen_of(SCREEN);
    let mut words = vec![0; room(screen, 8).unwrap()];
    Pool::open(&mut words, screen, 8).unwrap();
    let binned = |bin: &dyn Fn(&mut Pool) -> Result<Binned, Refusal>| {
        let mut words = words.clone();
        (bin(&mut Pool::over(&mut words)), words)
    };
    for (x, answer) in TABLE {
        assert_eq!(unit(x).map_err(Refusal::number), answer, "{x}");
        let pixels = Shape::Line(Pixel { x, y: 4.0 }, Pixel { x: 20.0, y: 4.0 });
        let in_pixels = binned(&|pool| pool.bin_pixels(1, pixels));
        match answer {
            Ok(x) => {
                let units = Shape::Line(Vertex { x, y: 64 }, Vertex { x: 320, y: 64 });
                assert_eq!(in_pixels, binned(&|pool| pool.bin(1, units)), "{x}");
            }
            Err(number) => assert_eq!(in_pixels.0.map_err(Refusal::number), Err(number), "{x}"),
        }
    }
    assert_eq!([f32::INFINITY, f32::NEG_INFINITY, f32::NAN].map(unit), [Err(Refusal::NotFinite); 3]);
    // x comes before y
    let refused = |x| binned(&|pool| pool.bin_pixels(1, Shape::Point(Pixel { x, y: f32::NAN }))).0;
    assert_eq!(refused(16384.0), Err(Refusal::OutOfRange));
    assert_eq!(refused(f32::INFINITY), Err(Refusal::NotFinite));
    assert_eq!(refused(0.0), Err(Refusal::NotFinite));
}
