//! The model gives what document 01 and requests P1, P2, P4, P5, P6, P8 and P12 list, and the frames of that.

use model::cover::{cover, Cover};
use model::frame::{counts, read_all, read_list, Frame};
use model::layout::{Layout, LAYOUTS};
use model::listed::{Drawn, Listed, DRAWN, LISTED};
use model::marked::{Cut, Marked, PoolCase, CUT, MARKED, POOL_CASES, SCREEN};
use model::number;
use model::overlaps::overlaps;
use model::pool::{Fault, State, MOST_ENTRY, POISON};
use model::screen::{Rectangle, Screen};
use model::shapes::{faults, Fault as ListFault, WORDS_OF_BIN, WORDS_OF_SHAPE};
use model::touch::{box_meets, touched};
use model::unit::{unit, TABLE};

fn check(screen: Screen, case: &Marked) {
    let tiles = |meets: &dyn Fn(Rectangle) -> bool| -> Vec<u32> {
        (0..screen.tiles()).filter(|&tile| meets(screen.rectangle(tile))).collect()
    };
    assert_eq!(touched(screen, case.shape), case.tiles, "{} on {screen:?}", case.name);
    let boxed = tiles(&|rectangle| box_meets(case.shape, rectangle));
    assert_eq!(boxed, case.boxed, "the box of {} on {screen:?}", case.name);
    let whole = tiles(&|rectangle| cover(case.shape, rectangle) == Cover::Wholly);
    assert_eq!(whole, case.whole, "{} on {screen:?}", case.name);
}

#[test]
fn marked_cases() {
    MARKED.iter().for_each(|case| check(SCREEN, case));
}

#[test]
fn a_tile_ends_where_the_screen_ends() {
    for Cut { screen, cases } in CUT {
        cases.iter().for_each(|case| check(screen, case));
    }
}

#[test]
fn the_box_of_a_negative_point_gains_no_tile() {
    assert!(!box_meets(&[[-1, 10]], SCREEN.rectangle(0)));
}

#[test]
fn lists_of_shapes() {
    for Listed { name, list, totals } in LISTED {
        assert_eq!(overlaps(SCREEN, list), totals, "{name}");
        assert_eq!(overlaps(Screen { s: 7, ..SCREEN }, list), Err(number::SCREEN), "{name}");
    }
}

#[test]
fn a_list_has_each_of_its_faults() {
    let of = |list: &[i32]| faults(list, WORDS_OF_SHAPE).collect::<Vec<_>>();
    assert_eq!(of(&[1, 5, 5, 1, 2, 3, 4]), [3, 4, 5, 6].map(|column| ListFault::Unused { kind: 1, column }));
    assert_eq!(of(&[2, 5, 5, 1, 2, 3, 4]), [5, 6].map(|column| ListFault::Unused { kind: 2, column }));
    assert_eq!(of(&[3, 5, 5, 1, 2, 3, 4]), []);
    assert_eq!(of(&[0, 0, 0, 0, 0, 0, 7, 1, 0]), [ListFault::Part(2), ListFault::Kind(0)]);
    let points = [1, 0, 0, 0, 0, 0, 0].repeat((1 << 20) + 1);
    assert_eq!(of(&points), [ListFault::Long]);
    assert_eq!(of(&points[7..]), []);
}

#[test]
fn any_id_is_without_a_fault() {
    let of = |list: &[i32]| faults(list, WORDS_OF_BIN).collect::<Vec<_>>();
    assert_eq!(of(&[1, 5, 5, 0, 0, 0, 0, i32::MIN, 2, 5, 5, 0, 0, 0, 0, -1, 3, 5, 5, 0, 0, 0, 0, i32::MAX]), []);
    assert_eq!(of(&[2, 5, 5, 1, 2, 3, 4, 9]), [5, 6].map(|column| ListFault::Unused { kind: 2, column }));
    assert_eq!(of(&[1, 5, 5, 0, 0, 0, 0]), [ListFault::Part(7)]);
    let points = [1, 0, 0, 0, 0, 0, 0, -9].repeat((1 << 20) + 1);
    assert_eq!(of(&points), [ListFault::Long]);
    assert_eq!(of(&points[8..]), []);
}

#[test]
fn lists_with_ids() {
    for layout in LAYOUTS {
        for Drawn { name, blocks, list, answers, lists } in DRAWN {
            let (opened, shapes) = (State::opened(layout, SCREEN, blocks), list.len() / WORDS_OF_BIN);
            let mut pool = opened.clone();
            if answers.is_ok() && shapes > 0 {
                assert_eq!(pool.bin_list(list, shapes - 1), Err(number::BUFFER), "{name}");
            }
            assert_eq!(pool, opened, "{name}");
            assert_eq!(pool.bin_list(list, shapes), answers.map(<[u8]>::to_vec), "{name}");
            assert_eq!(pool.tiles.iter().map(|tile| &tile.entries[..]).collect::<Vec<_>>(), lists, "{name}");
            let Frame { starts, entries } = pool.frame();
            let list = |ends: &[u32]| &entries[ends[0] as usize..ends[1] as usize];
            assert_eq!(starts.windows(2).map(list).collect::<Vec<_>>(), lists, "{name}");
        }
    }
}

#[test]
fn units_of_the_table() {
    let of = |v: f32| unit(v.to_bits());
    assert_eq!(TABLE.map(|(v, _)| of(v)), TABLE.map(|(_, answer)| answer));
    assert_eq!([f32::INFINITY, f32::NEG_INFINITY, f32::NAN].map(of), [Err(number::NOT_FINITE); 3]);
    assert_eq!([f32::MAX, f32::MIN, 1e9].map(of), [Err(number::OUT_OF_RANGE); 3]);
    assert_eq!([f32::MIN_POSITIVE, f32::from_bits(1), 1.0, -1.0].map(of), [Ok(0), Ok(0), Ok(16), Ok(-16)]);
}

#[test]
fn pool_cases() {
    for PoolCase { layout, words, header } in POOL_CASES {
        let mut pool = State::open(words, layout, SCREEN, 2).unwrap();
        let mut opened = pool.words();
        let (tile_0, [block_0, block_1]) = (header.len(), [0, 1].map(|block| layout.block_at(SCREEN, block)));
        assert_eq!((opened.len(), &opened[..tile_0]), (words, header));
        assert_eq!(opened[tile_0..block_0], [0; 32]);
        assert_eq!((opened[block_0], opened[block_1 - 1], opened[words - 1]), (POISON, 2, 0));

        assert_eq!(pool.bin(7, &[[0, 0]]), Ok([1, 1, 1]));
        let binned = pool.words();
        assert_eq!((&binned[4..6], &binned[tile_0..tile_0 + 4], binned[block_0]), (&[1, 2][..], &[1; 4][..], 7));
        assert_eq!(pool.bin(9, &[[256, 256]]), Err(number::NO_ROOM));
        assert_eq!(pool.words(), binned);
        assert_eq!(State::read(&binned), Ok(pool.clone()));
        assert_eq!(counts(&binned), Ok([8, 2, 1, 1]));
        let seven = Frame { starts: vec![0, 1, 1, 1, 1, 1, 1, 1, 1], entries: vec![7] };
        let rooms = [(9, 1), (10, 2), (9, 0), (8, 1)];
        let frames = rooms.map(|(starts_room, entries_room)| read_all(&binned, starts_room, entries_room));
        assert_eq!(frames, [Ok(seven.clone()), Ok(seven), Err(number::BUFFER), Err(number::BUFFER)]);
        let lists = [(0, 1), (0, 0), (1, 0), (8, 0)].map(|(tile, room)| read_list(&binned, tile, room));
        assert_eq!(lists, [Ok(vec![7]), Err(number::BUFFER), Ok(Vec::new()), Err(number::NO_TILE)]);
        let short = &binned[..words - 1];
        assert_eq!((counts(short), read_list(short, 8, 0)), (Err(number::UNSOUND), Err(number::UNSOUND)));
        assert_eq!(read_all(short, 0, 0), Err(number::UNSOUND));

        assert_eq!(pool.release(0), Ok(1));
        assert_eq!(pool.counts(), [8, 2, 2, 0]);
        assert_eq!([0, 1, 8].map(|tile| pool.high_water(tile)), [Ok(1), Ok(0), Err(number::NO_TILE)]);
        opened[layout.mark_at(0)] = 1;
        assert_eq!(pool.words(), opened);
    }
}

#[test]
fn a_block_holds_all_its_words_but_the_last() {
    for (layout, ids) in LAYOUTS.into_iter().zip([31, 31, 63]) {
        let mut pool = State::opened(layout, SCREEN, 3);
        for entries in 0..2 * ids + 1 {
            assert_eq!(
                pool.bin(entries, &[[0, 0]]),
                Ok([1, u32::from(entries % ids == 0), 1]),
                "{layout:?}, {entries}"
            );
        }
        assert_eq!(pool.tiles[0].blocks, [0, 1, 2]);
        assert_eq!(State::read(&pool.words()), Ok(pool));
    }
}

#[test]
fn an_entry_is_an_id_and_whether_its_tile_is_wholly_covered() {
    for layout in LAYOUTS {
        let mut pool = State::opened(layout, SCREEN, 1);
        pool.bin(7, &[[0, 0]]).unwrap();
        let with = |entry| {
            let mut words = pool.words();
            words[layout.block_at(SCREEN, 0)] = entry;
            State::read(&words).map(|pool| pool.entry_at(0, 0))
        };
        for (entry, id, whole) in
            [(0, 0, 0), (16_777_215, 16_777_215, 0), (16_777_216, 0, 1), (MOST_ENTRY, 16_777_215, 1)]
        {
            assert_eq!(with(entry), Ok(Ok([id, whole])), "{entry}");
        }
        for entry in [33_554_432, 1 << 26, 1 << 31, POISON, u32::MAX] {
            assert_eq!(with(entry), Err(Fault::Id), "{entry}");
        }
    }
}

#[test]
fn word_6_tells_the_editions_apart() {
    let with = |layout, place, value| {
        let mut words = State::opened(layout, SCREEN, 2).words();
        words[place] = value;
        State::read(&words)
    };
    assert_eq!(with(Layout::One, 6, 10), Err(Fault::Header));
    for layout in [LAYOUTS[1], LAYOUTS[2]] {
        assert_eq!(with(layout, 6, 10), Ok(State::opened(layout, SCREEN, 2)));
        for (place, value) in [(6, 8), (6, 9), (8, 0), (8, 31), (8, 48), (8, 65), (9, 1), (9, u32::MAX)] {
            assert_eq!(with(layout, place, value), Err(Fault::Header), "{layout:?}, word {place} is {value}");
        }
    }
}

#[test]
fn open_refuses_in_order() {
    let wide = Screen { width: 4096, height: 4096, s: 5 };
    for (layout, largest) in LAYOUTS.into_iter().zip([81_928, 81_930, 147_466]) {
        assert_eq!(State::open(0, layout, wide, 2049), Err(number::SCREEN));
        assert_eq!(State::open(0, layout, SCREEN, 2049), Err(number::BLOCKS));
        assert_eq!(State::open(103, layout, SCREEN, 2), Err(number::SHORT));
        let open = |words| State::open(words, layout, Screen { s: 6, ..wide }, 2048);
        assert_eq!((open(largest - 1), open(largest).is_ok()), (Err(number::SHORT), true));
    }
    for block_words in [0, 31, 33, 48, 63, 65, 128, u32::MAX] {
        let layout = Layout::Two { block_words };
        assert_eq!(State::open(0, layout, wide, 2), Err(number::SCREEN));
        assert_eq!(State::open(0, layout, SCREEN, 0), Err(number::BLOCKS));
    }
}
