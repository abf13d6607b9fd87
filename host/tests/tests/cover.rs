//! Tiles wholly covered and just not: triangles of known cover, by corner and as every bin lists them; shapes that never cover
//! a tile; ids with the flag and without; and every place of a list, read.

use std::collections::BTreeMap;

use flourscoop::{Entry, Pool, Refusal};
use model::cover::Cover;
use model::layout::{Layout, LAYOUTS};
use model::marked::SCREEN;
use model::number;
use model::pool::{State, MOST_BLOCKS, MOST_ENTRY, MOST_ID, WHOLE};
use model::screen::{Rectangle, Screen};
use model::Vertex;
use tests::call::{alone, ask, done, Blocks, Call, Slot};
use tests::forms::{bins, orders};
use tests::generate::{self, cut_screens};
use tests::hold::{hold, Case};
use tests::random::Random;
use tests::smaller::{self, fewer};

/// The screen of the marked cases, 60 by 28, and of the cut screens those of few tiles.
fn screens() -> Vec<Screen> {
    let cut = Screen { width: 60, height: 28, s: 4 };
    let few = cut_screens().into_iter().filter(|screen| screen.tiles() <= 4);
    [SCREEN, cut].into_iter().chain(few).collect()
}

/// A triangle at a tile, and how it covers that.
struct Known {
    name: &'static str,
    shape: [[i64; 2]; 3],
    cover: Cover,
}

/// Triangles around the rectangle with these opposite corners, most of them with the right angle at the first: the corners lie
/// on vertices, on edges or inside, or one unit keeps one or two of them out.
fn around([x, y]: [i64; 2], [to_x, to_y]: [i64; 2]) -> Vec<Known> {
    let (wide, high) = (to_x - x, to_y - y);
    let (right, down) = (wide.signum(), high.signum());
    let wholly = |name, shape| Known { name, shape, cover: Cover::Wholly };
    let partly = |name, shape| Known { name, shape, cover: Cover::Partly };
    let (far_x, far_y) = (x + 2 * wide, y + 2 * high);
    let roof = [x + wide / 2, y - high / 2];
    vec![
        wholly("a corner on a vertex, two on edges, one on the long side", [[x, y], [far_x, y], [x, far_y]]),
        partly("the vertex a unit in", [[x + right, y], [far_x, y], [x, far_y]]),
        partly("the vertex a unit down", [[x, y + down], [far_x, y], [x, far_y]]),
        wholly("the vertex a unit out", [[x - right, y], [far_x, y], [x, far_y]]),
        partly("the long side a unit short", [[x, y], [far_x - right, y], [x, far_y]]),
        partly("its other end a unit short", [[x, y], [far_x, y], [x, far_y - down]]),
        wholly("the long side a unit longer", [[x, y], [far_x + right, y], [x, far_y]]),
        wholly("a side on an edge", [[x - 5 * right, y], [x + 4 * wide, y], [x - 5 * right, y + 4 * high]]),
        partly(
            "a side a unit past an edge",
            [[x - 5 * right, y + down], [x + 4 * wide, y + down], [x - 5 * right, y + 4 * high]],
        ),
        wholly("a corner on a vertex, one on an edge", [[x, y], [x + 4 * wide, y], [x - 3 * right, y + 4 * high]]),
        partly(
            "a corner on an edge drawn on past its vertex, two on edges",
            [[x + right, y], [x + 4 * wide, y], [x - 3 * right, y + 4 * high]],
        ),
        wholly("each corner on an edge", [[x - wide, to_y], [to_x + wide, to_y], roof]),
        partly("the roof a unit lower", [[x - wide, to_y], [to_x + wide, to_y], [roof[0], roof[1] + down]]),
        partly("the roof a unit to the side", [[x - wide, to_y], [to_x + wide, to_y], [roof[0] + right, roof[1]]]),
        partly("one end a unit in", [[x - wide + right, to_y], [to_x + wide, to_y], roof]),
        partly("the base a unit higher", [[x - wide, to_y - down], [to_x + wide, to_y - down], roof]),
        wholly(
            "every corner inside",
            [[x - 9 * right, y - 9 * down], [x + 5 * wide, y - 9 * down], [x - 9 * right, y + 5 * high]],
        ),
        partly("half of the rectangle", [[x, y], [to_x, y], [x, to_y]]),
        partly("all but a corner", [[x, y], [to_x + wide, y], [x, to_y]]),
    ]
}

/// Every such triangle at each tile of these screens, from each of its corners.
fn each_known() -> impl Iterator<Item = (Screen, u32, Known)> {
    let tiles = screens().into_iter().flat_map(|screen| (0..screen.tiles()).map(move |tile| (screen, tile)));
    tiles.flat_map(|(screen, tile)| {
        let Rectangle { left, right, top, bottom } = screen.rectangle(tile);
        let ends = [([left, top], [right, bottom]), ([right, top], [left, bottom])];
        let both_ways = ends.into_iter().flat_map(|(from, to)| [(from, to), (to, from)]);
        both_ways.flat_map(|(from, to)| around(from, to)).map(move |known| (screen, tile, known))
    })
}

impl Known {
    fn vertices(&self) -> Vec<Vertex> {
        self.shape.iter().map(|vertex| vertex.map(|along| along as i32)).collect()
    }
}

#[test]
fn corner_tells_triangles_of_known_cover_in_every_order_of_their_vertices() {
    let mut covers = BTreeMap::new();
    for (screen, tile, known) in each_known() {
        for shape in orders(&known.vertices()) {
            let said = ask(screen, tile, &shape).map(|asked| asked.cover);
            assert_eq!(said, Ok(Ok(known.cover)), "{}: {shape:?} at tile {tile} of {screen:?}", known.name);
        }
        *covers.entry(known.cover).or_insert(0) += 1;
    }
    println!("{covers:?}");
    assert!([Cover::Partly, Cover::Wholly].iter().all(|cover| covers[cover] > 1000));
}

/// A pool with a block for each tile.
fn opened(layout: Layout, screen: Screen) -> Slot {
    let blocks = screen.tiles();
    let mut slot = Slot::over(vec![0; layout.room(screen, blocks)], blocks);
    assert_eq!(slot.call(&Call::Open { layout, screen, blocks: Blocks::Own }), Ok(alone(number::DONE)));
    slot
}

#[test]
fn every_bin_lists_triangles_of_known_cover_with_it() {
    for (screen, tile, known) in each_known() {
        let what = format!("{} at tile {tile} of {screen:?}", known.name);
        let whole = u32::from(known.cover == Cover::Wholly);
        for layout in LAYOUTS {
            let mut slot = opened(layout, screen);
            for (place, bin) in (0..).zip(bins(MOST_ID, &known.vertices())) {
                let binned = slot.call(&bin).unwrap_or_else(|wrong| panic!("{what}: {wrong}"));
                assert_eq!(binned[0], number::DONE, "{what}: {bin:?}");
                let read = slot.call(&Call::Read { tile, place });
                assert_eq!(read, Ok(done([MOST_ID, whole])), "{what}: {bin:?} in {layout:?}");
            }
        }
    }
}

/// Points and lines at the corners of a rectangle and along its sides and diagonals, and triangles without area there, some far
/// longer than it: they touch it and never cover it wholly.
fn flat(Rectangle { left, right, top, bottom }: Rectangle) -> Vec<Vec<Vertex>> {
    let corners = [[left, top], [right, top], [left, bottom], [right, bottom]].map(|corner| corner.map(|a| a as i32));
    let mut shapes: Vec<Vec<Vertex>> = corners.iter().map(|&corner| vec![corner]).collect();
    for one in corners {
        shapes.push(vec![one; 2]);
        shapes.push(vec![one; 3]);
        for other in corners.into_iter().filter(|&other| other != one) {
            let on = |times: i32| [0, 1].map(|axis| one[axis] + times * (other[axis] - one[axis]));
            shapes.push(vec![one, other]);
            shapes.push(vec![on(-2), on(3)]);
            shapes.extend([[on(0), on(1), on(1)], [on(0), on(1), on(2)], [on(-3), on(3), on(1)]].map(Vec::from));
        }
    }
    shapes
}

#[test]
fn a_shape_without_area_covers_no_tile_wholly() {
    for screen in screens() {
        for tile in 0..screen.tiles() {
            for shape in flat(screen.rectangle(tile)) {
                let what = format!("{shape:?} at tile {tile} of {screen:?}");
                assert_eq!(ask(screen, tile, &shape).map(|asked| asked.cover), Ok(Ok(Cover::Partly)), "{what}");
                let mut slot = opened(Layout::One, screen);
                for (place, bin) in (0..).zip(bins(7, &shape)) {
                    assert_eq!(slot.call(&bin).map(|[number, ..]| number), Ok(number::DONE), "{what}: {bin:?}");
                    assert_eq!(slot.call(&Call::Read { tile, place }), Ok(done([7, 0])), "{what}: {bin:?}");
                }
            }
        }
    }
}

/// Triangles with vertices at the ends of the range, an edge of which runs through the first corner of the screen or just past
/// it.
#[test]
fn the_farthest_vertices_do_not_blur_a_corner() {
    const FAR: i32 = 262_143;
    for screen in screens().into_iter().chain([Screen { width: 4096, height: 4096, s: 6 }]) {
        for (end, third, cover) in [
            (-FAR, FAR, Cover::Wholly),
            (-FAR - 1, FAR, Cover::Wholly),
            (-FAR + 1, FAR, Cover::Partly),
            (-FAR, -FAR - 1, Cover::Partly),
            (-FAR - 1, -FAR - 1, Cover::Apart),
        ] {
            for shape in orders(&[[-FAR, FAR], [FAR, end], [third, third]]) {
                let said = ask(screen, 0, &shape).map(|asked| asked.cover);
                assert_eq!(said, Ok(Ok(cover)), "{shape:?} on {screen:?}");
                let mirrored: Vec<Vertex> = shape.iter().map(|&[x, y]| [y, x]).collect();
                assert_eq!(ask(screen, 0, &mirrored).map(|asked| asked.cover), Ok(Ok(cover)), "{mirrored:?}");
            }
        }
    }
}

/// With the flag and without it an id has the same limit; the last entry is 33,554,431.
#[test]
fn an_id_keeps_its_limit() {
    const OVER_ALL: [Vertex; 3] = [[-262_144, -262_144], [262_143, -262_144], [0, 262_143]];
    for layout in LAYOUTS {
        for (shape, whole) in [(&[[1, 1]][..], 0), (&OVER_ALL[..], 1)] {
            let mut slot = opened(layout, SCREEN);
            let (mut place, first) = (0, layout.block_at(SCREEN, 0));
            for id in [0, 1, MOST_ID - 1, MOST_ID] {
                for bin in bins(id, shape) {
                    assert_eq!(slot.call(&bin).map(|[number, ..]| number), Ok(number::DONE), "{bin:?}");
                    assert_eq!(slot.call(&Call::Read { tile: 0, place }), Ok(done([id, whole])), "{bin:?}");
                    assert_eq!(slot.words[first + place as usize], id + whole * WHOLE, "{bin:?}");
                    place += 1;
                }
            }
            assert_eq!(slot.words[first + place as usize - 1], if whole == 1 { MOST_ENTRY } else { MOST_ID });
            for id in [MOST_ID + 1, MOST_ID + 2, MOST_ENTRY, MOST_ENTRY + 1, 1 << 31, u32::MAX] {
                let [units, pixels, list] = bins(id, shape);
                assert_eq!(slot.call(&units), Ok(alone(number::ID)), "{id}");
                assert_eq!(slot.call(&pixels), Ok(alone(number::ID)), "{id}");
                assert_eq!(slot.call(&list), Ok(alone(number::DONE)), "{id}");
                assert_eq!(slot.answers.given(), [number::ID as u8], "{id}");
            }
            assert_eq!(slot.call(&Call::Audit), Ok(alone(number::DONE)));
            assert_eq!(slot.call(&Call::Read { tile: 0, place }), Ok(alone(number::NO_PLACE)));
        }
    }
}

/// Bins in a pool that has room for most of them, of which then every place is read.
#[derive(Clone, Debug)]
struct Read {
    layout: Layout,
    screen: Screen,
    bins: Vec<Call>,
}

impl Case for Read {
    /// the entries, and those with the flag
    type Seen = [usize; 2];

    fn make(random: &Random, place: u64) -> Read {
        let (layout, screen) = (generate::layout(place), generate::screen(random, 4));
        let bin = |call: &Call| matches!(call, Call::Bin { .. } | Call::BinPixels { .. } | Call::BinList(_));
        let bins = (0..6 + random.below(60)).map(|_| Call::make(random, layout, screen)).filter(bin).collect();
        Read { layout, screen, bins }
    }

    fn smaller(&self) -> Vec<Read> {
        let with_bins = |bins| Read { bins, ..self.clone() };
        let mut all: Vec<_> = fewer(&self.bins).into_iter().map(with_bins).collect();
        all.extend(smaller::screens(self.screen).into_iter().map(|screen| Read { screen, ..self.clone() }));
        all.extend(smaller::layouts(self.layout).into_iter().map(|layout| Read { layout, ..self.clone() }));
        all.extend(smaller::each(&self.bins, Call::smaller).into_iter().map(with_bins));
        all
    }

    fn run(&self) -> Result<[usize; 2], String> {
        let &Read { layout, screen, .. } = self;
        let state = State::opened(layout, screen, MOST_BLOCKS.min(4 * screen.tiles()));
        let mut slot = Slot::over(state.words(), 0);
        for bin in &self.bins {
            slot.call(bin)?;
        }
        let state = slot.state.clone().ok_or("the pool is not sound")?;
        for (tile, held) in (0..).zip(&state.tiles) {
            for place in 0..=held.entries.len() as u32 {
                let [number, id, whole, ..] = slot.call(&Call::Read { tile, place })?;
                let by_wrapper = Pool::over(&mut slot.words).read(tile, place);
                let entry = match number {
                    number::DONE => Ok(Entry { id, whole: whole == 1 }),
                    _ => Err(Refusal::NoPlace),
                };
                if by_wrapper != entry || id > MOST_ID || whole > 1 {
                    return Err(format!("tile {tile}, place {place}: {id}, {whole}; by the wrapper {by_wrapper:?}"));
                }
            }
        }
        Ok([state.tiles.iter().map(|tile| tile.entries.len()).sum(), state.whole_entries()])
    }
}

#[test]
fn every_place_is_read_as_the_model_has_it() {
    let mut read: BTreeMap<Layout, [usize; 2]> = BTreeMap::new();
    hold(0xF100_000A, 3000, |case: &Read, [entries, whole]| {
        let read = read.entry(case.layout).or_default();
        *read = [read[0] + entries, read[1] + whole];
    });
    println!("entries, and those with the flag: {read:?}");
    assert_eq!(read.len(), LAYOUTS.len());
    assert!(read.into_values().all(|[entries, whole]| whole > 5000 && entries - whole > 20_000));
}
