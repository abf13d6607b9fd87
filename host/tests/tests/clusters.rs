//! Shapes inside others in the lists of a pool: whatever is called from an opening on, a tile that was not released since the earlier of
//! two bins has the outer shape where it has the inner one, with the flag where that has it; a release between them is what it takes to
//! have the inner one alone; and an outer triangle in the place of a cluster, as culling has it.

use std::collections::BTreeMap;

use flourscoop::raw;
use flourscoop::Entry;
use model::layout::{Layout, LAYOUTS};
use model::marked::SCREEN;
use model::number;
use model::pool::{State, MOST_BLOCKS, MOST_ID};
use model::screen::Screen;
use model::Vertex;
use tests::call::{alone, screen_of, shape_of, Blocks, Call, Slot};
use tests::draw::Draw;
use tests::forms::{bins, in_pixels};
use tests::generate;
use tests::hold::{hold, Case};
use tests::list::{bin_words, words_of, List};
use tests::pairs::{around, inner, is_inside};
use tests::random::Random;
use tests::smaller::{self, fewer};
use tests::told::{Form, Shown, Told};

/// A shape over a tile or at it, one or two around that, and some in these.
fn cluster(random: &Random, screen: Screen) -> Vec<Vec<Vertex>> {
    let tile = generate::tile(random, screen);
    let way = random.pick(&[generate::over, generate::over, generate::shape]);
    let mut shapes = vec![way(random, screen, tile)];
    for _ in 0..random.below(3) {
        shapes.push(around(random, &shapes[shapes.len() - 1]));
    }
    for _ in 0..1 + random.below(5) {
        let outer = &shapes[random.below(shapes.len() as u32) as usize];
        shapes.push(inner(random, outer));
    }
    random.shuffle(&mut shapes);
    shapes
}

/// The calls with the ids that bins accept numbered, so that no two bins have the same.
fn numbered(mut calls: Vec<Call>) -> Vec<Call> {
    let mut next = 0..;
    let mut number = |accepted: bool| if accepted { next.next() } else { None };
    for call in &mut calls {
        match call {
            Call::Bin { id, .. } | Call::BinPixels { id, .. } => *id = number(*id <= MOST_ID).unwrap_or(*id),
            Call::BinList(Draw { list, .. }) => {
                let each = list.shapes.iter().flat_map(|&(times, words)| std::iter::repeat_n((1, words), times));
                let mut shapes: Vec<_> = each.collect();
                for (_, words) in &mut shapes {
                    let accepted = u32::try_from(words[7]).is_ok_and(|id| id <= MOST_ID);
                    words[7] = number(accepted).map_or(words[7], |id| id as i32);
                }
                list.shapes = shapes;
            }
            _ => (),
        }
    }
    calls
}

/// The bins of some shapes: in units, in pixels, most of them exact, and several at once.
fn bins_of(random: &Random, shapes: &[Vec<Vertex>]) -> Vec<Call> {
    let (mut calls, mut rest) = (Vec::new(), shapes);
    while !rest.is_empty() {
        let (now, later) = rest.split_at(random.pick(&[1, 1, 1, 2, 4]).min(rest.len()));
        rest = later;
        let shape = now[0].clone();
        calls.push(match random.below(5) {
            _ if now.len() > 1 => draw(now),
            0 => draw(now),
            1 | 2 => Call::Bin { id: 0, shape },
            3 => Call::BinPixels { id: 0, shape: in_pixels(&shape) },
            _ => Call::BinPixels { id: 0, shape: generate::pixels(random, &shape) },
        });
    }
    calls
}

/// A draw call of some shapes.
fn draw(shapes: &[Vec<Vertex>]) -> Call {
    let words = shapes.iter().map(|shape| (1, bin_words(words_of(shape), 0))).collect();
    Call::BinList(Draw { list: List { shapes: words, rest: Vec::new() }, spare: 0 })
}

/// Calls on a pool from its opening on.
#[derive(Clone, Debug)]
struct History {
    layout: Layout,
    screen: Screen,
    blocks: u32,
    calls: Vec<Call>,
}

/// What a history shows in the end.
#[derive(Default)]
struct Seen {
    /// tiles of pairs by what they show
    shown: BTreeMap<Shown, u64>,
    /// those with both shapes, by the forms of the inner bin and the outer one
    forms: BTreeMap<[Form; 2], u64>,
    /// those by the vertices of the inner shape and of the outer one
    kinds: BTreeMap<[usize; 2], u64>,
    pairs: usize,
}

impl Case for History {
    type Seen = Seen;

    fn make(random: &Random, place: u64) -> History {
        let (layout, screen) = (generate::layout(place), generate::screen(random, 4));
        let tiles = screen.tiles();
        let blocks = random.pick(&[4 * tiles, 4 * tiles, tiles, random.below(24)]).min(MOST_BLOCKS);
        let shapes: Vec<Vec<Vertex>> = (0..1 + random.below(2)).flat_map(|_| cluster(random, screen)).collect();
        let mut calls = bins_of(random, &shapes);
        let others = (0..random.below(12)).map(|_| Call::make(random, layout, screen));
        calls.extend(others.filter(|call| !matches!(call, Call::Open { .. })));
        calls.extend((0..random.below(4)).map(|_| Call::Release { tile: generate::tile(random, screen) }));
        random.shuffle(&mut calls);
        History { layout, screen, blocks, calls: numbered(calls) }
    }

    fn smaller(&self) -> Vec<History> {
        let with_calls = |calls| History { calls, ..self.clone() };
        let mut all: Vec<_> = fewer(&self.calls).into_iter().map(with_calls).collect();
        all.extend(smaller::screens(self.screen).into_iter().map(|screen| History { screen, ..self.clone() }));
        all.extend(smaller::layouts(self.layout).into_iter().map(|layout| History { layout, ..self.clone() }));
        all.extend(smaller::lower(self.blocks).into_iter().map(|blocks| History { blocks, ..self.clone() }));
        // ids stay as they are, so that no two bins have the same
        let smaller_call = |call: &Call| match call {
            Call::BinList(draw) => {
                let lists = fewer(&draw.list.shapes).into_iter().map(|shapes| List { shapes, ..draw.list.clone() });
                lists.map(|list| Call::BinList(Draw { list, ..*draw })).collect()
            }
            _ => call.smaller(),
        };
        all.extend(smaller::each(&self.calls, smaller_call).into_iter().map(with_calls));
        all
    }

    /// Makes the calls; after each of them every pair holds in every tile.
    fn run(&self) -> Result<Seen, String> {
        let mut told = Told::opened(self.layout, self.screen, self.blocks)?;
        for call in &self.calls {
            told.call(call)?;
            told.shown().map_err(|wrong| format!("after {call:?}: {wrong}"))?;
        }
        let mut seen = Seen { pairs: told.pairs.len(), ..Seen::default() };
        for (pair, tile, shown) in told.shown()? {
            *seen.shown.entry(shown).or_default() += 1;
            if let Shown::Both { inner_whole, outer_whole, .. } = shown {
                told.read(pair, tile, [inner_whole, outer_whole])?;
                *seen.forms.entry(pair.map(|place| told.bins[place].form)).or_default() += 1;
                *seen.kinds.entry(pair.map(|place| told.bins[place].shape.len())).or_default() += 1;
            }
        }
        Ok(seen)
    }
}

/// Adds counts to others.
fn add<K: Ord>(to: &mut BTreeMap<K, u64>, counts: BTreeMap<K, u64>) {
    counts.into_iter().for_each(|(what, count)| *to.entry(what).or_default() += count);
}

#[test]
fn an_outer_shape_stands_where_an_inner_one_stands() {
    let mut reached: BTreeMap<Layout, Seen> = BTreeMap::new();
    hold(0xF100_0012, 30_000, |case: &History, seen: Seen| {
        let reached = reached.entry(case.layout).or_default();
        reached.pairs += seen.pairs;
        add(&mut reached.shown, seen.shown);
        add(&mut reached.forms, seen.forms);
        add(&mut reached.kinds, seen.kinds);
    });
    assert_eq!(reached.len(), LAYOUTS.len());
    for (layout, Seen { shown, forms, kinds, pairs }) in reached {
        println!("{layout:?}: {pairs} pairs; {shown:?}; both by forms {forms:?}, by vertices {kinds:?}");
        assert!(pairs > 10_000, "shapes should often be inside others");
        for (inner_first, [inner_whole, outer_whole]) in [true, false]
            .into_iter()
            .flat_map(|first| [[false, false], [false, true], [true, true]].map(|whole| (first, whole)))
        {
            let both = Shown::Both { inner_first, inner_whole, outer_whole };
            assert!(shown[&both] > 1000, "{both:?} should be common");
        }
        for other in [Shown::Outer, Shown::Neither, Shown::Inner, Shown::Released] {
            assert!(shown[&other] > 1000, "{other:?} should be common");
        }
        assert_eq!(shown.len(), 10);
        assert!(forms.len() == 9 && forms.values().all(|&tiles| tiles > 500), "each form of a bin with each");
        assert!(kinds.len() == 9 && kinds.values().all(|&tiles| tiles > 100), "each kind in each");
    }
}

/// A pool with a block for each tile of the screen of the marked cases.
fn opened(layout: Layout) -> Slot {
    let blocks = SCREEN.tiles();
    let mut slot = Slot::over(vec![0; layout.room(SCREEN, blocks)], blocks);
    assert_eq!(slot.call(&Call::Open { layout, screen: SCREEN, blocks: Blocks::Own }), Ok(alone(number::DONE)));
    slot
}

/// The entries of a tile's list.
fn entries(slot: &Slot, tile: u32) -> Vec<Entry> {
    let read = |place| raw::read(&slot.words, tile, place).done().ok().map(Entry::from);
    (0..).map_while(read).collect()
}

/// A triangle over all tiles and one in it over tile 0, in each form of a bin and in either order. The outer one is there with the inner
/// one, but for a tile that was released after it and before the inner one, which has that alone.
#[test]
fn a_release_between_the_bins_leaves_the_inner_shape_alone() {
    const OUTER: [Vertex; 3] = [[0, 0], [1536, 0], [0, 1536]];
    const INNER: [Vertex; 3] = [[0, 0], [512, 0], [0, 512]];
    assert!(is_inside(&INNER, &OUTER) && !is_inside(&OUTER, &INNER));
    let [outer, inner] = [8, 7].map(|id| Entry { id, whole: true });
    for layout in LAYOUTS {
        for outer_bin in bins(8, &OUTER) {
            for inner_bin in bins(7, &INNER) {
                let after = |calls: &[&Call]| {
                    let mut slot = opened(layout);
                    for call in calls {
                        assert_eq!(slot.call(call).map(|[number, ..]| number), Ok(number::DONE), "{call:?}");
                    }
                    entries(&slot, 0)
                };
                let release = Call::Release { tile: 0 };
                let other = Call::Release { tile: 3 };
                assert_eq!(after(&[&outer_bin, &inner_bin]), [outer, inner]);
                assert_eq!(after(&[&inner_bin, &outer_bin]), [inner, outer]);
                assert_eq!(after(&[&outer_bin, &other, &inner_bin]), [outer, inner]);
                assert_eq!(after(&[&release, &inner_bin, &outer_bin]), [inner, outer]);
                assert_eq!(after(&[&outer_bin, &release, &inner_bin]), [inner]);
                assert_eq!(after(&[&inner_bin, &release, &outer_bin]), [outer]);
                assert_eq!(after(&[&outer_bin, &inner_bin, &release]), []);
            }
        }
    }
}

/// A triangle, and shapes that culling would replace by it where they are inside.
#[derive(Clone, Debug)]
struct Culled {
    layout: Layout,
    screen: Screen,
    outer: Vec<Vertex>,
    cluster: Vec<Vec<Vertex>>,
}

/// What is seen of a cluster: how many of its shapes are inside, and how many tiles the outer triangle and the cluster both have, how
/// many the outer one alone, and how many both with the flag.
struct Kept {
    inside: usize,
    both: usize,
    outer: usize,
    whole: usize,
}

/// What each tile has of some shapes in a pool of their own, binned in this form: whether an entry, and whether one with the flag.
fn tiles_of(case: &Culled, shapes: &[Vec<Vertex>], form: usize) -> Result<Vec<[bool; 2]>, String> {
    let blocks = case.screen.tiles();
    let mut slot = Slot::over(State::opened(case.layout, case.screen, blocks).words(), blocks);
    for (id, shape) in (0..).zip(shapes) {
        let [number, ..] = slot.call(&bins(id, shape)[form])?;
        if number != number::DONE || slot.answers.given().iter().any(|&answer| answer != 0) {
            return Err(format!("{shape:?} is refused"));
        }
    }
    let tile = |tile: u32| {
        let list = entries(&slot, tile);
        [!list.is_empty(), list.iter().any(|entry| entry.whole)]
    };
    Ok((0..blocks).map(tile).collect())
}

/// Which tiles the map of a shape has.
fn mapped(screen: Screen, shape: &[Vertex]) -> Vec<bool> {
    let mut bytes = vec![9; screen.tiles() as usize];
    flourscoop::map(screen_of(screen), shape_of(shape), &mut bytes).unwrap();
    bytes.into_iter().map(|byte| byte == 1).collect()
}

impl Case for Culled {
    type Seen = Kept;

    fn make(random: &Random, place: u64) -> Culled {
        let (layout, screen) = (generate::layout(place), generate::screen(random, 6));
        let tile = generate::tile(random, screen);
        let base = generate::over(random, screen, tile);
        let outer = random.pick(&[&base, &around(random, &base)]).clone();
        let mut cluster: Vec<_> = (0..2 + random.below(6)).map(|_| inner(random, &outer)).collect();
        cluster.push(base);
        Culled { layout, screen, outer, cluster }
    }

    fn smaller(&self) -> Vec<Culled> {
        let with_cluster = |cluster| Culled { cluster, ..self.clone() };
        let mut all: Vec<_> = fewer(&self.cluster).into_iter().map(with_cluster).collect();
        all.extend(smaller::screens(self.screen).into_iter().map(|screen| Culled { screen, ..self.clone() }));
        all.extend(smaller::layouts(self.layout).into_iter().map(|layout| Culled { layout, ..self.clone() }));
        all.extend(smaller::shapes(&self.outer).into_iter().map(|outer| Culled { outer, ..self.clone() }));
        all.extend(smaller::each(&self.cluster, |shape| smaller::shapes(shape)).into_iter().map(with_cluster));
        all
    }

    /// Those of the cluster that are inside have no tile, and no flag in a tile, that the outer triangle has not: in a pool, by maps and
    /// by totals.
    fn run(&self) -> Result<Kept, String> {
        let cluster: Vec<_> = self.cluster.iter().filter(|shape| is_inside(shape, &self.outer)).cloned().collect();
        let mut kept = Kept { inside: cluster.len(), both: 0, outer: 0, whole: 0 };
        for form in 0..3 {
            let outer = tiles_of(self, std::slice::from_ref(&self.outer), form)?;
            let inner = tiles_of(self, &cluster, form)?;
            for (tile, (outer, inner)) in outer.iter().zip(&inner).enumerate() {
                if (inner[0] && !outer[0]) || (inner[1] && !outer[1]) {
                    return Err(format!("tile {tile} has {inner:?} of the cluster, and {outer:?} of {:?}", self.outer));
                }
                kept.both += usize::from(inner[0]);
                kept.outer += usize::from(outer[0] && !inner[0]);
                kept.whole += usize::from(inner[1]);
            }
        }
        let outer = mapped(self.screen, &self.outer);
        let lost =
            |shape: &&Vec<Vertex>| mapped(self.screen, shape).iter().zip(&outer).any(|(inner, outer)| inner > outer);
        if let Some(shape) = cluster.iter().find(lost) {
            return Err(format!("the map of {shape:?} has a tile that that of {:?} has not", self.outer));
        }
        let totals = |shapes: &[Vec<Vertex>]| {
            let list: Vec<i32> = shapes.iter().flat_map(|shape| words_of(shape)).collect();
            flourscoop::overlaps(screen_of(self.screen), &list).unwrap()
        };
        let (outer, inner) = (totals(std::slice::from_ref(&self.outer)), totals(&cluster));
        if inner.largest > outer.largest || inner.box_tiles > outer.box_tiles * cluster.len() as u64 {
            return Err(format!("{inner:?} of the cluster, and {outer:?} of {:?}", self.outer));
        }
        Ok(kept)
    }
}

#[test]
fn culling_loses_no_tile() {
    let (mut all, mut inside, mut tiles) = (0, 0, [0; 3]);
    hold(0xF100_0013, 8000, |case: &Culled, kept: Kept| {
        all += case.cluster.len();
        inside += kept.inside;
        tiles.iter_mut().zip([kept.both, kept.outer, kept.whole]).for_each(|(tiles, more)| *tiles += more);
    });
    println!("{inside} of {all} shapes are inside; tiles of both, of the outer alone, and wholly of both: {tiles:?}");
    assert!(3 * inside > 2 * all && inside + 1000 < all, "most should be inside, and some not");
    assert!(tiles.iter().all(|&tiles| tiles > 5000));
}
