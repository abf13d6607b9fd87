//! The totals of lists of shapes: against the model, against what the other calls say of each shape, and at the limits of a
//! list.

use std::collections::BTreeMap;

use flourscoop::raw::{self, Answer};
use flourscoop::{box_touches, corner_cover, Cover, Overlaps, Pool, Refusal};
use model::number;
use model::overlaps::Totals;
use model::screen::Screen;
use model::shapes::{faults, vertices, Fault, MOST_SHAPES, WORDS_OF_SHAPE};
use model::touch::in_range;
use model::Vertex;
use tests::call::{screen_of, shape_of};
use tests::generate;
use tests::hold::{hold, Case};
use tests::list::{overlaps_of, List, OnScreen, Words, COVERING, POINT};
use tests::random::Random;
use tests::smaller::lower;
use tests::square::squares_touched;

/// A list with or without a fault, on a screen within the rules or not.
#[derive(Clone, Debug)]
struct Counted(OnScreen);

impl Case for Counted {
    type Seen = Answer<Overlaps>;

    fn make(random: &Random, place: u64) -> Counted {
        let (screen, most) = match place % 2000 {
            0 => (generate::full_screen(random), 2),
            place if place % 100 == 50 => (generate::screen(random, 24), 3),
            _ => (generate::screen(random, 4), 6),
        };
        let list = List::make(random, screen, most);
        let bad_screen = generate::bad_screen(random);
        let (screen, list) = match random.below(8) {
            0 => (bad_screen, list),
            1 => (bad_screen, list.with_fault(random)),
            2 | 3 => (screen, list.with_fault(random)),
            _ => (screen, list),
        };
        Counted(OnScreen { screen, list })
    }

    fn smaller(&self) -> Vec<Counted> {
        self.0.smaller().into_iter().map(Counted).collect()
    }

    fn run(&self) -> Result<Answer<Overlaps>, String> {
        self.0.count()
    }
}

/// What the lists reached.
#[derive(Default, Debug)]
struct Reached {
    /// lists by the number that they get
    numbers: BTreeMap<u32, u64>,
    /// lists with just one fault, by that
    faults: BTreeMap<Fault, u64>,
    /// lists with a fault, on a screen outside the rules
    both: u64,
    /// accepted lists without a shape
    empty: u64,
    /// accepted lists with shapes, of which none is in range
    none_in_range: u64,
    /// accepted lists with some shapes in range, and the first not
    first_out_of_range: u64,
    /// accepted lists whose shapes in range touch nothing, the first of them at a later place
    nothing_touched: u64,
    /// accepted lists of which the first that touches most tiles has a later place
    later: u64,
    /// accepted lists with false overlaps
    false_overlaps: u64,
    /// accepted lists on screens of 4,096 tiles
    largest_screens: u64,
    /// accepted lists of one shape that would touch more tiles if all were full squares
    cut: u64,
}

impl Reached {
    fn add(&mut self, case: &OnScreen, answer: Answer<Overlaps>) {
        *self.numbers.entry(answer.number).or_default() += 1;
        let words = case.list.words();
        let faults: Vec<Fault> = faults(&words, WORDS_OF_SHAPE).collect();
        if answer.number == number::SCREEN {
            self.both += u64::from(!faults.is_empty());
            return;
        }
        if let [fault] = faults[..] {
            *self.faults.entry(fault).or_default() += 1;
        }
        if answer.number != number::DONE {
            return;
        }
        let Overlaps { shapes, out_of_range, touched_tiles, difference, largest, place, .. } = answer.values;
        let first_in_range = words.get(..WORDS_OF_SHAPE).is_some_and(|words| in_range(&vertices(words)));
        self.empty += u64::from(words.is_empty());
        self.none_in_range += u64::from(shapes == 0 && out_of_range > 0);
        self.first_out_of_range += u64::from(shapes > 0 && !first_in_range);
        self.nothing_touched += u64::from(shapes > 0 && largest == 0 && place > 0);
        self.later += u64::from(largest > 0 && place > 0);
        self.false_overlaps += u64::from(difference > 0);
        self.largest_screens += u64::from(case.screen.tiles() == 4096);
        if shapes == 1 && words.len() == WORDS_OF_SHAPE {
            self.cut += u64::from(touched_tiles < squares_touched(case.screen, &vertices(&words)).into());
        }
    }
}

#[test]
fn totals_and_refusals_are_the_model_s() {
    let mut reached = Reached::default();
    hold(0xF100_0007, 1_000_000, |case: &Counted, answer| reached.add(&case.0, answer));
    println!("{reached:?}");
    let often = |number| reached.numbers.get(&number).is_some_and(|&lists| lists > 100_000);
    assert!(
        [number::DONE, number::SCREEN, number::LIST].into_iter().all(often),
        "each number should be returned often"
    );
    let alone = |fault: &Fault| reached.faults.get(fault).is_some_and(|&lists| lists > 2000);
    assert!((1..WORDS_OF_SHAPE).all(|words| alone(&Fault::Part(words))), "each part of a shape should be there");
    let kinds = [0, 4, -1, i32::MIN, i32::MAX];
    assert!(kinds.into_iter().all(|kind| alone(&Fault::Kind(kind))), "each wrong kind should be there alone");
    let unused = [(1, 3), (1, 4), (1, 5), (1, 6), (2, 5), (2, 6)];
    let unused = unused.map(|(kind, column)| Fault::Unused { kind, column });
    assert!(unused.iter().all(alone), "each word that a kind does not use should be wrong alone");
    let Reached { both, empty, none_in_range, first_out_of_range, nothing_touched, later, .. } = reached;
    assert!(both > 50_000 && empty > 50_000, "a screen outside the rules with a fault, and no shape, should be common");
    assert!(none_in_range > 5000 && first_out_of_range > 20_000, "shapes out of range should be common");
    assert!(nothing_touched > 1000 && later > 100_000, "places should often be later ones");
    let Reached { false_overlaps, largest_screens, cut, .. } = reached;
    assert!(false_overlaps > 100_000 && largest_screens > 100, "boxes should often have more tiles, and few or many");
    assert!(cut > 2000, "it should often matter that tiles are cut");
}

/// A list without a fault, and the place before which it is parted.
#[derive(Clone, Debug)]
struct Parted {
    whole: OnScreen,
    place: u32,
}

/// What is seen of a list that is parted.
struct Parts {
    totals: Overlaps,
    /// how many shapes touch as many tiles as the largest
    as_large: usize,
    /// whether the place of the largest is in the second part
    second: bool,
}

/// The totals of a list of so many shapes with another list behind it.
fn joined(one: Overlaps, shapes: u32, two: Overlaps) -> Overlaps {
    let second = two.shapes > 0 && (one.shapes == 0 || one.largest < two.largest);
    Overlaps {
        shapes: one.shapes + two.shapes,
        out_of_range: one.out_of_range + two.out_of_range,
        box_tiles: one.box_tiles + two.box_tiles,
        touched_tiles: one.touched_tiles + two.touched_tiles,
        difference: one.difference + two.difference,
        largest: one.largest.max(two.largest),
        place: if second { shapes + two.place } else { one.place },
    }
}

/// In how many tiles a shape lies by box and by corner, each tile asked about, and by corner as a bin lists it; nothing where
/// all three are refused, since a coordinate is out of range.
fn by_other_calls(screen: Screen, shape: &[Vertex]) -> Result<Option<[u32; 2]>, String> {
    let (tiles, screen, shape) = (screen.tiles(), screen_of(screen), shape_of(shape));
    let sum = |asked: &dyn Fn(u32) -> Result<bool, Refusal>| {
        (0..tiles).map(|tile| asked(tile).map(u32::from)).sum::<Result<u32, Refusal>>()
    };
    let boxed = sum(&|tile| box_touches(screen, tile, shape));
    let touched = sum(&|tile| corner_cover(screen, tile, shape).map(Cover::touches));
    let mut words = vec![0; flourscoop::room(screen, tiles).unwrap()];
    let binned = Pool::open(&mut words, screen, tiles).and_then(|mut pool| pool.bin(1, shape));
    match (boxed, touched, binned.map(|binned| binned.tiles)) {
        (Ok(boxed), Ok(touched), Ok(listed)) if touched == listed => Ok(Some([boxed, touched])),
        (Err(Refusal::OutOfRange), Err(Refusal::OutOfRange), Err(Refusal::OutOfRange)) => Ok(None),
        answers => Err(format!("{shape:?} by box, corner and bin: {answers:?}")),
    }
}

impl Parted {
    /// The totals that the other calls give, and how many shapes touch as many tiles as the largest.
    fn by_other_calls(&self, words: &[i32]) -> Result<(Overlaps, usize), String> {
        let shapes = words.chunks(WORDS_OF_SHAPE).map(|words| by_other_calls(self.whole.screen, &vertices(words)));
        let shapes = shapes.collect::<Result<Vec<_>, String>>()?;
        let in_range: Vec<(u32, [u32; 2])> =
            (0..).zip(&shapes).filter_map(|(place, tiles)| Some((place, (*tiles)?))).collect();
        let sum = |way: usize| in_range.iter().map(|(_, tiles)| u64::from(tiles[way])).sum::<u64>();
        let largest = in_range.iter().map(|(_, [_, touched])| *touched).max().unwrap_or(0);
        let as_large: Vec<u32> =
            in_range.iter().filter(|(_, [_, touched])| *touched == largest).map(|(place, _)| *place).collect();
        let totals = Overlaps {
            shapes: in_range.len() as u32,
            out_of_range: (shapes.len() - in_range.len()) as u32,
            box_tiles: sum(0),
            touched_tiles: sum(1),
            difference: sum(0) - sum(1),
            largest,
            place: as_large.first().copied().unwrap_or(0),
        };
        Ok((totals, as_large.len()))
    }
}

impl Case for Parted {
    type Seen = Parts;

    fn make(random: &Random, place: u64) -> Parted {
        let screen = generate::screen(random, if place % 50 == 0 { 40 } else { 5 });
        let list = List::make(random, screen, 8);
        let place = random.below(list.shape_count() as u32 + 1);
        Parted { whole: OnScreen { screen, list }, place }
    }

    fn smaller(&self) -> Vec<Parted> {
        let mut all: Vec<_> = lower(self.place).into_iter().map(|place| Parted { place, ..self.clone() }).collect();
        all.extend(self.whole.smaller().into_iter().map(|whole| Parted { whole, ..*self }));
        all
    }

    /// The totals of the whole are those of its parts together, and those that the other calls give.
    fn run(&self) -> Result<Parts, String> {
        let words = self.whole.list.words();
        let totals =
            |list| raw::overlaps(screen_of(self.whole.screen), list).done().map_err(|refusal| refusal.to_string());
        let (one, two) = words.split_at(words.len().min(WORDS_OF_SHAPE * self.place as usize));
        let parted = joined(totals(one)?, self.place, totals(two)?);
        let whole = totals(&words)?;
        let (asked, as_large) = self.by_other_calls(&words)?;
        if whole != parted || whole != asked {
            return Err(format!("{whole:?}; in two parts {parted:?}; by other calls {asked:?}"));
        }
        Ok(Parts { totals: whole, as_large, second: whole.place >= self.place })
    }
}

#[test]
fn totals_are_those_of_the_parts_and_of_the_other_calls() {
    let (mut ties, mut second, mut most, mut out_of_range) = (0, 0, 0, 0);
    hold(0xF100_0008, 100_000, |_: &Parted, seen| {
        ties += u32::from(seen.totals.largest > 0 && seen.as_large > 1);
        second += u32::from(seen.totals.largest > 0 && seen.second);
        most = seen.totals.touched_tiles.max(most);
        out_of_range += u32::from(seen.totals.out_of_range > 0);
    });
    println!("in {ties} lists several shapes touch most tiles, in {second} the first of them is in the second part");
    println!("{out_of_range} lists have shapes out of range; one touches {most} tiles in sum");
    assert!(ties > 20_000 && second > 20_000 && out_of_range > 20_000 && most > 3000);
}

const ONE_TILE: Screen = Screen { width: 8, height: 8, s: 3 };
const OFF_SCREEN: Words = [2, -1, 0, -1, 128, 0, 0];
const OUT_OF_RANGE: Words = [3, 0, 0, 0, 0, 0, 262_144];

/// Counts, by the archive and the model, a list on a screen of one tile, and expects this answer.
fn expect(shapes: &[(usize, Words)], rest: &[i32], answer: Answer<Overlaps>) {
    let case = OnScreen { screen: ONE_TILE, list: List { shapes: shapes.to_vec(), rest: rest.to_vec() } };
    assert_eq!(case.count(), Ok(answer), "{case:?}");
}

/// The number, and zero for each value.
fn alone(number: u32) -> Answer<Overlaps> {
    Answer { number, values: overlaps_of(Totals::default()) }
}

/// So many shapes in range, so many not, so many tiles by box and by touching, all in one tile each, the first at this place.
fn counted([shapes, out_of_range, tiles, place]: [usize; 4]) -> Answer<Overlaps> {
    let [shapes, out_of_range, tiles, place] = [shapes, out_of_range, tiles, place].map(|count| count as u128);
    let (box_tiles, touched_tiles, largest) = (tiles, tiles, tiles.min(1));
    let totals = Totals { shapes, out_of_range, box_tiles, touched_tiles, difference: 0, largest, place };
    Answer { number: number::DONE, values: overlaps_of(totals) }
}

#[test]
fn a_list_has_1048576_shapes_and_no_more() {
    const MOST: usize = MOST_SHAPES;
    expect(&[(MOST, POINT)], &[], counted([MOST, 0, MOST, 0]));
    expect(&[(MOST - 1, POINT)], &[], counted([MOST - 1, 0, MOST - 1, 0]));
    expect(&[(MOST, OUT_OF_RANGE)], &[], counted([0, MOST, 0, 0]));
    expect(&[(MOST, OFF_SCREEN)], &[], counted([MOST, 0, 0, 0]));
    expect(&[(MOST + 1, POINT)], &[], alone(number::LIST));
    expect(&[(MOST + 1, OUT_OF_RANGE)], &[], alone(number::LIST));
    expect(&[(2 * MOST, POINT)], &[], alone(number::LIST));
    for words in [1, 6] {
        expect(&[(MOST, POINT)], &POINT[..words], alone(number::LIST));
        expect(&[(MOST - 1, POINT)], &POINT[..words], alone(number::LIST));
    }
}

#[test]
fn the_last_of_1048576_shapes_counts() {
    const LAST: usize = MOST_SHAPES - 1;
    expect(&[(LAST, OUT_OF_RANGE), (1, POINT)], &[], counted([1, LAST, 1, LAST]));
    expect(&[(LAST, OUT_OF_RANGE), (1, OFF_SCREEN)], &[], counted([1, LAST, 0, LAST]));
    expect(&[(LAST, OFF_SCREEN), (1, POINT)], &[], counted([LAST + 1, 0, 1, LAST]));
    expect(&[(LAST, POINT), (1, COVERING)], &[], counted([LAST + 1, 0, LAST + 1, 0]));
    expect(&[(LAST, POINT), (1, OUT_OF_RANGE)], &[], counted([LAST, 1, LAST, 0]));
}

#[test]
fn a_fault_in_the_first_or_the_last_of_1048576_shapes_is_found() {
    const LAST: usize = MOST_SHAPES - 1;
    let [mut last_word, mut kind_0, mut kind_4] = [POINT; 3];
    last_word[6] = 1;
    kind_0[0] = 0;
    kind_4[0] = 4;
    for fault in [last_word, kind_0, kind_4] {
        expect(&[(LAST, POINT), (1, fault)], &[], alone(number::LIST));
        expect(&[(LAST, OUT_OF_RANGE), (1, fault)], &[], alone(number::LIST));
        expect(&[(1, fault), (LAST, POINT)], &[], alone(number::LIST));
    }
}

/// A list of as many shapes as there may be on a screen of 4,096 tiles: each touches all tiles, but the last, whose box has them
/// all, so many fewer.
fn expect_most(last: Words, fewer: u64) {
    let screen = Screen { width: 4096, height: 4096, s: 6 };
    let list = List { shapes: vec![(MOST_SHAPES - 1, COVERING), (1, last)], rest: Vec::new() };
    let totals = Overlaps {
        shapes: 1 << 20,
        out_of_range: 0,
        box_tiles: 1 << 32,
        touched_tiles: (1 << 32) - fewer,
        difference: fewer,
        largest: 4096,
        place: 0,
    };
    let case = OnScreen { screen, list };
    assert_eq!(case.count(), Ok(Answer { number: number::DONE, values: totals }));
}

/// The most that a total can be, and the only one that 32 bits do not hold.
#[test]
#[ignore = "1,048,576 triangles over 4,096 tiles each take half a minute"]
fn totals_reach_2_to_the_32() {
    expect_most(COVERING, 0);
}

#[test]
#[ignore = "1,048,576 triangles over 4,096 tiles each take half a minute"]
fn the_total_by_box_reaches_2_to_the_32_alone() {
    let up_to_the_diagonal = [3, 0, 0, 65_536, 0, 0, 65_536];
    expect_most(up_to_the_diagonal, 62 * 63 / 2);
}
