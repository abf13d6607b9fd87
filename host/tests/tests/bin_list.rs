//! Draw calls: against single bins in a copy of the pool and against the model, on pools of every fill; what refuses one as a
//! whole, and in which order; lists without a shape, and of as many as there may be.

use std::collections::{BTreeMap, BTreeSet};
use std::hint::black_box;

use flourscoop::raw::{self, Answer};
use flourscoop::{Pool, Refusal};
use model::layout::{Layout, LAYOUTS};
use model::marked::SCREEN;
use model::number;
use model::pool::{State, MOST_BLOCKS};
use model::screen::Screen;
use model::shapes::{faults, vertices, Fault, MOST_SHAPES, WORDS_OF_BIN, WORDS_OF_SHAPE};
use model::stepping::tests;
use tests::answers::runs_out;
use tests::call::{alone, shape_of, Call, Slot};
use tests::draw::Draw;
use tests::generate;
use tests::hold::{hold, Case};
use tests::list::{BinWords, List};
use tests::random::Random;
use tests::smaller::{self, lower};

/// A sound pool with so many words past its room, and a draw call on it.
#[derive(Clone, Debug)]
struct Drawn {
    state: State,
    tail: usize,
    draw: Draw,
}

/// What a draw call gave: its number, that of each shape where it was done, and how many entries with the flag.
struct Seen {
    number: u32,
    answers: Vec<u8>,
    whole: usize,
}

/// A sound pool for a draw call: one of every fill from empty to full, with fewer free blocks than the shapes need in all, or
/// as many, or more.
fn pool_for(random: &Random, layout: Layout, screen: Screen, draw: &Draw) -> State {
    let used_of_eight = random.pick(&[0, 1, 1, 2, 4, 8]);
    let mut left = 1500;
    let mut entries_of_a_tile = || {
        let blocks = if random.below(8) < used_of_eight { random.pick(&[1, 1, 1, 2, 3]) } else { 0 };
        let blocks = if blocks > left { 0 } else { blocks };
        left -= blocks;
        generate::entries(random, layout.ids_of_block(), blocks)
    };
    let entries: Vec<usize> = (0..screen.tiles()).map(|_| entries_of_a_tile()).collect();
    let plenty = draw.list.shape_count() * entries.len();
    let mut trial = generate::filled(random, layout, screen, &entries, plenty);
    let words = draw.list.words();
    let needed = trial.bin_list(&words, words.len()).map_or(0, |_| plenty - trial.free.len());
    let fewer = if needed > 1 { 1 + random.below(needed as u32 - 1) as usize } else { 0 };
    let free = if random.once_in(8) { random.pick(&[0, needed, needed + fewer]) } else { fewer };
    generate::filled(random, layout, screen, &entries, free.min(MOST_BLOCKS as usize - 1500))
}

/// The number that each shape of a list gets from a bin of its own, which makes the tests that the model has for it.
fn one_by_one(screen: Screen, words: &mut [u32], list: &[i32]) -> Result<Vec<u8>, String> {
    let bin = |bin: &[i32]| {
        let shape = vertices(bin);
        let Answer { number, values: [.., made] } = raw::bin(words, bin[WORDS_OF_SHAPE] as u32, shape_of(&shape));
        let expected = if number == number::DONE { tests(screen, &shape) } else { 0 };
        if made != expected {
            return Err(format!("{shape:?} alone: {made} tests, {expected} by the model"));
        }
        Ok(number as u8)
    };
    list.chunks(WORDS_OF_BIN).map(bin).collect()
}

impl Drawn {
    fn words(&self) -> Vec<u32> {
        let tail = (0..self.tail as u32).map(|at| 0x7A11 + at);
        self.state.words().into_iter().chain(tail).collect()
    }

    /// How many tenths of the blocks are in use, rounded down; all of them where there is no block.
    fn tenths(&self) -> u32 {
        let used = self.state.blocks - self.state.free.len() as u32;
        (10 * used).checked_div(self.state.blocks).unwrap_or(10)
    }

    /// Makes the draw call by the wrapper, and compares its number, the words and the bytes with those of a slot. No word of the
    /// list is written.
    fn by_wrapper(&self, slot: &Slot, number: u32) -> Result<(), String> {
        let (mut words, list, mut answers) = (self.words(), self.draw.list.words(), self.draw.untouched());
        let answer = Pool::over(&mut words).bin_list(&list, answers.lent());
        if answer.map_or_else(Refusal::number, |()| number::DONE) != number {
            return Err(format!("by the wrapper {answer:?}"));
        }
        if words != slot.words || answers != slot.answers {
            return Err("by the wrapper other words or other answers".into());
        }
        if black_box(&list) != &self.draw.list.words() {
            return Err("a word of the list was written".into());
        }
        Ok(())
    }
}

impl Case for Drawn {
    type Seen = Seen;

    fn make(random: &Random, place: u64) -> Drawn {
        let (screen, most) = match place % 1000 {
            0 => (generate::full_screen(random), 4),
            place if place % 100 == 50 => (generate::screen(random, 24), 8),
            _ => (generate::screen(random, 6), 24),
        };
        let draw = Draw::make(random, screen, most);
        let state = pool_for(random, generate::layout(place), screen, &draw);
        Drawn { state, tail: random.pick(&[0, 0, 1, 40]), draw }
    }

    fn smaller(&self) -> Vec<Drawn> {
        let mut all: Vec<_> = self.draw.smaller().into_iter().map(|draw| Drawn { draw, ..self.clone() }).collect();
        let states = smaller::states(&self.state).into_iter().chain(smaller::pools(&self.state));
        all.extend(states.map(|state| Drawn { state, ..self.clone() }));
        all.extend(lower(self.tail as u32).into_iter().map(|tail| Drawn { tail: tail as usize, ..self.clone() }));
        all
    }

    /// Every word and every answer byte is the model's, and what single bins leave; where the whole is refused, what was there.
    fn run(&self) -> Result<Seen, String> {
        let mut slot = Slot::over(self.words(), 0);
        let [number, ..] = slot.call(&Call::BinList(self.draw.clone()))?;
        let answers = slot.answers.given();
        let mut single = self.words();
        let singly = match number {
            number::DONE => one_by_one(self.state.screen, &mut single, &self.draw.list.words())?,
            _ => Vec::new(),
        };
        if answers != singly {
            return Err(format!("the draw call gives {answers:?}, single bins {singly:?}"));
        }
        if slot.words != single {
            return Err("the words differ from those after single bins".into());
        }
        self.by_wrapper(&slot, number)?;
        let whole = slot.state.map_or(0, |state| state.whole_entries()) - self.state.whole_entries();
        Ok(Seen { number, answers, whole })
    }
}

/// What the draw calls on pools of a layout reached.
#[derive(Default, Debug)]
struct Reached {
    /// draw calls by the number that they get
    numbers: BTreeMap<u32, u64>,
    /// those with just one fault, by that
    faults: BTreeMap<Fault, u64>,
    /// those that are done, by the tenths of the blocks in use before them: all, and those in which room runs out in the middle
    fills: BTreeMap<u32, [u64; 2]>,
    /// the shapes of those, by their answer
    answers: BTreeMap<u8, u64>,
    /// those that are done with as many bytes as shapes, and with more
    bytes: [u64; 2],
    /// those refused for bytes with one too few, and without any
    too_few: [u64; 2],
    /// those without a shape
    empty: u64,
    /// those on screens of 4,096 tiles
    largest: u64,
    /// those that append entries with the flag
    covering: u64,
}

impl Reached {
    fn add(&mut self, case: &Drawn, seen: &Seen) {
        let Draw { list, spare } = &case.draw;
        *self.numbers.entry(seen.number).or_default() += 1;
        if let [fault] = faults(&list.words(), WORDS_OF_BIN).collect::<Vec<_>>()[..] {
            *self.faults.entry(fault).or_default() += 1;
        }
        match seen.number {
            number::DONE => {
                let [all, run_out] = self.fills.entry(case.tenths()).or_default();
                *all += 1;
                *run_out += u64::from(runs_out(&seen.answers));
                self.bytes[usize::from(*spare > 0)] += 1;
                self.empty += u64::from(seen.answers.is_empty());
                self.largest += u64::from(case.state.tiles.len() == 4096);
                self.covering += u64::from(seen.whole > 0);
            }
            number::BUFFER => self.too_few[usize::from(case.draw.bytes() == 0)] += 1,
            _ => (),
        }
        seen.answers.iter().for_each(|&answer| *self.answers.entry(answer).or_default() += 1);
    }

    /// The draw calls that are done, and those of them in which room runs out in the middle.
    fn done(&self) -> [u64; 2] {
        [0, 1].map(|which| self.fills.values().map(|fill| fill[which]).sum())
    }
}

#[test]
fn draw_calls_are_as_single_bins() {
    let mut reached: BTreeMap<Layout, Reached> = BTreeMap::new();
    hold(0xF100_0009, 45_000, |case: &Drawn, seen| reached.entry(case.state.layout).or_default().add(case, &seen));
    for (layout, reached) in &reached {
        let [done, run_out] = reached.done();
        println!("{layout:?}: {done} draw calls are done, and room runs out in the middle of {run_out}; {reached:?}");
    }
    assert_eq!(reached.len(), LAYOUTS.len());
    for reached in reached.into_values() {
        let [done, run_out] = reached.done();
        assert!(done > 7000 && 2 * run_out > done, "room should run out in the middle of most lists");
        assert!((0..=10).all(|tenths| reached.fills[&tenths][1] > 20), "and in pools of every fill");
        let often = |answer: &u8| reached.answers.get(answer).is_some_and(|&shapes| shapes > 2000);
        assert!([0, 5, 7, 8].iter().all(often) && reached.answers.len() == 4, "each answer should be given often");
        assert!(reached.numbers[&number::LIST] > 1000 && reached.numbers[&number::BUFFER] > 1000);
        let alone = |fault: Fault| reached.faults.get(&fault).is_some_and(|&lists| lists > 10);
        assert!((1..WORDS_OF_BIN).all(|words| alone(Fault::Part(words))), "each part of a shape should be there");
        assert!([0, 4, -1, i32::MIN, i32::MAX].map(Fault::Kind).into_iter().all(alone), "and each wrong kind");
        let unused = [(1, 3), (1, 4), (1, 5), (1, 6), (2, 5), (2, 6)];
        let unused = unused.map(|(kind, column)| Fault::Unused { kind, column });
        assert!(unused.into_iter().all(alone), "and each word that a kind does not use");
        let Reached { bytes, too_few, empty, largest, covering, .. } = reached;
        assert!(bytes.iter().chain(&too_few).all(|&calls| calls > 500), "with enough bytes, more, one less and none");
        assert!(empty > 100 && largest > 5, "lists without a shape and largest screens should be there");
        assert!(covering > 1000, "tiles should often be wholly covered");
    }
}

const ONE_TILE: Screen = Screen { width: 8, height: 8, s: 3 };
const POINT: BinWords = [1, 5, 5, 0, 0, 0, 0, 7];
const OFF_SCREEN: BinWords = [2, -1, 0, -1, 128, 0, 0, 7];
const OUT_OF_RANGE: BinWords = [3, 0, 0, 0, 0, 0, 262_144, 7];
const BELOW_ZERO: BinWords = [1, 5, 5, 0, 0, 0, 0, -1];

/// Makes a draw call on the archive and on the model, and expects this number and, each so many times in a row, these answers.
/// The words are then those that it left.
fn expect(words: &[u32], draw: &Draw, number: u32, answers: &[(usize, u8)]) -> Vec<u32> {
    let mut slot = Slot::over(words.to_vec(), 0);
    assert_eq!(slot.call(&Call::BinList(draw.clone())), Ok(alone(number)), "{draw:?}");
    let answers: Vec<u8> = answers.iter().flat_map(|&(times, answer)| std::iter::repeat_n(answer, times)).collect();
    assert!(slot.answers.given() == answers, "{draw:?}");
    assert!(number == number::DONE || slot.words == words, "{draw:?}");
    slot.words
}

/// The list of these shapes, with words past them and with so many bytes more than shapes, or fewer.
fn draw(shapes: &[(usize, BinWords)], rest: &[i32], spare: i32) -> Draw {
    Draw { list: List { shapes: shapes.to_vec(), rest: rest.to_vec() }, spare }
}

/// The shape with another word in a column.
fn with(mut words: BinWords, column: usize, word: i32) -> BinWords {
    words[column] = word;
    words
}

/// The words of a sound pool with two entries, and words that are not a sound pool; whether they are.
fn pools(layout: Layout) -> Vec<(Vec<u32>, bool)> {
    let mut state = State::opened(layout, SCREEN, 3);
    state.bin(1, &[[256, 100]]).unwrap();
    let sound = state.words();
    let changed = |place: usize| {
        let mut words = sound.clone();
        words[place] += 1;
        words
    };
    let short = [Vec::new(), sound[..sound.len() - 1].to_vec()];
    let unsound = short.into_iter().chain([4, 6, sound.len() - 2].map(changed));
    [(sound.clone(), true)].into_iter().chain(unsound.map(|words| (words, false))).collect()
}

/// Lists, and the answers of those that are right. Each of the others has one fault: in the last shape or the first, after an id
/// below 0 and a coordinate out of range, or past the shapes.
fn lists() -> Vec<(List<WORDS_OF_BIN>, Option<[u8; 2]>)> {
    let list = |shapes: &[BinWords], rest: &[i32]| {
        let shapes = shapes.iter().map(|&words| (1, words)).collect();
        List { shapes, rest: rest.to_vec() }
    };
    let right = [([POINT, POINT], [0, 0]), ([BELOW_ZERO, OUT_OF_RANGE], [5, 7]), ([OFF_SCREEN, POINT], [0, 0])];
    let faults = [with(POINT, 0, 0), with(POINT, 0, 4), with(POINT, 3, 1), with(POINT, 6, -1), with(OFF_SCREEN, 5, 1)];
    let wrong = |fault| [vec![POINT, fault], vec![fault, POINT], vec![BELOW_ZERO, OUT_OF_RANGE, fault]];
    let mut all: Vec<_> = right.iter().map(|(shapes, answers)| (list(shapes, &[]), Some(*answers))).collect();
    all.extend(faults.into_iter().flat_map(wrong).map(|shapes| (list(&shapes, &[]), None)));
    all.extend((1..WORDS_OF_BIN).map(|words| (list(&[POINT; 2], &POINT[..words]), None)));
    all
}

#[test]
fn a_draw_call_is_refused_with_4_then_15_then_11() {
    let mut met = BTreeSet::new();
    for (words, sound) in LAYOUTS.into_iter().flat_map(pools) {
        for (list, answers) in lists() {
            for spare in [0, 9, -1, -2, i32::MIN] {
                let draw = Draw { list: list.clone(), spare };
                let meets = [sound, answers.is_some(), spare >= 0];
                met.insert(meets);
                match (meets, answers) {
                    ([false, _, _], _) => expect(&words, &draw, number::UNSOUND, &[]),
                    (_, None) => expect(&words, &draw, number::LIST, &[]),
                    ([_, _, false], _) => expect(&words, &draw, number::BUFFER, &[]),
                    (_, Some(answers)) => expect(&words, &draw, number::DONE, &answers.map(|answer| (1, answer))),
                };
            }
        }
    }
    assert_eq!(met.len(), 8, "every combination of causes should be there");
}

#[test]
fn a_list_without_a_shape_is_done_with_any_answers() {
    for (words, sound) in LAYOUTS.into_iter().flat_map(pools) {
        for spare in [0, 1, 9, -1, i32::MIN] {
            let number = if sound { number::DONE } else { number::UNSOUND };
            assert_eq!(expect(&words, &draw(&[], &[], spare), number, &[]), words);
        }
    }
}

/// A pool of one tile and two blocks.
fn two_blocks(layout: Layout) -> Vec<u32> {
    State::opened(layout, ONE_TILE, 2).words()
}

#[test]
fn a_list_has_1048576_shapes_and_no_more() {
    const MOST: usize = MOST_SHAPES;
    for layout in LAYOUTS {
        let (words, full) = (two_blocks(layout), 2 * layout.ids_of_block());
        let most = draw(&[(MOST, POINT)], &[], 0);
        expect(&words, &most, number::DONE, &[(full, 0), (MOST - full, 8)]);
        expect(&words, &Draw { spare: -1, ..most.clone() }, number::BUFFER, &[]);
        expect(&words, &draw(&[(MOST + 1, POINT)], &[], 1), number::LIST, &[]);
        expect(&words, &draw(&[(MOST + 1, BELOW_ZERO)], &[], i32::MIN), number::LIST, &[]);
        expect(&words[1..], &most, number::UNSOUND, &[]);
    }
    let words = two_blocks(Layout::One);
    expect(&words, &draw(&[(2 * MOST, POINT)], &[], 0), number::LIST, &[]);
    for part in [1, 7] {
        expect(&words, &draw(&[(MOST, POINT)], &POINT[..part], 1), number::LIST, &[]);
        expect(&words, &draw(&[(MOST - 1, POINT)], &POINT[..part], 1), number::LIST, &[]);
    }
}

#[test]
fn the_last_of_1048576_shapes_is_binned() {
    const LAST: usize = MOST_SHAPES - 1;
    let words = two_blocks(Layout::One);
    expect(&words, &draw(&[(LAST, BELOW_ZERO), (1, POINT)], &[], 3), number::DONE, &[(LAST, 5), (1, 0)]);
    expect(&words, &draw(&[(LAST, OUT_OF_RANGE), (1, BELOW_ZERO)], &[], 0), number::DONE, &[(LAST, 7), (1, 5)]);
    expect(&words, &draw(&[(LAST, OFF_SCREEN), (1, OUT_OF_RANGE)], &[], 0), number::DONE, &[(LAST, 0), (1, 7)]);
    for fault in [with(POINT, 6, 1), with(POINT, 0, 0), with(POINT, 0, 4)] {
        expect(&words, &draw(&[(LAST, POINT), (1, fault)], &[], 0), number::LIST, &[]);
        expect(&words, &draw(&[(1, fault), (LAST, BELOW_ZERO)], &[], 0), number::LIST, &[]);
    }
}
