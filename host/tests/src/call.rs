//! The calls on a pool, made on the archive and on the model side by side.

use std::borrow::Cow;

use flourscoop::raw::{self, Answer};
use flourscoop::Shape;
use model::cover::{cover, Cover};
use model::layout::{Layout, LAYOUTS};
use model::pool::State;
use model::screen::Screen;
use model::touch::{box_meets, question};
use model::{number, Pixel, Vertex};

use crate::answers::{no_room, Answers};
use crate::draw::Draw;
use crate::generate;
use crate::lent::{said_entries, Lent};
use crate::list::List;
use crate::random::Random;
use crate::smaller::{self, nearer_zero};

/// A call on a pool. What `spare` says is by how many the words lent for entries, or for starts and for entries, are more than
/// the tile table asks for, or fewer.
#[derive(Clone, PartialEq, Eq, Debug)]
pub enum Call {
    Open { layout: Layout, screen: Screen, blocks: Blocks },
    Audit,
    Bin { id: u32, shape: Vec<Vertex> },
    BinPixels { id: u32, shape: Vec<Pixel> },
    BinList(Draw),
    Read { tile: u32, place: u32 },
    ReadList { tile: u32, spare: i32 },
    ReadAll { spare: [i32; 2] },
    Counts,
    HighWater { tile: u32 },
    Release { tile: u32 },
}

/// How many blocks an opening asks for: as many as the pool is made for, or a number.
#[derive(Clone, Copy, PartialEq, Eq, Debug)]
pub enum Blocks {
    Own,
    These(u32),
}

impl Blocks {
    fn count(self, own: u32) -> u32 {
        match self {
            Blocks::Own => own,
            Blocks::These(number) => number,
        }
    }
}

/// The number that a call returns and the values that it writes, zeros for those that it has not. The answers to a list and
/// what lists are read into are not among them.
pub type Outcome = [u32; 5];

/// The outcome of a call that returns this number and writes no value but zeros.
pub const fn alone(number: u32) -> Outcome {
    [number, 0, 0, 0, 0]
}

/// The outcome of a call that is done and writes these values.
pub fn done<const VALUES: usize>(values: [u32; VALUES]) -> Outcome {
    outcome(Answer { number: number::DONE, values })
}

impl Call {
    /// A call on a pool with this layout and screen, at a tile of it.
    pub fn make(random: &Random, layout: Layout, screen: Screen) -> Call {
        let tile = generate::tile(random, screen);
        let other = random.pick(&[tile, tile, tile, tile, tile, tile, screen.tiles(), u32::MAX]);
        let spare = || random.pick(&[0, 0, 0, 0, 1, 9, -1, -1, i32::MIN]);
        match random.below(27) {
            0..=7 => Call::Bin { id: generate::id(random), shape: shape(random, screen, tile) },
            8..=11 => {
                let shape = shape(random, screen, tile);
                Call::BinPixels { id: generate::id(random), shape: generate::pixels(random, &shape) }
            }
            12..=14 => {
                let place = random.pick(&[0, 0, 1, random.below(40), random.below(2200), u32::MAX]);
                Call::Read { tile: other, place }
            }
            15..=17 => Call::Release { tile: other },
            18 => Call::HighWater { tile: other },
            19 => Call::Audit,
            20 | 21 => Call::BinList(Draw::make(random, screen, 6)),
            22 | 23 => Call::ReadList { tile: other, spare: spare() },
            24 => Call::ReadAll { spare: [spare().max(-1), spare()] },
            25 => Call::Counts,
            _ => {
                let another = random.pick(&[random.pick(&LAYOUTS), generate::bad_layout(random)]);
                let (screen, blocks) = random.pick(&[
                    (screen, Blocks::Own),
                    (generate::bad_screen(random), Blocks::Own),
                    (generate::bad_screen(random), Blocks::These(2049)),
                    (screen, Blocks::These(2049)),
                    (screen, Blocks::These(u32::MAX)),
                    (screen, Blocks::These(2048)),
                ]);
                Call::Open { layout: random.pick(&[layout, another]), screen, blocks }
            }
        }
    }

    /// One of each call that takes a pool, but for the opening.
    pub fn each_on_a_pool() -> [Call; 10] {
        let list = List { shapes: vec![(2, [1, 1, 1, 0, 0, 0, 0, 8])], rest: Vec::new() };
        let [read_list, read_all, counts] = Call::at_once(0);
        [
            Call::Audit,
            Call::BinList(Draw { list, spare: 1 }),
            Call::Bin { id: 8, shape: vec![[1, 1]] },
            Call::BinPixels { id: 8, shape: vec![[0, 0]] },
            Call::Read { tile: 0, place: 0 },
            read_list,
            read_all,
            counts,
            Call::HighWater { tile: 0 },
            Call::Release { tile: 0 },
        ]
    }

    /// The calls that read many entries at once, or count them, with words to spare; one of them at a tile.
    pub fn at_once(tile: u32) -> [Call; 3] {
        [Call::ReadList { tile, spare: 9 }, Call::ReadAll { spare: [9, 9] }, Call::Counts]
    }

    /// Reads of the longest list: in its middle, at its last place and past it.
    pub fn reads_of_longest(state: &State) -> [Call; 3] {
        let entries = |&tile: &u32| state.tiles[tile as usize].entries.len() as u32;
        let longest = (0..state.screen.tiles()).max_by_key(entries).unwrap_or(0);
        let entries = entries(&longest);
        [entries / 2, entries.saturating_sub(1), entries].map(|place| Call::Read { tile: longest, place })
    }

    /// The shape that the call bins, in units, where it has them.
    pub fn shape(&self) -> Option<Vec<Vertex>> {
        match self {
            Call::Bin { shape, .. } => Some(shape.clone()),
            Call::BinPixels { shape, .. } => model::unit::units(shape).ok(),
            _ => None,
        }
    }

    /// The call less the shapes of its list that these answers refuse for room; as it is, where there are none.
    pub fn less_no_room(&self, answers: &[u8]) -> Cow<'_, Call> {
        match self {
            Call::BinList(draw) if answers.iter().any(|&answer| no_room(answer)) => {
                Cow::Owned(Call::BinList(draw.less_no_room(answers)))
            }
            _ => Cow::Borrowed(self),
        }
    }

    /// The outcome that goes with this one in a pool with the same lists and so many blocks more, or fewer: the counts alone tell
    /// the blocks, and how many of them are free.
    pub fn with_more_blocks(&self, outcome: Outcome, more: i32) -> Outcome {
        match (self, outcome) {
            (Call::Counts, [number::DONE, tiles, blocks, free, entries]) => {
                [number::DONE, tiles, blocks.wrapping_add_signed(more), free.wrapping_add_signed(more), entries]
            }
            _ => outcome,
        }
    }

    /// The words that the call is lent to read lists into, before it is made on these words.
    fn lent(&self, words: &[u32]) -> Lent {
        // neither entries nor starts
        let filled = |starts, entries| Lent::filled(starts, entries, [0xF111_0000, 1]);
        let with = |words: usize, spare: i32| words.saturating_add_signed(spare as isize);
        match *self {
            Call::ReadList { tile, spare } => {
                let entries = said_entries(words).get(tile as usize).copied().unwrap_or(0);
                filled(0, with(entries, spare))
            }
            Call::ReadAll { spare: [starts, entries] } => {
                let said = said_entries(words);
                filled(with(said.len() + 1, starts), with(said.iter().sum::<usize>().min(1 << 20), entries))
            }
            _ => filled(0, 0),
        }
    }

    /// The bytes that the call is lent for answers, before it is made.
    fn untouched(&self) -> Answers {
        match self {
            Call::BinList(draw) => draw.untouched(),
            _ => Answers::untouched(0),
        }
    }

    /// The call with a smaller shape or a lower number.
    pub fn smaller(&self) -> Vec<Call> {
        match self {
            Call::Bin { id, shape } => {
                smaller::shapes(shape).into_iter().map(|shape| Call::Bin { id: *id, shape }).collect()
            }
            Call::BinPixels { id, shape } => {
                let units = model::unit::units(shape);
                units.into_iter().map(|shape| Call::Bin { id: *id, shape }).collect()
            }
            Call::BinList(draw) => draw.smaller().into_iter().map(Call::BinList).collect(),
            &Call::Read { tile, place } => {
                let tiles = smaller::lower(tile).into_iter().map(|tile| Call::Read { tile, place });
                tiles.chain(smaller::lower(place).into_iter().map(|place| Call::Read { tile, place })).collect()
            }
            &Call::ReadList { tile, spare } => {
                let tiles = smaller::lower(tile).into_iter().map(|tile| Call::ReadList { tile, spare });
                tiles.chain(nearer_zero(spare).into_iter().map(|spare| Call::ReadList { tile, spare })).collect()
            }
            Call::ReadAll { spare } => {
                let nearer = smaller::each(spare, |&spare| nearer_zero(spare)).into_iter();
                nearer.map(|spare| Call::ReadAll { spare: [spare[0], spare[1]] }).collect()
            }
            &Call::HighWater { tile } => {
                smaller::lower(tile).into_iter().map(|tile| Call::HighWater { tile }).collect()
            }
            &Call::Release { tile } => smaller::lower(tile).into_iter().map(|tile| Call::Release { tile }).collect(),
            Call::Open { .. } | Call::Audit | Call::Counts => Vec::new(),
        }
    }
}

/// A call, made so many times.
#[derive(Clone, Debug)]
pub struct Repeated(pub u32, pub Call);

impl Repeated {
    /// Every call of a list, one after the other.
    pub fn each(calls: &[Repeated]) -> impl Iterator<Item = &Call> {
        calls.iter().flat_map(|Repeated(times, call)| std::iter::repeat_n(call, *times as usize))
    }

    /// Fewer times, or a smaller call.
    pub fn smaller(&self) -> Vec<Repeated> {
        let Repeated(times, call) = self;
        let fewer = [1, times / 2, times - 1].into_iter().filter(|fewer| (1..*times).contains(fewer));
        let mut all: Vec<_> = fewer.map(|fewer| Repeated(fewer, call.clone())).collect();
        all.extend(call.smaller().into_iter().map(|call| Repeated(*times, call)));
        all
    }
}

/// A shape at a tile, out of range once in a while.
fn shape(random: &Random, screen: Screen, tile: u32) -> Vec<Vertex> {
    let shape = generate::shape(random, screen, tile);
    if random.once_in(40) {
        generate::out_of_range(random, shape)
    } else {
        shape
    }
}

/// The model's screen, as the wrapper has it.
pub fn screen_of(screen: Screen) -> flourscoop::Screen {
    flourscoop::Screen { width: screen.width, height: screen.height, s: screen.s }
}

/// The model's shape in units, as the wrapper has it.
pub fn shape_of(shape: &[Vertex]) -> Shape<flourscoop::Vertex> {
    let vertices: Vec<_> = shape.iter().map(|&[x, y]| flourscoop::Vertex { x, y }).collect();
    Shape::of(&vertices).unwrap()
}

/// The model's shape in pixels, as the wrapper has it.
pub fn pixels_of(shape: &[Pixel]) -> Shape<flourscoop::Pixel> {
    let pixel = |&[x, y]: &Pixel| flourscoop::Pixel { x: f32::from_bits(x), y: f32::from_bits(y) };
    Shape::of(&shape.iter().map(pixel).collect::<Vec<_>>()).unwrap()
}

/// Opens a pool on the archive, by the call of its edition.
pub fn open(words: &mut [u32], layout: Layout, screen: Screen, blocks: u32) -> Answer<[u32; 0]> {
    match layout {
        Layout::One => raw::open(words, screen_of(screen), blocks),
        Layout::Two { block_words } => raw::open_two(words, screen_of(screen), blocks, block_words),
    }
}

fn outcome<const VALUES: usize>(answer: Answer<[u32; VALUES]>) -> Outcome {
    let mut outcome = alone(answer.number);
    outcome[1..=VALUES].copy_from_slice(&answer.values);
    outcome
}

fn expected<const VALUES: usize>(answer: Result<[u32; VALUES], u32>) -> Outcome {
    answer.map_or_else(alone, done)
}

/// The answers to the questions whether a shape's box meets a tile, and how the shape covers it.
#[derive(Clone, Copy, PartialEq, Eq, Debug)]
pub struct Asked {
    pub boxed: Result<bool, u32>,
    pub cover: Result<Cover, u32>,
}

/// Asks the archive and the model both questions, and compares their answers.
pub fn ask(screen: Screen, tile: u32, shape: &[Vertex]) -> Result<Asked, String> {
    let boxed = question(screen, tile, shape, box_meets);
    let cover = question(screen, tile, shape, cover);
    let (archive_screen, archive_shape) = (screen_of(screen), shape_of(shape));
    let ways = [
        ("box", raw::box_touches(archive_screen, tile, archive_shape), boxed.map(u32::from)),
        ("corner", raw::corner_cover(archive_screen, tile, archive_shape), cover.map(|cover| cover as u32)),
    ];
    for (way, archive, model) in ways {
        let (archive, model) = (outcome(archive), expected(model.map(|value| [value])));
        if archive != model {
            return Err(format!("{way}: the archive gives {archive:?}, the model {model:?}"));
        }
    }
    Ok(Asked { boxed, cover })
}

/// Words lent to the archive, and what the model says of them.
pub struct Slot {
    pub words: Vec<u32>,
    /// what the words say, where they are a sound pool
    pub state: Option<State>,
    /// the bytes that the last call was lent for answers
    pub answers: Answers,
    /// the words that it was lent to read lists into
    pub lent: Lent,
    blocks: u32,
    expected: Vec<u32>,
}

impl Slot {
    /// A slot of these words, in which `Blocks::Own` means so many blocks.
    pub fn over(words: Vec<u32>, blocks: u32) -> Slot {
        let (answers, lent) = (Answers::untouched(0), Call::Audit.lent(&[]));
        Slot { state: State::read(&words).ok(), expected: words.clone(), blocks, answers, lent, words }
    }

    /// Makes the call on the archive alone, and compares nothing.
    pub fn on_archive(&mut self, call: &Call) -> Outcome {
        self.answers = call.untouched();
        self.lent = call.lent(&self.words);
        let (words, Lent { starts, entries }) = (&mut self.words[..], &mut self.lent);
        match call {
            &Call::Open { layout, screen, blocks } => outcome(open(words, layout, screen, blocks.count(self.blocks))),
            Call::Audit => outcome(raw::audit(words)),
            Call::Bin { id, shape } => outcome(raw::bin(words, *id, shape_of(shape))),
            Call::BinPixels { id, shape } => outcome(raw::bin_pixels(words, *id, pixels_of(shape))),
            Call::BinList(draw) => outcome(raw::bin_list(words, &draw.list.words(), self.answers.lent())),
            &Call::Read { tile, place } => outcome(raw::read(words, tile, place)),
            &Call::ReadList { tile, .. } => outcome(raw::read_list(words, tile, entries.lent())),
            Call::ReadAll { .. } => outcome(raw::read_all(words, starts.lent(), entries.lent())),
            Call::Counts => outcome(raw::counts(words)),
            &Call::HighWater { tile } => outcome(raw::high_water(words, tile)),
            &Call::Release { tile } => outcome(raw::release(words, tile)),
        }
    }

    fn on_model(&mut self, call: &Call, answers: &mut [u8], lent: &mut Lent) -> Outcome {
        if let &Call::Open { layout, screen, blocks } = call {
            let opened = State::open(self.words.len(), layout, screen, blocks.count(self.blocks));
            let answer = opened.map(|state| {
                self.state = Some(state);
                []
            });
            return expected(answer);
        }
        let Some(state) = &mut self.state else {
            return alone(number::UNSOUND);
        };
        match call {
            Call::Open { .. } | Call::Audit => expected(Ok([])),
            Call::Bin { id, shape } => expected(state.bin(*id, shape)),
            Call::BinPixels { id, shape } => expected(state.bin_pixels(*id, shape)),
            Call::BinList(draw) => expected(state.bin_list(&draw.list.words(), answers.len()).map(|numbers| {
                answers[..numbers.len()].copy_from_slice(&numbers);
                []
            })),
            &Call::Read { tile, place } => expected(state.entry_at(tile, place)),
            &Call::ReadList { tile, .. } => expected(state.read_list(tile, lent.entries.room()).map(|entries| {
                lent.entries.write(&entries);
                [entries.len() as u32]
            })),
            Call::ReadAll { .. } => expected(state.read_all(lent.starts.room(), lent.entries.room()).map(|frame| {
                lent.write(&frame);
                [frame.entries.len() as u32]
            })),
            Call::Counts => expected(Ok(state.counts())),
            &Call::HighWater { tile } => expected(state.high_water(tile).map(|mark| [mark])),
            &Call::Release { tile } => expected(state.release(tile).map(|blocks| [blocks])),
        }
    }

    /// Makes the call on both sides and compares the outcome, every answer byte, every word that it was lent to read into and
    /// every word of the pool.
    pub fn call(&mut self, call: &Call) -> Result<Outcome, String> {
        let (mut answers, mut lent) = (call.untouched(), call.lent(&self.words));
        let (archive, model) = (self.on_archive(call), self.on_model(call, answers.lent(), &mut lent));
        if let Some(state) = &self.state {
            let words = state.words();
            self.expected[..words.len()].copy_from_slice(&words);
        }
        if archive != model {
            return Err(format!("{call:?}: the archive gives {archive:?}, the model {model:?}"));
        }
        if let Some(wrong) = self.answers.other_than(&answers).or_else(|| self.lent.other_than(&lent)) {
            return Err(format!("{call:?}: {wrong}"));
        }
        let differs = (0..self.words.len()).find(|&at| self.words[at] != self.expected[at]);
        match differs {
            Some(at) => Err(format!(
                "{call:?}: word {at} is {:#x} in the archive's pool, {:#x} in the model's",
                self.words[at], self.expected[at]
            )),
            None => Ok(archive),
        }
    }
}
