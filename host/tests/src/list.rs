//! Lists of shapes, without ids and with them, most of them where a total or a refusal turns; those without, counted by the
//! archive and by the model side by side.

use flourscoop::raw::{self, Answer};
use flourscoop::Overlaps;
use model::overlaps::{overlaps, Totals};
use model::screen::Screen;
use model::shapes::{faults, vertices, WORDS_OF_BIN, WORDS_OF_SHAPE};
use model::{number, Vertex, UNITS};

use crate::call::screen_of;
use crate::generate;
use crate::random::Random;
use crate::smaller::{self, each, fewer, nearer_zero};

/// A shape as a list without ids has it.
pub type Words = [i32; WORDS_OF_SHAPE];

/// A shape as a list with ids has it.
pub type BinWords = [i32; WORDS_OF_BIN];

/// A triangle over every screen.
pub const COVERING: Words = [3, -262_144, -262_144, 262_143, -262_144, 0, 262_143];
/// A point of the first tile.
pub const POINT: Words = [1, 5, 5, 0, 0, 0, 0];

/// A list of so many words to a shape: shapes, each so many times in a row, and words past the last of them.
#[derive(Clone, PartialEq, Eq, Debug)]
pub struct List<const WORDS: usize> {
    pub shapes: Vec<(usize, [i32; WORDS])>,
    pub rest: Vec<i32>,
}

/// A list without ids, and a screen.
#[derive(Clone, Debug)]
pub struct OnScreen {
    pub screen: Screen,
    pub list: List<WORDS_OF_SHAPE>,
}

/// The model's shape, as a list has it.
pub fn words_of(shape: &[Vertex]) -> Words {
    let mut words = [0; WORDS_OF_SHAPE];
    words[0] = shape.len() as i32;
    words[1..=2 * shape.len()].copy_from_slice(shape.as_flattened());
    words
}

/// A shape with an id.
pub fn bin_words([kind, x1, y1, x2, y2, x3, y3]: Words, id: i32) -> BinWords {
    [kind, x1, y1, x2, y2, x3, y3, id]
}

/// The model's totals, as the wrapper has them.
pub fn overlaps_of(totals: Totals) -> Overlaps {
    let narrow = |total: u128| u32::try_from(total).unwrap();
    let wide = |total: u128| u64::try_from(total).unwrap();
    Overlaps {
        shapes: narrow(totals.shapes),
        out_of_range: narrow(totals.out_of_range),
        box_tiles: wide(totals.box_tiles),
        touched_tiles: wide(totals.touched_tiles),
        difference: wide(totals.difference),
        largest: narrow(totals.largest),
        place: narrow(totals.place),
    }
}

/// A shape whose coordinates are at the ends of the range, a unit to either side of them, or on the screen.
fn at_the_ends(random: &Random, vertices: usize) -> Vec<Vertex> {
    let (low, high) = (*UNITS.start(), *UNITS.end());
    let along = || random.pick(&[low - 1, low, low, low + 1, 0, 100, high - 1, high, high, high + 1]);
    (0..vertices).map(|_| [along(), along()]).collect()
}

/// A shape at a tile of the screen, and then and now one at the ends of the range, past them, with vertices that coincide, or
/// over the whole screen.
pub fn shape(random: &Random, screen: Screen) -> Vec<Vertex> {
    let shape = generate::shape(random, screen, generate::tile(random, screen));
    let (first, last) = (shape[0], shape[shape.len() - 1]);
    match random.below(16) {
        0 => at_the_ends(random, shape.len()),
        1 => generate::out_of_range(random, shape),
        2 => {
            random.pick(&[[first; 3], [first, last, first], [last, first, first]])[random.below(2) as usize..].to_vec()
        }
        3 => vertices(&COVERING),
        _ => shape,
    }
}

/// A kind that there is not; some would be one if it were cut to fewer bits.
fn wrong_kind(random: &Random) -> i32 {
    random.pick(&[0, 4, -1, i32::MIN, i32::MAX, 5, 7, -3, 1 << 8 | 1, 1 << 16 | 2, 1 << 24 | 3, i32::MIN | 1])
}

/// A word that is not zero; some would be if they were cut to fewer bits.
fn not_zero(random: &Random) -> i32 {
    random.pick(&[1, -1, i32::MIN, i32::MAX, 1 << 8, 1 << 16, 100])
}

impl List<WORDS_OF_SHAPE> {
    /// A list without a fault, of at most so many different shapes. Some of them are an earlier one with its vertices in
    /// another order, which touches as many tiles.
    pub fn make(random: &Random, screen: Screen, most: u32) -> Self {
        let mut different: Vec<Vec<Vertex>> = Vec::new();
        for _ in 0..random.below(most + 1) {
            let mut another = shape(random, screen);
            if !different.is_empty() && random.once_in(4) {
                another.clone_from(&different[random.below(different.len() as u32) as usize]);
                random.shuffle(&mut another);
            }
            different.push(another);
        }
        let times = |shape: Vec<Vertex>| (random.pick(&[1, 1, 1, 1, 1, 1, 2, 3]), words_of(&shape));
        List { shapes: different.into_iter().map(times).collect(), rest: Vec::new() }
    }

    /// The same shapes with ids.
    pub fn with_ids(self, random: &Random) -> List<WORDS_OF_BIN> {
        let with_id = |(times, words)| (times, bin_words(words, generate::listed_id(random)));
        List { shapes: self.shapes.into_iter().map(with_id).collect(), rest: self.rest }
    }
}

impl<const WORDS: usize> List<WORDS> {
    /// The list with a fault: a wrong kind, a word that is not zero where the kind has no vertex, or a part of a shape.
    pub fn with_fault(mut self, random: &Random) -> Self {
        let shapes = self.shapes.len() as u32;
        let fault = random.below(3);
        if shapes == 0 || fault == 0 {
            let part = random.pick(&[COVERING, POINT]);
            self.rest = part[..1 + random.below(WORDS as u32 - 1) as usize].to_vec();
            return self;
        }
        let place = random.pick(&[random.below(shapes), shapes - 1]) as usize;
        let (times, words) = &mut self.shapes[place];
        *times = 1;
        if fault == 1 {
            *words = random.pick(&[*words, [0; WORDS]]);
            words[0] = wrong_kind(random);
        } else {
            words[0] = words[0].min(random.pick(&[1, 2]));
            let first_unused = 1 + 2 * words[0] as usize;
            words[first_unused..WORDS_OF_SHAPE].fill(0);
            words[first_unused + random.below((WORDS_OF_SHAPE - first_unused) as u32) as usize] = not_zero(random);
        }
        self
    }

    /// How many whole shapes the list has.
    pub fn shape_count(&self) -> usize {
        self.shapes.iter().map(|(times, _)| times).sum()
    }

    /// The words of the list.
    pub fn words(&self) -> Vec<i32> {
        let mut list = Vec::new();
        for (times, words) in &self.shapes {
            list.extend(std::iter::repeat_n(words, *times).flatten());
        }
        list.extend(&self.rest);
        list
    }

    /// Lists with fewer or smaller shapes, or fewer words past them.
    pub fn smaller(&self) -> Vec<Self> {
        let with_shapes = |shapes| List { shapes, ..self.clone() };
        let mut all: Vec<_> = fewer(&self.shapes).into_iter().map(with_shapes).collect();
        all.extend(fewer(&self.rest).into_iter().map(|rest| List { rest, ..self.clone() }));
        let smaller = |&(times, words): &(usize, [i32; WORDS])| {
            let fewer = [1, times / 2, times - 1].into_iter().filter(|fewer| (1..times).contains(fewer));
            let smaller = smaller_words(&words).into_iter().map(|words| (times, words));
            fewer.map(|fewer| (fewer, words)).chain(smaller).collect()
        };
        all.extend(each(&self.shapes, smaller).into_iter().map(with_shapes));
        all
    }
}

impl OnScreen {
    /// Counts the list on the archive and on the model, compares every value, and sees that no word of it was written.
    pub fn count(&self) -> Result<Answer<Overlaps>, String> {
        let list = self.list.words();
        let archive = raw::overlaps(screen_of(self.screen), &list);
        let model = match overlaps(self.screen, &list) {
            Ok(totals) => Answer { number: number::DONE, values: overlaps_of(totals) },
            Err(number) => Answer { number, values: overlaps_of(Totals::default()) },
        };
        if archive != model {
            return Err(format!("the archive gives {archive:?}, the model {model:?}"));
        }
        if std::hint::black_box(&list) != &self.list.words() {
            return Err("a word of the list was written".into());
        }
        Ok(archive)
    }

    /// A smaller list, or a smaller screen.
    pub fn smaller(&self) -> Vec<OnScreen> {
        let &OnScreen { screen, ref list } = self;
        let mut all: Vec<_> = list.smaller().into_iter().map(|list| OnScreen { screen, list }).collect();
        if screen.allowed() {
            all.extend(smaller::screens(screen).into_iter().map(|screen| OnScreen { screen, ..self.clone() }));
        }
        all
    }
}

/// Smaller shapes and numbers nearer to zero past them or, where the words have a fault, all words nearer to zero.
fn smaller_words<const WORDS: usize>(words: &[i32; WORDS]) -> Vec<[i32; WORDS]> {
    let from = |place: usize| {
        let nearer = each(&words[place..], |&word| nearer_zero(word)).into_iter();
        nearer.map(move |rest| [&words[..place], &rest[..]].concat().try_into().unwrap())
    };
    if faults(words, WORDS).next().is_some() {
        return from(0).collect();
    }
    let with_shape = |shape: Vec<Vertex>| {
        let mut other = *words;
        other[..WORDS_OF_SHAPE].copy_from_slice(&words_of(&shape));
        other
    };
    smaller::shapes(&vertices(words)).into_iter().map(with_shape).chain(from(WORDS_OF_SHAPE)).collect()
}
