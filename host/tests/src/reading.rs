//! The words of a pool, read at once by the archive and by the wrapper, and compared with what is expected; every word that is
//! lent, those beside them and those of the pool included.

use std::hint::black_box;

use flourscoop::raw::{self, Answer};
use flourscoop::{Counts, Entry, Pool, Refusal};
use model::frame::Frame;
use model::number;

use crate::lent::{Lent, Words};

/// What is lent is filled with zeros, ones, poison, words that are entries, and words that are none, each in turn.
pub const FILLINGS: [[u32; 2]; 5] = [[0, 0], [u32::MAX, 0], [0xDEAD_BEEF, 0], [16_777_200, 1], [0xF111_0000, 7]];

/// The answer of a call that is to write these entries, or to be refused with this number.
fn answer<T>(expected: Result<T, u32>, entries: impl Fn(T) -> usize) -> Answer<[u32; 1]> {
    match expected {
        Ok(read) => Answer { number: number::DONE, values: [entries(read) as u32] },
        Err(number) => Answer { number, values: [0] },
    }
}

/// Says that something of a call is other than expected, where it is.
fn compare<T: PartialEq + std::fmt::Debug>(what: &str, given: &T, expected: &T) -> Result<(), String> {
    if given == expected {
        return Ok(());
    }
    // long lists are cut
    let text = |value: &T| format!("{value:?}").chars().take(400).collect::<String>();
    Err(format!("{what}: {} in place of {}", text(given), text(expected)))
}

/// The words of a pool.
pub struct Reading {
    words: Vec<u32>,
    before: Vec<u32>,
}

impl Reading {
    pub fn over(words: &[u32]) -> Reading {
        Reading { words: words.to_vec(), before: words.to_vec() }
    }

    /// Reads a tile's list into so many words with this filling, which should give these entries or this number.
    pub fn list(
        &mut self,
        filling: [u32; 2],
        tile: u32,
        room: usize,
        expected: Result<&[u32], u32>,
    ) -> Result<(), String> {
        let what = format!("the list of tile {tile} in {room} words");
        let unread = Words::filled(room, filling);
        let (mut right, [mut lent, mut wrapped]) = (unread.clone(), [unread.clone(), unread]);
        if let Ok(entries) = expected {
            right.write(entries);
        }
        let given = raw::read_list(&self.words, tile, lent.lent());
        compare(&what, &given, &answer(expected, |entries: &[u32]| entries.len()))?;
        let by_wrapper = Pool::over(&mut self.words).read_list(tile, wrapped.lent());
        let by_wrapper = by_wrapper.map(|entries| entries.map(Entry::word).collect()).map_err(Refusal::number);
        compare(&format!("{what}, by the wrapper"), &by_wrapper, &expected.map(<[u32]>::to_vec))?;
        let wrong = lent.other_than(&right).or_else(|| wrapped.other_than(&right));
        self.stays(&what, wrong)
    }

    /// Reads all lists into so many words for the starts and for the entries with this filling, which should give this frame or
    /// this number.
    pub fn frame(
        &mut self,
        filling: [u32; 2],
        [starts, entries]: [usize; 2],
        expected: Result<&Frame, u32>,
    ) -> Result<(), String> {
        let what = format!("all lists in {starts} and {entries} words");
        let unread = Lent::filled(starts, entries, filling);
        let (mut right, [mut lent, mut wrapped]) = (unread.clone(), [unread.clone(), unread]);
        if let Ok(frame) = expected {
            right.write(frame);
        }
        let given = raw::read_all(&self.words, lent.starts.lent(), lent.entries.lent());
        compare(&what, &given, &answer(expected, |frame: &Frame| frame.entries.len()))?;
        let by_wrapper = Pool::over(&mut self.words).read_all(wrapped.starts.lent(), wrapped.entries.lent());
        let by_wrapper = by_wrapper.map_err(Refusal::number).map(|frame| {
            let (starts, entries) = (frame.starts().to_vec(), frame.words().to_vec());
            let tiles = frame.iter().map(|(tile, entries)| (tile, entries.map(Entry::word).collect::<Vec<_>>()));
            (tiles.collect::<Vec<_>>(), Frame { starts, entries })
        });
        let in_tiles = |frame: &Frame| {
            let list = |ends: &[u32]| frame.entries[ends[0] as usize..ends[1] as usize].to_vec();
            ((0..).zip(frame.starts.windows(2).map(list)).collect::<Vec<_>>(), frame.clone())
        };
        compare(&format!("{what}, by the wrapper"), &by_wrapper, &expected.map(in_tiles))?;
        let wrong = lent.other_than(&right).or_else(|| wrapped.other_than(&right));
        self.stays(&what, wrong)
    }

    /// Counts, which should give tiles, blocks, free blocks and entries, or this number.
    pub fn counts(&mut self, expected: Result<[u32; 4], u32>) -> Result<(), String> {
        let answer = match expected {
            Ok(values) => Answer { number: number::DONE, values },
            Err(number) => Answer { number, values: [0; 4] },
        };
        compare("counts", &raw::counts(&self.words), &answer)?;
        let by_wrapper = Pool::over(&mut self.words).counts().map_err(Refusal::number);
        let counts = |[tiles, blocks, free, entries]: [u32; 4]| Counts { tiles, blocks, free, entries };
        compare("counts, by the wrapper", &by_wrapper, &expected.map(counts))?;
        self.stays("counts", None)
    }

    /// Says what is wrong with the words that were lent, or that a word of the pool was written.
    fn stays(&self, what: &str, wrong: Option<String>) -> Result<(), String> {
        let written = || (black_box(&self.words) != &self.before).then(|| "a word of the pool was written".into());
        wrong.or_else(written).map_or(Ok(()), |wrong: String| Err(format!("{what}: {wrong}")))
    }

    /// Reads a tile's list place by place, up to where it ends or to so many places from either end, and its mark: the entries are
    /// these, and the mark is no less.
    pub fn singly(&self, tile: u32, entries: &[u32], most: usize) -> Result<(), String> {
        let count = entries.len();
        for place in (0..count).filter(|place| place.min(&(count - 1 - place)) < &most) {
            let read = raw::read(&self.words, tile, place as u32);
            let Entry { id, whole } = Entry::of(entries[place]);
            let expected = Answer { number: number::DONE, values: [id, u32::from(whole)] };
            compare(&format!("the read of place {place} in tile {tile}"), &read, &expected)?;
        }
        let past = raw::read(&self.words, tile, count as u32).number;
        compare(&format!("the read past the list of tile {tile}"), &past, &number::NO_PLACE)?;
        match raw::high_water(&self.words, tile) {
            Answer { number: number::DONE, values: [mark] } if count <= mark as usize => Ok(()),
            mark => Err(format!("tile {tile} has {count} entries and the mark {mark:?}")),
        }
    }
}
