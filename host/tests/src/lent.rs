//! Words lent to read lists into, with words on either side that are not lent.

use model::frame::Frame;
use model::layout::{Layout, WORDS_OF_TILE};

/// How many words stand on either side.
const BESIDE: usize = 3;

/// The words of a list or of the starts.
#[derive(Clone, PartialEq, Eq)]
pub struct Words(Vec<u32>);

impl Words {
    /// So many words to lend. Of all words the first is `filling[0]`, and each of the next is so much more as `filling[1]` says.
    pub fn filled(words: usize, [first, step]: [u32; 2]) -> Words {
        Words((0..(words + 2 * BESIDE) as u32).map(|at| first.wrapping_add(step.wrapping_mul(at))).collect())
    }

    /// How many words are lent.
    pub fn room(&self) -> usize {
        self.0.len() - 2 * BESIDE
    }

    pub fn lent(&mut self) -> &mut [u32] {
        let end = self.0.len() - BESIDE;
        &mut self.0[BESIDE..end]
    }

    /// Writes these words over the first that are lent.
    pub fn write(&mut self, words: &[u32]) {
        self.lent()[..words.len()].copy_from_slice(words);
    }

    /// Says the first word, counted from the first that is lent, that is another one in what is expected.
    pub fn other_than(&self, expected: &Words) -> Option<String> {
        let at = (0..self.0.len().max(expected.0.len())).find(|&at| self.0.get(at) != expected.0.get(at))?;
        let place = at as isize - BESIDE as isize;
        let (word, other) = (self.0.get(at), expected.0.get(at));
        Some(format!("word {place} of {} is {word:#x?} in place of {other:#x?}", self.room()))
    }
}

/// What a call is lent to read lists into.
#[derive(Clone, PartialEq, Eq)]
pub struct Lent {
    pub starts: Words,
    pub entries: Words,
}

impl Lent {
    /// So many words for the starts, and so many for the entries.
    pub fn filled(starts: usize, entries: usize, filling: [u32; 2]) -> Lent {
        Lent { starts: Words::filled(starts, filling), entries: Words::filled(entries, filling) }
    }

    /// Writes these lists over the first words of both.
    pub fn write(&mut self, frame: &Frame) {
        self.starts.write(&frame.starts);
        self.entries.write(&frame.entries);
    }

    /// Says the first word that is another one in what is expected.
    pub fn other_than(&self, expected: &Lent) -> Option<String> {
        let starts = self.starts.other_than(&expected.starts).map(|wrong| format!("starts: {wrong}"));
        starts.or_else(|| self.entries.other_than(&expected.entries).map(|wrong| format!("entries: {wrong}")))
    }
}

/// More entries than a list can have.
const MANY: u32 = 1 << 17;

/// How many entries the tile table of these words says that each tile has, or `MANY` where they are more; none where there is no
/// table. The words need not be a sound pool.
pub fn said_entries(words: &[u32]) -> Vec<usize> {
    let table = Layout::of(words).and_then(|layout| words.get(layout.header()..*words.get(7)? as usize));
    table.unwrap_or(&[]).chunks(WORDS_OF_TILE).map(|tile| tile[0].min(MANY) as usize).collect()
}
