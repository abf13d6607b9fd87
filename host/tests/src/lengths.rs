//! What a mark has to be, from the lists alone: the greatest length of the tile's list after any call since the opening.

use flourscoop::raw::{self, Answer};
use model::number;

use crate::call::{Call, Outcome, Slot};

/// How many marks the archive is asked for after a call.
const ASKED: usize = 16;

/// A slot whose marks are held against its lists.
pub struct Watched {
    pub slot: Slot,
    /// the greatest length that each list had since the opening; none before that
    greatest: Vec<u32>,
    /// after how many calls a list was shorter than it had been
    pub shorter: u64,
    /// the tile whose mark is asked for next
    next: usize,
}

impl Watched {
    pub fn over(slot: Slot) -> Watched {
        Watched { slot, greatest: Vec::new(), shorter: 0, next: 0 }
    }

    /// Makes the call on both sides, and compares the outcome, every word, and each mark with the greatest length.
    pub fn call(&mut self, call: &Call) -> Result<Outcome, String> {
        let answer = self.slot.call(call)?;
        let tiles = self.slot.state.as_ref().map_or(&[][..], |state| &state.tiles);
        if matches!(call, Call::Open { .. }) && answer[0] == number::DONE {
            self.greatest = vec![0; tiles.len()];
        }
        let lengths = || tiles.iter().map(|tile| tile.entries.len() as u32);
        for (greatest, length) in self.greatest.iter_mut().zip(lengths()) {
            *greatest = length.max(*greatest);
        }
        self.shorter += u64::from(!lengths().eq(self.greatest.iter().copied()));
        self.marks().map_err(|wrong| format!("after {call:?}: {wrong}"))?;
        Ok(answer)
    }

    /// Compares each mark as it stands in the words, and some, all in turn, as the archive tells them.
    fn marks(&mut self) -> Result<(), String> {
        let Some(state) = &self.slot.state else {
            return Ok(());
        };
        let tiles = self.greatest.len();
        let in_words = |tile: usize| self.slot.words[state.layout.mark_at(tile as u32)];
        let told = |tile: usize| raw::high_water(&self.slot.words, tile as u32);
        let asked = (self.next..self.next + ASKED.min(tiles)).map(|tile| tile % tiles);
        let is_told = |tile: usize| told(tile) == Answer { number: number::DONE, values: [self.greatest[tile]] };
        let in_words_wrong = (0..tiles).find(|&tile| in_words(tile) != self.greatest[tile]);
        let wrong = in_words_wrong.or_else(|| asked.into_iter().find(|&tile| !is_told(tile)));
        if let Some(tile) = wrong {
            return Err(format!(
                "the list of tile {tile} had {} entries at most; its mark is {}, and the archive tells {:?}",
                self.greatest[tile],
                in_words(tile),
                told(tile)
            ));
        }
        self.next += ASKED;
        Ok(())
    }
}
