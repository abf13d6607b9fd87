//! A list of shapes with their ids, binned one by one.

use crate::number;
use crate::pool::State;
use crate::shapes::{faults, vertices, WORDS_OF_BIN};

impl State {
    /// The number that each shape of a list gets, binned one after the other; or the number of the refusal of them all, which
    /// changes nothing. There are so many bytes for the answers.
    pub fn bin_list(&mut self, list: &[i32], bytes: usize) -> Result<Vec<u8>, u32> {
        if faults(list, WORDS_OF_BIN).next().is_some() {
            return Err(number::LIST);
        }
        let bins = list.chunks(WORDS_OF_BIN);
        if bytes < bins.len() {
            return Err(number::BUFFER);
        }
        Ok(bins.map(|words| self.bin_words(words) as u8).collect())
    }

    /// The number that a shape gets whose words have the id last.
    fn bin_words(&mut self, words: &[i32]) -> u32 {
        let id = u32::try_from(words[WORDS_OF_BIN - 1]).map_err(|_| number::ID);
        let binned = id.and_then(|id| self.bin(id, &vertices(words)));
        binned.err().unwrap_or(number::DONE)
    }
}
