//! The opening of a list, of either edition.

use flourscoop::{room, room_two, Pool, Refusal, Screen};

/// An opening: of edition two where it says the words per block.
pub struct Opening {
    pub screen: Screen,
    pub blocks: u32,
    pub block_words: Option<u32>,
}

impl Opening {
    /// The words that such a pool with so many blocks needs, or why there is none.
    pub fn room(&self, blocks: u32) -> Result<usize, Refusal> {
        match self.block_words {
            None => room(self.screen, blocks),
            Some(block_words) => room_two(self.screen, blocks, block_words),
        }
    }

    /// The opened pool, or why it is refused.
    pub fn open<'a>(&self, words: &'a mut [u32]) -> Result<Pool<'a>, Refusal> {
        match self.block_words {
            None => Pool::open(words, self.screen, self.blocks),
            Some(block_words) => Pool::open_two(words, self.screen, self.blocks, block_words),
        }
    }

    /// How many entries a block holds, where the opening is accepted.
    pub fn ids_of_block(&self) -> u32 {
        self.block_words.unwrap_or(32) - 1
    }
}
