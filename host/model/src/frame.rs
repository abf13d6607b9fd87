//! A list, all lists and the counts of a pool: of a state, and of any words.

use crate::number;
use crate::pool::State;

/// The lists of all tiles: where each starts, and behind these where the last one ends; and their entries, one list after the
/// other.
#[derive(Clone, PartialEq, Eq, Debug)]
pub struct Frame {
    pub starts: Vec<u32>,
    pub entries: Vec<u32>,
}

impl State {
    /// The entries of a tile's list, where so many words are lent for them; or the number of the refusal.
    pub fn read_list(&self, tile: u32, room: usize) -> Result<Vec<u32>, u32> {
        let tile = self.tiles.get(tile as usize).ok_or(number::NO_TILE)?;
        if room < tile.entries.len() {
            return Err(number::BUFFER);
        }
        Ok(tile.entries.clone())
    }

    /// How many entries the lists of the first so many tiles have.
    fn entries_before(&self, tile: usize) -> usize {
        self.tiles[..tile].iter().map(|tile| tile.entries.len()).sum()
    }

    /// The lists of all tiles.
    pub fn frame(&self) -> Frame {
        let tiles = self.tiles.len();
        Frame {
            starts: (0..=tiles).map(|tile| self.entries_before(tile) as u32).collect(),
            entries: self.tiles.iter().flat_map(|tile| &tile.entries).copied().collect(),
        }
    }

    /// The same, where so many words are lent for the starts and so many for the entries; or the number of the refusal.
    pub fn read_all(&self, starts_room: usize, entries_room: usize) -> Result<Frame, u32> {
        let tiles = self.tiles.len();
        if starts_room <= tiles || entries_room < self.entries_before(tiles) {
            return Err(number::BUFFER);
        }
        Ok(self.frame())
    }

    /// Tiles, blocks, free blocks and the entries of all lists.
    pub fn counts(&self) -> [u32; 4] {
        [self.tiles.len(), self.blocks as usize, self.free.len(), self.entries_before(self.tiles.len())]
            .map(|count| count as u32)
    }
}

/// The state that words say, or the number of the refusal of every call on them.
fn sound(words: &[u32]) -> Result<State, u32> {
    State::read(words).map_err(|_| number::UNSOUND)
}

/// The entries of a tile's list in these words, where so many words are lent for them; or the number of the refusal.
pub fn read_list(words: &[u32], tile: u32, room: usize) -> Result<Vec<u32>, u32> {
    sound(words)?.read_list(tile, room)
}

/// The lists of all tiles in these words, where so many words are lent for the starts and so many for the entries; or the number
/// of the refusal.
pub fn read_all(words: &[u32], starts_room: usize, entries_room: usize) -> Result<Frame, u32> {
    sound(words)?.read_all(starts_room, entries_room)
}

/// Tiles, blocks, free blocks and the entries of all lists in these words; or the number of the refusal.
pub fn counts(words: &[u32]) -> Result<[u32; 4], u32> {
    Ok(sound(words)?.counts())
}
