//! The pool: a state with a vector for each list and each chain, the words that say it, and the state that words say.

use std::collections::{BTreeMap, VecDeque};
use std::fmt;

use crate::cover::{covered, Cover};
use crate::layout::Layout;
use crate::runs::Runs;
use crate::screen::Screen;
use crate::stepping::tests;
use crate::touch::in_range;
use crate::unit::units;
use crate::{number, Pixel, Vertex};

pub const MOST_BLOCKS: u32 = 2048;
pub const MOST_ID: u32 = 16_777_215;
/// The flag of an entry: what it has beside the id where its tile is wholly covered.
pub const WHOLE: u32 = 16_777_216;
pub const MOST_ENTRY: u32 = 33_554_431;
pub const POISON: u32 = 0xDEAD_BEEF;

/// A tile: the blocks of its chain and the entries of its list, both in order, and its mark.
#[derive(Clone, Default, PartialEq, Eq)]
pub struct Tile {
    pub blocks: Vec<u32>,
    pub entries: Vec<u32>,
    /// the most entries that the list had since the opening
    pub mark: u32,
}

impl fmt::Debug for Tile {
    fn fmt(&self, f: &mut fmt::Formatter) -> fmt::Result {
        let Tile { blocks, entries, mark } = self;
        let mut tile = f.debug_struct("Tile");
        tile.field("blocks", &Runs(blocks)).field("entries", &Runs(entries)).field("mark", mark).finish()
    }
}

/// What a sound pool says.
#[derive(Clone, PartialEq, Eq)]
pub struct State {
    pub layout: Layout,
    pub screen: Screen,
    pub blocks: u32,
    /// the blocks of the free chain, in order
    pub free: VecDeque<u32>,
    pub tiles: Vec<Tile>,
}

impl fmt::Debug for State {
    fn fmt(&self, f: &mut fmt::Formatter) -> fmt::Result {
        let free: Vec<u32> = self.free.iter().copied().collect();
        // a tile that never had an entry is not shown
        let tiles: BTreeMap<usize, &Tile> =
            self.tiles.iter().enumerate().filter(|(_, tile)| **tile != Tile::default()).collect();
        let mut state = f.debug_struct("State");
        state.field("layout", &self.layout).field("screen", &self.screen).field("blocks", &self.blocks);
        state.field("free", &Runs(&free)).field("tiles", &tiles).finish()
    }
}

/// What in a slice is not as the sentences on soundness have it.
#[derive(Clone, Copy, PartialEq, Eq, Debug)]
pub enum Fault {
    /// words 0 to 3, or those from word 6 to the end of the header, are not as an accepted opening would write them
    Header,
    /// the slice is not long enough
    Short,
    /// a chain does not lead from block to block to link 0
    Link,
    /// a chain has not as many blocks as the entries of its tile need
    Entries,
    /// the last block of a chain is not named rightly
    Last,
    /// the free chain has not F blocks
    Free,
    /// a block does not stand in exactly one chain, once
    Once,
    /// one of the first q places of a chain holds no id in range, with the flag or without
    Id,
    /// another place does not hold poison
    Poison,
    /// a mark is below the entries of its tile, or above what all blocks hold
    Mark,
}

/// The link that names a block, or none.
fn link(block: Option<&u32>) -> u32 {
    block.map_or(0, |block| block + 1)
}

/// Words that are read as a pool.
struct Reading<'a> {
    words: &'a [u32],
    layout: Layout,
    screen: Screen,
    blocks: u32,
}

impl Reading<'_> {
    /// The blocks of the chain that starts with a link, up to link 0.
    fn chain(&self, first: u32) -> Result<Vec<u32>, Fault> {
        let mut chain = Vec::new();
        let mut link = first;
        while link != 0 {
            // a chain that is longer than all blocks comes back to one of its own
            if link > self.blocks || chain.len() as u32 == self.blocks {
                return Err(Fault::Link);
            }
            chain.push(link - 1);
            link = self.words[self.layout.link_at(self.screen, link - 1)];
        }
        Ok(chain)
    }

    /// The places of a chain, one block after the other.
    fn places(&self, chain: &[u32]) -> Vec<u32> {
        let places = |&block| &self.words[self.layout.places_at(self.screen, block)];
        chain.iter().flat_map(places).copied().collect()
    }

    /// The tile that four words of the table say.
    fn tile(&self, tile: u32) -> Result<Tile, Fault> {
        let ids_of_block = self.layout.ids_of_block();
        let at = self.layout.tile_at(tile);
        let count = self.words[at] as usize;
        let chain = self.chain(self.words[at + 1])?;
        if chain.len() != count.div_ceil(ids_of_block) {
            return Err(Fault::Entries);
        }
        if self.words[at + 2] != link(chain.last()) {
            return Err(Fault::Last);
        }
        let places = self.places(&chain);
        let (entries, rest) = places.split_at(count);
        if entries.iter().any(|&entry| entry > MOST_ENTRY) {
            return Err(Fault::Id);
        }
        if rest.iter().any(|&word| word != POISON) {
            return Err(Fault::Poison);
        }
        let mark = self.words[self.layout.mark_at(tile)];
        if !(count..=ids_of_block * self.blocks as usize).contains(&(mark as usize)) {
            return Err(Fault::Mark);
        }
        Ok(Tile { blocks: chain, entries: entries.to_vec(), mark })
    }
}

impl State {
    /// The state of a pool that was just opened.
    pub fn opened(layout: Layout, screen: Screen, blocks: u32) -> State {
        let tiles = vec![Tile::default(); screen.tiles() as usize];
        State { layout, screen, blocks, free: (0..blocks).collect(), tiles }
    }

    /// What the opening of a layout answers of a slice with so many words: the state, or the number of the refusal.
    pub fn open(words: usize, layout: Layout, screen: Screen, blocks: u32) -> Result<State, u32> {
        if !screen.allowed() {
            return Err(number::SCREEN);
        }
        if blocks > MOST_BLOCKS || !layout.allowed() {
            return Err(number::BLOCKS);
        }
        if words < layout.room(screen, blocks) {
            return Err(number::SHORT);
        }
        Ok(State::opened(layout, screen, blocks))
    }

    /// How many blocks the longest chain of a tile has.
    pub fn longest_chain(&self) -> usize {
        self.tiles.iter().map(|tile| tile.blocks.len()).max().unwrap_or(0)
    }

    /// How many entries have the flag.
    pub fn whole_entries(&self) -> usize {
        self.tiles.iter().flat_map(|tile| &tile.entries).filter(|&&entry| entry >= WHOLE).count()
    }

    /// All words of the pool.
    pub fn words(&self) -> Vec<u32> {
        let Screen { width, height, s } = self.screen;
        let mut words = vec![width, height, s, self.blocks, self.free.len() as u32, link(self.free.front())];
        words.extend(self.layout.from_word_6(self.screen));
        for tile in &self.tiles {
            words.extend([tile.entries.len() as u32, link(tile.blocks.first()), link(tile.blocks.last()), tile.mark]);
        }
        words.resize(self.layout.room(self.screen, self.blocks), POISON);
        let free: Vec<u32> = self.free.iter().copied().collect();
        self.write_chain(&mut words, &free, &[]);
        for tile in &self.tiles {
            self.write_chain(&mut words, &tile.blocks, &tile.entries);
        }
        words
    }

    /// Writes the entries and the links of a chain.
    fn write_chain(&self, words: &mut [u32], chain: &[u32], entries: &[u32]) {
        for (k, &block) in chain.iter().enumerate() {
            words[self.layout.link_at(self.screen, block)] = link(chain.get(k + 1));
        }
        for (&block, held) in chain.iter().zip(entries.chunks(self.layout.ids_of_block())) {
            words[self.layout.places_at(self.screen, block)][..held.len()].copy_from_slice(held);
        }
    }

    /// The state that a slice says, where it is a sound pool.
    pub fn read(words: &[u32]) -> Result<State, Fault> {
        let &[width, height, s, blocks, free_count, free_first, _, _, ..] = words else {
            return Err(Fault::Short);
        };
        let screen = Screen { width, height, s };
        let layout = Layout::of(words).filter(|layout| layout.allowed()).ok_or(Fault::Header)?;
        if !screen.allowed() || blocks > MOST_BLOCKS || !words[6..].starts_with(&layout.from_word_6(screen)) {
            return Err(Fault::Header);
        }
        if words.len() < layout.room(screen, blocks) {
            return Err(Fault::Short);
        }
        let reading = Reading { words, layout, screen, blocks };
        let tiles = (0..screen.tiles()).map(|tile| reading.tile(tile)).collect::<Result<Vec<Tile>, Fault>>()?;
        let free = reading.chain(free_first)?;
        if free.len() as u32 != free_count {
            return Err(Fault::Free);
        }
        let mut standing: Vec<u32> = tiles.iter().flat_map(|tile| &tile.blocks).chain(&free).copied().collect();
        standing.sort_unstable();
        if !standing.into_iter().eq(0..blocks) {
            return Err(Fault::Once);
        }
        if reading.places(&free).iter().any(|&word| word != POISON) {
            return Err(Fault::Poison);
        }
        Ok(State { layout, screen, blocks, free: free.into(), tiles })
    }

    /// Tiles listed, blocks taken and tests made, or the number of the refusal, which changes nothing.
    pub fn bin(&mut self, id: u32, shape: &[Vertex]) -> Result<[u32; 3], u32> {
        if id > MOST_ID {
            return Err(number::ID);
        }
        if !in_range(shape) {
            return Err(number::OUT_OF_RANGE);
        }
        let covered = covered(self.screen, shape);
        let ids_of_block = self.layout.ids_of_block();
        let takes_block = |tile: &Tile| tile.entries.len() % ids_of_block == 0;
        let need = covered.iter().filter(|&&(tile, _)| takes_block(&self.tiles[tile as usize])).count();
        if need > self.free.len() {
            return Err(number::NO_ROOM);
        }
        for &(number, cover) in &covered {
            let tile = &mut self.tiles[number as usize];
            if takes_block(tile) {
                tile.blocks.extend(self.free.pop_front());
            }
            tile.entries.push(if cover == Cover::Wholly { id + WHOLE } else { id });
            tile.mark = tile.mark.max(tile.entries.len() as u32);
        }
        Ok([covered.len() as u32, need as u32, tests(self.screen, shape)])
    }

    /// The same of a shape in pixels.
    pub fn bin_pixels(&mut self, id: u32, shape: &[Pixel]) -> Result<[u32; 3], u32> {
        if id > MOST_ID {
            return Err(number::ID);
        }
        self.bin(id, &units(shape)?)
    }

    /// The id at a place of a tile's list, and 1 where it has the flag, else 0.
    pub fn entry_at(&self, tile: u32, place: u32) -> Result<[u32; 2], u32> {
        let tile = self.tiles.get(tile as usize).ok_or(number::NO_TILE)?;
        let &entry = tile.entries.get(place as usize).ok_or(number::NO_PLACE)?;
        Ok(entry.checked_sub(WHOLE).map_or([entry, 0], |id| [id, 1]))
    }

    /// The mark of a tile.
    pub fn high_water(&self, tile: u32) -> Result<u32, u32> {
        self.tiles.get(tile as usize).map(|tile| tile.mark).ok_or(number::NO_TILE)
    }

    /// The blocks that a tile gives back, each made the new head of the free chain. The tile keeps its mark.
    pub fn release(&mut self, tile: u32) -> Result<u32, u32> {
        let tile = self.tiles.get_mut(tile as usize).ok_or(number::NO_TILE)?;
        tile.entries.clear();
        let blocks = std::mem::take(&mut tile.blocks);
        for &block in &blocks {
            self.free.push_front(block);
        }
        Ok(blocks.len() as u32)
    }
}
