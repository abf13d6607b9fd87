//! The layouts of a pool: where its words stand, over its edition and the words per block.

use std::ops::Range;

use crate::screen::Screen;

pub const WORDS_OF_TILE: usize = 4;

/// The edition of a pool, and the words per block where the edition leaves them open.
#[derive(Clone, Copy, PartialEq, Eq, PartialOrd, Ord, Debug)]
pub enum Layout {
    One,
    Two { block_words: u32 },
}

/// The layouts that a pool can have.
pub const LAYOUTS: [Layout; 3] = [Layout::One, Layout::Two { block_words: 32 }, Layout::Two { block_words: 64 }];

impl Layout {
    /// Whether a pool can have this layout.
    pub fn allowed(self) -> bool {
        LAYOUTS.contains(&self)
    }

    /// The layout that words say, by word 6 and, in edition two, word 8; none where they do not tell.
    pub fn of(words: &[u32]) -> Option<Layout> {
        match (words.get(6)?, words.get(8)) {
            (8, _) => Some(Layout::One),
            (10, Some(&block_words)) => Some(Layout::Two { block_words }),
            _ => None,
        }
    }

    /// The words of the header.
    pub fn header(self) -> usize {
        match self {
            Layout::One => 8,
            Layout::Two { .. } => 10,
        }
    }

    pub fn words_of_block(self) -> usize {
        match self {
            Layout::One => 32,
            Layout::Two { block_words } => block_words as usize,
        }
    }

    /// The ids per block: all its words but the last, which is the link.
    pub fn ids_of_block(self) -> usize {
        self.words_of_block() - 1
    }

    /// The header from word 6 on.
    pub fn from_word_6(self, screen: Screen) -> Vec<u32> {
        let starts = [self.header() as u32, self.block_at(screen, 0) as u32];
        match self {
            Layout::One => starts.to_vec(),
            Layout::Two { block_words } => [starts, [block_words, 0]].concat(),
        }
    }

    /// Where the words of a tile start.
    pub fn tile_at(self, tile: u32) -> usize {
        self.header() + WORDS_OF_TILE * tile as usize
    }

    /// Where the mark of a tile stands.
    pub fn mark_at(self, tile: u32) -> usize {
        self.tile_at(tile) + 3
    }

    /// Where the words of a block start.
    pub fn block_at(self, screen: Screen, block: u32) -> usize {
        self.tile_at(screen.tiles()) + self.words_of_block() * block as usize
    }

    /// Where the places of a block for entries stand.
    pub fn places_at(self, screen: Screen, block: u32) -> Range<usize> {
        let start = self.block_at(screen, block);
        start..start + self.ids_of_block()
    }

    /// Where the link of a block stands.
    pub fn link_at(self, screen: Screen, block: u32) -> usize {
        self.places_at(screen, block).end
    }

    /// The words that a pool needs.
    pub fn room(self, screen: Screen, blocks: u32) -> usize {
        self.block_at(screen, blocks)
    }
}
