//! A frame read at once: the list of a tile, or the lists of all tiles, by one call with one audit.

use std::fmt;
use std::iter::FusedIterator;
use std::ops::Range;
use std::slice;

use crate::{raw, Entry, Pool, Refusal};

/// How many tiles, blocks, free blocks and entries a pool has.
#[derive(Clone, Copy, PartialEq, Eq, Debug)]
pub struct Counts {
    /// the tiles of the screen
    pub tiles: u32,
    /// the blocks, free or not
    pub blocks: u32,
    /// the free blocks
    pub free: u32,
    /// the entries of all lists together
    pub entries: u32,
}

impl From<[u32; 4]> for Counts {
    fn from([tiles, blocks, free, entries]: [u32; 4]) -> Counts {
        Counts { tiles, blocks, free, entries }
    }
}

/// The entries of a tile's list, in its order, over the words that they were read into.
#[derive(Clone)]
pub struct Entries<'a> {
    words: slice::Iter<'a, u32>,
}

impl<'a> Entries<'a> {
    fn over(words: &'a [u32]) -> Entries<'a> {
        Entries { words: words.iter() }
    }

    /// The words of the entries that are still to come, as `Entry::of` takes them.
    pub fn words(&self) -> &'a [u32] {
        self.words.as_slice()
    }
}

impl fmt::Debug for Entries<'_> {
    fn fmt(&self, f: &mut fmt::Formatter) -> fmt::Result {
        f.debug_list().entries(self.clone()).finish()
    }
}

impl Iterator for Entries<'_> {
    type Item = Entry;

    fn next(&mut self) -> Option<Entry> {
        self.words.next().copied().map(Entry::of)
    }

    fn nth(&mut self, place: usize) -> Option<Entry> {
        self.words.nth(place).copied().map(Entry::of)
    }

    fn size_hint(&self) -> (usize, Option<usize>) {
        self.words.size_hint()
    }
}

impl DoubleEndedIterator for Entries<'_> {
    fn next_back(&mut self) -> Option<Entry> {
        self.words.next_back().copied().map(Entry::of)
    }

    fn nth_back(&mut self, place: usize) -> Option<Entry> {
        self.words.nth_back(place).copied().map(Entry::of)
    }
}

impl ExactSizeIterator for Entries<'_> {}
impl FusedIterator for Entries<'_> {}

/// The lists of all tiles, over the words that they were read into.
#[derive(Clone, Copy, PartialEq, Eq)]
pub struct Frame<'a> {
    starts: &'a [u32],
    words: &'a [u32],
}

impl<'a> Frame<'a> {
    /// How many tiles there are.
    pub fn tiles(&self) -> u32 {
        self.starts.len() as u32 - 1
    }

    /// Where the list of each tile starts among the words, and behind these where the last one ends.
    pub fn starts(&self) -> &'a [u32] {
        self.starts
    }

    /// The words of the entries of all lists, as `Entry::of` takes them, those of a tile behind those of the tiles before it.
    pub fn words(&self) -> &'a [u32] {
        self.words
    }

    /// The entries of a tile, where there is such a tile.
    pub fn tile(&self, tile: u32) -> Option<Entries<'a>> {
        let &[start, end] = self.starts.get(tile as usize..)?.first_chunk()?;
        Some(Entries::over(&self.words[start as usize..end as usize]))
    }

    /// Each tile with its entries, in rising number, empty ones too.
    pub fn iter(&self) -> Tiles<'a> {
        Tiles { frame: *self, tiles: 0..self.tiles() }
    }
}

impl fmt::Debug for Frame<'_> {
    fn fmt(&self, f: &mut fmt::Formatter) -> fmt::Result {
        f.debug_map().entries(self).finish()
    }
}

impl<'a> IntoIterator for &Frame<'a> {
    type Item = (u32, Entries<'a>);
    type IntoIter = Tiles<'a>;

    fn into_iter(self) -> Tiles<'a> {
        self.iter()
    }
}

/// The tiles of a frame in rising number, each with its entries.
#[derive(Clone)]
pub struct Tiles<'a> {
    frame: Frame<'a>,
    tiles: Range<u32>,
}

impl<'a> Tiles<'a> {
    /// A tile of the frame with its entries.
    fn with_entries(&self, tile: u32) -> Option<(u32, Entries<'a>)> {
        Some((tile, self.frame.tile(tile)?))
    }
}

impl fmt::Debug for Tiles<'_> {
    fn fmt(&self, f: &mut fmt::Formatter) -> fmt::Result {
        f.debug_map().entries(self.clone()).finish()
    }
}

impl<'a> Iterator for Tiles<'a> {
    type Item = (u32, Entries<'a>);

    fn next(&mut self) -> Option<(u32, Entries<'a>)> {
        let tile = self.tiles.next()?;
        self.with_entries(tile)
    }

    fn nth(&mut self, place: usize) -> Option<(u32, Entries<'a>)> {
        let tile = self.tiles.nth(place)?;
        self.with_entries(tile)
    }

    fn size_hint(&self) -> (usize, Option<usize>) {
        self.tiles.size_hint()
    }
}

impl DoubleEndedIterator for Tiles<'_> {
    fn next_back(&mut self) -> Option<Self::Item> {
        let tile = self.tiles.next_back()?;
        self.with_entries(tile)
    }
}

impl ExactSizeIterator for Tiles<'_> {}
impl FusedIterator for Tiles<'_> {}

impl Pool<'_> {
    /// Reads the list of a tile into the words lent for it, with one audit. Words past the list stay as they are.
    ///
    /// With fewer words than the list has entries the call is refused, as it is where there is no such tile or the pool is not
    /// sound, and no word is written. No list has more than 129,024 entries.
    ///
    /// ```
    /// use flourscoop::{room, Entry, Pool, Refusal, Screen, Shape, Vertex};
    ///
    /// let screen = Screen { width: 64, height: 32, s: 4 };
    /// let mut words = vec![0; room(screen, 8)?];
    /// let mut pool = Pool::open(&mut words, screen, 8)?;
    /// let [a, b, c] = [[0, 0], [1024, 0], [0, 512]].map(|[x, y]| Vertex { x, y });
    /// pool.bin(7, Shape::Point(a))?;
    /// pool.bin(9, Shape::Triangle(a, b, c))?;
    ///
    /// let mut lent = [0; 31];
    /// let entries = pool.read_list(0, &mut lent)?;
    /// assert_eq!(entries.len(), 2);
    /// assert!(entries.eq([Entry { id: 7, whole: false }, Entry { id: 9, whole: true }]));
    ///
    /// // one word for two entries
    /// assert_eq!(pool.read_list(0, &mut lent[..1]).err(), Some(Refusal::Buffer));
    /// # Ok::<(), Refusal>(())
    /// ```
    pub fn read_list<'b>(&self, tile: u32, entries: &'b mut [u32]) -> Result<Entries<'b>, Refusal> {
        let [count] = raw::read_list(self.words, tile, entries).done()?;
        Ok(Entries::over(&entries[..count as usize]))
    }

    /// Reads the lists of all tiles into the words lent for them, with one audit: the entries of all lists, and where each list
    /// starts. Words past those stay as they are.
    ///
    /// It takes a word more than there are tiles for the starts, and a word for each entry, as `counts` tells. With fewer of
    /// either the call is refused, as it is where the pool is not sound, and no word is written.
    ///
    /// ```
    /// use flourscoop::{bin_list_of, room, Counts, Entry, Pool, Refusal, Screen, Shape, Vertex};
    ///
    /// let screen = Screen { width: 64, height: 32, s: 4 };
    /// let mut words = vec![0; room(screen, 8)?];
    /// let mut pool = Pool::open(&mut words, screen, 8)?;
    ///
    /// // bin a frame
    /// let [a, b, c, d] = [[0, 0], [1024, 0], [0, 512], [256, 100]].map(|[x, y]| Vertex { x, y });
    /// let list = bin_list_of([(7, Shape::Triangle(a, b, c)), (8, Shape::Point(d)), (9, Shape::Point(b))]);
    /// let mut answers = [0; 3];
    /// pool.bin_list(&list, &mut answers)?;
    /// assert_eq!(answers, [0, 0, 0]);
    ///
    /// // lend as many words as it needs, and read it
    /// let Counts { tiles, free, entries, .. } = pool.counts()?;
    /// assert_eq!((tiles, free, entries), (8, 1, 10));
    /// let (mut starts, mut lent) = (vec![0; tiles as usize + 1], vec![0; entries as usize]);
    /// let frame = pool.read_all(&mut starts, &mut lent)?;
    ///
    /// // the tiles, and what a renderer would draw in each; they may be released on the way
    /// let mut drawn = Vec::new();
    /// for (tile, entries) in &frame {
    ///     for Entry { id, whole } in entries {
    ///         drawn.push((tile, id, whole));
    ///     }
    ///     pool.release(tile)?;
    /// }
    /// assert_eq!(drawn[..5], [(0, 7, true), (0, 8, false), (1, 7, true), (1, 8, false), (2, 7, false)]);
    /// assert_eq!(pool.counts()?, Counts { tiles: 8, blocks: 8, free: 8, entries: 0 });
    ///
    /// // what was read stays
    /// assert_eq!(frame.tile(3).map(|entries| entries.map(|entry| entry.id).collect()), Some(vec![7, 9]));
    /// assert!(frame.tile(8).is_none());
    /// # Ok::<(), Refusal>(())
    /// ```
    pub fn read_all<'b>(&self, starts: &'b mut [u32], entries: &'b mut [u32]) -> Result<Frame<'b>, Refusal> {
        let [count] = raw::read_all(self.words, starts, entries).done()?;
        // where the tile table starts and where it ends, four words to a tile
        let tiles = (self.words[7] - self.words[6]) as usize / 4;
        Ok(Frame { starts: &starts[..=tiles], words: &entries[..count as usize] })
    }

    /// How many tiles and blocks the pool has, how many of the blocks are free, and how many entries all lists have together.
    ///
    /// ```
    /// use flourscoop::{room, Counts, Pool, Refusal, Screen, Shape, Vertex};
    ///
    /// let screen = Screen { width: 64, height: 32, s: 4 };
    /// let mut words = vec![0; room(screen, 5)?];
    /// let mut pool = Pool::open(&mut words, screen, 5)?;
    ///
    /// // four tiles meet in this point, and each takes a block
    /// pool.bin(9, Shape::Point(Vertex { x: 256, y: 256 }))?;
    /// assert_eq!(pool.counts()?, Counts { tiles: 8, blocks: 5, free: 1, entries: 4 });
    ///
    /// // the words of no pool
    /// assert_eq!(Pool::over(&mut [0; 100]).counts(), Err(Refusal::Unsound));
    /// # Ok::<(), Refusal>(())
    /// ```
    pub fn counts(&self) -> Result<Counts, Refusal> {
        raw::counts(self.words).done().map(Counts::from)
    }
}
