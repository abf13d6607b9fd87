//! A pool, what was called on it since its opening, and what its lists show of pairs of bins of which one is of a shape inside that of
//! the other.

use flourscoop::raw::{self, Answer};
use flourscoop::Entry;
use model::layout::Layout;
use model::number;
use model::pool::State;
use model::screen::Screen;
use model::shapes::vertices;
use model::unit::units;
use model::Vertex;

use crate::call::{Blocks, Call, Slot};
use crate::pairs::is_inside;

/// The forms of a bin: in units, in pixels, and in a draw call.
#[derive(Clone, Copy, PartialEq, Eq, PartialOrd, Ord, Debug)]
pub enum Form {
    Units,
    Pixels,
    Listed,
}

/// An accepted bin.
pub struct Bin {
    id: u32,
    pub shape: Vec<Vertex>,
    pub form: Form,
    /// how many entries each list had when it was asked
    ends: Vec<usize>,
    time: usize,
}

impl Bin {
    /// Its entry in a tile's list, at the place where the list ended when it was asked. No two bins have the same id.
    fn entry<'a>(&self, lists: &'a [Vec<Entry>], tile: usize) -> Option<&'a Entry> {
        lists[tile].get(self.ends[tile]).filter(|entry| entry.id == self.id)
    }
}

/// A pool, and what was called on it since its opening.
pub struct Told {
    slot: Slot,
    /// the same by single bins
    single: State,
    pub bins: Vec<Bin>,
    /// which bins are of a shape inside that of another: the inner one and the outer one
    pub pairs: Vec<[usize; 2]>,
    /// when each tile was released last, zero where it never was
    released: Vec<usize>,
    time: usize,
}

/// What a tile shows of a pair.
#[derive(Clone, Copy, PartialEq, Eq, PartialOrd, Ord, Debug)]
pub enum Shown {
    /// not released since the earlier bin: the inner shape stands in the list, and the outer one
    Both { inner_first: bool, inner_whole: bool, outer_whole: bool },
    /// likewise, and the outer shape stands there alone
    Outer,
    /// likewise, and neither stands there
    Neither,
    /// released since the earlier bin, and the inner shape stands there alone
    Inner,
    /// released likewise, and it does not
    Released,
}

impl Told {
    /// A pool that was just opened.
    pub fn opened(layout: Layout, screen: Screen, blocks: u32) -> Result<Told, String> {
        let mut slot = Slot::over(vec![0; layout.room(screen, blocks)], blocks);
        slot.call(&Call::Open { layout, screen, blocks: Blocks::Own })?;
        let single = State::opened(layout, screen, blocks);
        let released = vec![0; screen.tiles() as usize];
        Ok(Told { slot, single, bins: Vec::new(), pairs: Vec::new(), released, time: 0 })
    }

    /// Makes the call on the archive and the model, and notes which bins it has, each with how long the lists are when it is asked.
    pub fn call(&mut self, call: &Call) -> Result<(), String> {
        let [number, ..] = self.slot.call(call)?;
        match call {
            Call::Bin { id, shape } => self.bin(*id, shape, Form::Units),
            Call::BinPixels { id, shape } => {
                if let Ok(shape) = units(shape) {
                    self.bin(*id, &shape, Form::Pixels);
                }
            }
            Call::BinList(draw) if number == number::DONE => {
                for (_, words) in &draw.list.shapes {
                    let id = u32::try_from(words[7]).unwrap_or(u32::MAX);
                    self.bin(id, &vertices(words), Form::Listed);
                }
            }
            Call::Release { tile } if number == number::DONE => {
                self.time += 1;
                self.released[*tile as usize] = self.time;
                self.single.release(*tile).map_err(|number| format!("the model refuses a release with {number}"))?;
            }
            _ => (),
        }
        if self.slot.state.as_ref() != Some(&self.single) {
            return Err(format!("{call:?}: the pool is not as by single bins"));
        }
        Ok(())
    }

    /// Notes a bin where it is accepted, and which shapes its own is inside, or are inside that, as the model says.
    fn bin(&mut self, id: u32, shape: &[Vertex], form: Form) {
        let ends = self.single.tiles.iter().map(|tile| tile.entries.len()).collect();
        if self.single.bin(id, shape).is_err() {
            return;
        }
        self.time += 1;
        let this = self.bins.len();
        for (other, bin) in self.bins.iter().enumerate() {
            self.pairs.extend(is_inside(shape, &bin.shape).then_some([this, other]));
            self.pairs.extend(is_inside(&bin.shape, shape).then_some([other, this]));
        }
        self.bins.push(Bin { id, shape: shape.to_vec(), form, ends, time: self.time });
    }

    /// The list of each tile, as the archive reads all at once.
    fn lists(&self) -> Vec<Vec<Entry>> {
        let entries = self.single.tiles.iter().map(|tile| tile.entries.len()).sum();
        let (mut starts, mut words) = (vec![0; self.single.tiles.len() + 1], vec![0; entries]);
        raw::read_all(&self.slot.words, &mut starts, &mut words).done().unwrap();
        let list = |ends: &[u32]| words[ends[0] as usize..ends[1] as usize].iter().copied().map(Entry::of).collect();
        starts.windows(2).map(list).collect()
    }

    /// What a tile with these lists shows of a pair; an error where the tile was not released since the earlier bin and has the inner
    /// shape without the outer one, or the flag on the inner one alone.
    fn shown_in(&self, lists: &[Vec<Entry>], pair: [usize; 2], tile: usize) -> Result<Shown, String> {
        let [inner, outer] = pair.map(|place| &self.bins[place]);
        let entries = (inner.entry(lists, tile), outer.entry(lists, tile));
        let since_the_earlier = self.released[tile] > inner.time.min(outer.time);
        match entries {
            (Some(_), None) if since_the_earlier => Ok(Shown::Inner),
            _ if since_the_earlier => Ok(Shown::Released),
            (None, None) => Ok(Shown::Neither),
            (None, Some(_)) => Ok(Shown::Outer),
            (Some(inner_entry), Some(outer_entry)) if inner_entry.whole <= outer_entry.whole => Ok(Shown::Both {
                inner_first: inner.time < outer.time,
                inner_whole: inner_entry.whole,
                outer_whole: outer_entry.whole,
            }),
            _ => Err(format!("tile {tile} has of {:?} in {:?}: {entries:?}", inner.shape, outer.shape)),
        }
    }

    /// What each tile shows of each pair, by its lists as they are now.
    pub fn shown(&self) -> Result<Vec<([usize; 2], usize, Shown)>, String> {
        let lists = self.lists();
        let tiles = || 0..lists.len();
        let each = self.pairs.iter().flat_map(|&pair| tiles().map(move |tile| (pair, tile)));
        each.map(|(pair, tile)| Ok((pair, tile, self.shown_in(&lists, pair, tile)?))).collect()
    }

    /// Reads both entries of a pair one by one, each at the place where the list ended when its shape was binned.
    pub fn read(&self, pair: [usize; 2], tile: usize, wholes: [bool; 2]) -> Result<(), String> {
        for (bin, whole) in pair.map(|place| &self.bins[place]).into_iter().zip(wholes) {
            let read = raw::read(&self.slot.words, tile as u32, bin.ends[tile] as u32);
            if read != (Answer { number: number::DONE, values: [bin.id, u32::from(whole)] }) {
                return Err(format!("place {} of tile {tile}, for id {}: {read:?}", bin.ends[tile], bin.id));
            }
        }
        Ok(())
    }
}
