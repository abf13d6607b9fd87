//! Makes the calls of a list.

use flourscoop::{Pool, Refusal};

use crate::parse::{Call, List};

/// A tile that had an entry.
pub struct Tile {
    pub number: u32,
    pub entries: u32,
    pub mark: u32,
    /// the blocks that as many entries as the mark need
    pub blocks: u32,
}

/// What the calls of a list did.
pub struct Made {
    pub tiles: Vec<Tile>,
    /// the most blocks that were in use at once
    pub at_once: u32,
    /// the calls that were refused, each with its line
    pub refused: Vec<(usize, Refusal)>,
}

impl Made {
    /// How many calls were refused for room.
    pub fn for_room(&self) -> usize {
        self.refused.iter().filter(|(_, refusal)| *refusal == Refusal::NoRoom).count()
    }
}

/// The tiles that had an entry, of a pool whose blocks hold so many each.
fn tiles(pool: &Pool, ids_of_block: u32) -> Vec<Tile> {
    // the first word of a tile, as the C header has it
    let entries = |tile: u32| pool.words()[(pool.words()[6] + 4 * tile) as usize];
    let tile = |number: u32| {
        let mark = pool.high_water(number).ok()?;
        Some(Tile { number, entries: entries(number), mark, blocks: mark.div_ceil(ids_of_block) })
    };
    (0..).map_while(tile).filter(|tile| tile.mark > 0).collect()
}

/// What the calls did, or why the opening was refused.
pub fn run(list: &List) -> Result<Made, Refusal> {
    let mut words = vec![0; list.opening.room(list.opening.blocks)?];
    let mut pool = list.opening.open(&mut words)?;
    let (mut in_use, mut at_once, mut refused) = (0, 0, Vec::new());
    for (line, call) in &list.calls {
        let done = match *call {
            Call::Bin(id, shape) => pool.bin(id, shape).map(|binned| in_use += binned.blocks),
            Call::BinPixels(id, shape) => pool.bin_pixels(id, shape).map(|binned| in_use += binned.blocks),
            Call::Release(tile) => pool.release(tile).map(|blocks| in_use -= blocks),
        };
        refused.extend(done.err().map(|refusal| (*line, refusal)));
        at_once = at_once.max(in_use);
    }
    Ok(Made { tiles: tiles(&pool, list.opening.ids_of_block()), at_once, refused })
}
