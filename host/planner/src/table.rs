//! What is told of a list: its refusals, its tiles, and the blocks that a pool for it needs.

use std::fmt::Display;

use crate::opening::Opening;
use crate::parse::List;
use crate::run::{Made, Tile};

fn row(cells: [&dyn Display; 4]) -> String {
    let [tile, entries, mark, blocks] = cells;
    format!("{tile:>4} {entries:>9} {mark:>9} {blocks:>9}")
}

/// A row for each tile, and the sums.
fn rows(tiles: &[Tile]) -> Vec<String> {
    let sum = |of: fn(&Tile) -> u32| tiles.iter().map(of).sum::<u32>();
    let mut rows = vec![row([&"tile", &"entries", &"mark", &"blocks"])];
    rows.extend(tiles.iter().map(|tile| row([&tile.number, &tile.entries, &tile.mark, &tile.blocks])));
    rows.push(row([&"sum", &sum(|tile| tile.entries), &sum(|tile| tile.mark), &sum(|tile| tile.blocks)]));
    rows
}

/// A number of blocks, and the words of a pool that has so many.
fn pool(opening: &Opening, blocks: u32) -> String {
    match opening.room(blocks) {
        Ok(words) => format!("{blocks}, in a pool of {words} words"),
        Err(_) => format!("{blocks}, which are more than a pool can have"),
    }
}

/// Whether the blocks are enough.
fn verdict(opening: &Opening, made: &Made) -> String {
    if made.for_room() == 0 {
        return "A pool with so many blocks, by either line, gives every call the same answer.".into();
    }
    let more = match opening.room(opening.blocks + 1) {
        Ok(_) => format!("Run the list with more than {} blocks.", opening.blocks),
        Err(_) => "No pool has more blocks than this one: release earlier, or take larger tiles.".into(),
    };
    format!("NOT ENOUGH: the marks do not count a call that is refused for room. {more}")
}

/// All that is told.
pub fn text(list: &List, made: &Made) -> String {
    let mut lines: Vec<String> = made.refused.iter().map(|(line, refusal)| format!("line {line}: {refusal}")).collect();
    if !lines.is_empty() {
        lines.push(String::new());
    }
    lines.extend(rows(&made.tiles));
    lines.push(String::new());
    let by_marks = made.tiles.iter().map(|tile| tile.blocks).sum();
    lines.push(format!("blocks by the marks: {}", pool(&list.opening, by_marks)));
    lines.push(format!("blocks in use at once, at most: {}", pool(&list.opening, made.at_once)));
    lines.push(format!("calls refused: {}, of these for room: {}", made.refused.len(), made.for_room()));
    lines.push(verdict(&list.opening, made));
    lines.join("\n") + "\n"
}
