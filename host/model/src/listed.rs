//! Lists of shapes on the screen of the marked cases, and what they give.

use crate::number;
use crate::overlaps::Totals;
use crate::pool::WHOLE;

/// A list, and its totals or the number of its refusal.
pub struct Listed {
    pub name: &'static str,
    pub list: &'static [i32],
    pub totals: Result<Totals, u32>,
}

/// A list with these shapes, shapes out of range, tiles by box, tiles by touching, largest and place.
const fn counted(name: &'static str, list: &'static [i32], totals: [u128; 6]) -> Listed {
    let [shapes, out_of_range, box_tiles, touched_tiles, largest, place] = totals;
    let difference = box_tiles - touched_tiles;
    let totals = Totals { shapes, out_of_range, box_tiles, touched_tiles, difference, largest, place };
    Listed { name, list, totals: Ok(totals) }
}

const fn refused(name: &'static str, list: &'static [i32]) -> Listed {
    Listed { name, list, totals: Err(number::LIST) }
}

pub const LISTED: [Listed; 16] = [
    counted("no shape", &[], [0, 0, 0, 0, 0, 0]),
    counted("one out of range", &[1, 262_144, 0, 0, 0, 0, 0], [0, 1, 0, 0, 0, 0]),
    counted("one off the screen", &[1, 1025, 10, 0, 0, 0, 0], [1, 0, 0, 0, 0, 0]),
    counted(
        "the first out of range, the next off the screen",
        &[1, 0, -262_145, 0, 0, 0, 0, 1, -1, 10, 0, 0, 0, 0],
        [1, 1, 0, 0, 0, 1],
    ),
    counted(
        "two that touch as many tiles, after one out of range and one that touches fewer",
        &[3, 0, 0, 0, 0, 0, i32::MIN, 1, 0, 0, 0, 0, 0, 0, 3, 0, 0, 1024, 0, 0, 512, 3, 0, 0, 0, 512, 1024, 0],
        [3, 1, 17, 15, 7, 2],
    ),
    counted(
        "the last out of range, with a box over all tiles",
        &[1, 0, 0, 0, 0, 0, 0, 2, -300_000, 0, 262_143, 512, 0, 0],
        [1, 1, 1, 1, 1, 0],
    ),
    counted("the ends of the range", &[3, -262_144, -262_144, 262_143, -262_144, 0, 262_143], [1, 0, 8, 8, 8, 0]),
    refused("a word that is no shape", &[1]),
    refused("a word too few", &[1, 0, 0, 0, 0, 0]),
    refused("a word too many", &[1, 0, 0, 0, 0, 0, 0, 1]),
    refused("kind 0", &[0, 0, 0, 0, 0, 0, 0]),
    refused("kind 4", &[4, 0, 0, 0, 0, 0, 0]),
    refused("a kind below 0", &[-1, 0, 0, 0, 0, 0, 0]),
    refused("a point with a second x", &[1, 0, 0, 1, 0, 0, 0]),
    refused("a line with a third y", &[2, 0, 0, 0, 0, 0, -1]),
    refused("the fault in the last shape, after one out of range", &[1, 262_144, 0, 0, 0, 0, 0, 2, 0, 0, 0, 0, 1, 0]),
];

/// A list with ids, binned in a pool of so many blocks that was just opened: the number of each shape or that of the refusal of
/// them all, and the entries of each tile afterwards.
pub struct Drawn {
    pub name: &'static str,
    pub blocks: u32,
    pub list: &'static [i32],
    pub answers: Result<&'static [u8], u32>,
    pub lists: [&'static [u32]; 8],
}

const NONE: &[u32] = &[];

/// A list after which only tile 0 has entries, these.
const fn drawn(
    name: &'static str,
    blocks: u32,
    list: &'static [i32],
    answers: &'static [u8],
    first: &'static [u32],
) -> Drawn {
    Drawn { name, blocks, list, answers: Ok(answers), lists: [first, NONE, NONE, NONE, NONE, NONE, NONE, NONE] }
}

const fn not_drawn(name: &'static str, list: &'static [i32]) -> Drawn {
    Drawn { name, blocks: 2, list, answers: Err(number::LIST), lists: [NONE; 8] }
}

#[rustfmt::skip]
const RUNS_OUT: &[i32] = &[
    2, 100, 100, 300, 100, 0, 0, 1,
    1, 256, 256, 0, 0, 0, 0, 2,
    1, 1000, 500, 0, 0, 0, 0, 3,
    1, 1000, 10, 0, 0, 0, 0, 4,
    2, 300, 100, 1000, 500, 0, 0, 5,
    1, 1025, 10, 0, 0, 0, 0, 6,
    1, 256, 100, 0, 0, 0, 0, 7,
];

#[rustfmt::skip]
const IDS: &[i32] = &[
    1, 5, 5, 0, 0, 0, 0, -1,
    1, 5, 5, 0, 0, 0, 0, 0,
    1, 5, 5, 0, 0, 0, 0, i32::MIN,
    1, 5, 5, 0, 0, 0, 0, 16_777_215,
    1, 5, 5, 0, 0, 0, 0, 16_777_216,
    1, 5, 5, 0, 0, 0, 0, i32::MAX,
];

#[rustfmt::skip]
const CAUSES: &[i32] = &[
    3, 0, 0, 0, 0, 0, 262_144, -1,
    3, 0, 0, 0, 0, 0, 262_144, 1,
    3, 0, 0, 0, 0, 0, 262_143, 1,
    3, -1, 0, -1, 0, -1, 262_143, 1,
];

#[rustfmt::skip]
const COVERS: &[i32] = &[
    3, 0, 0, 1024, 0, 0, 512, 1,
    3, 0, 0, 0, 512, 1024, 0, 16_777_215,
    3, -1000, -1000, 5000, -1000, -1000, 5000, 16_777_216,
    3, -1000, -1000, 5000, -1000, -1000, 5000, 0,
    3, 0, 0, 512, 512, 256, 256, 2,
];

pub const DRAWN: [Drawn; 19] = [
    drawn("no shape", 2, &[], &[], &[]),
    drawn("no shape and no block", 0, &[], &[], &[]),
    drawn("the pool case", 2, &[1, 0, 0, 0, 0, 0, 0, 7, 1, 256, 256, 0, 0, 0, 0, 9], &[0, 8], &[7]),
    drawn(
        "the same three times",
        1,
        &[1, 0, 0, 0, 0, 0, 0, 3, 1, 0, 0, 0, 0, 0, 0, 3, 1, 0, 0, 0, 0, 0, 0, 3],
        &[0, 0, 0],
        &[3, 3, 3],
    ),
    Drawn {
        name: "room runs out, and the rest go on",
        blocks: 3,
        list: RUNS_OUT,
        answers: Ok(&[0, 8, 0, 8, 8, 0, 0]),
        lists: [&[1, 7], &[1, 7], NONE, NONE, NONE, NONE, NONE, &[3]],
    },
    Drawn {
        name: "tiles partly and wholly covered",
        blocks: 8,
        list: COVERS,
        answers: Ok(&[0, 0, 5, 0, 0]),
        lists: [
            &[WHOLE + 1, WHOLE + 16_777_215, WHOLE, 2],
            &[WHOLE + 1, WHOLE + 16_777_215, WHOLE, 2],
            &[1, 16_777_215, WHOLE],
            &[1, 16_777_215, WHOLE],
            &[1, 16_777_215, WHOLE, 2],
            &[1, 16_777_215, WHOLE, 2],
            &[1, 16_777_215, WHOLE, 2],
            &[WHOLE],
        ],
    },
    drawn("ids at both ends and past them", 1, IDS, &[5, 0, 5, 0, 5, 5], &[0, 16_777_215]),
    drawn("an id before a coordinate, and that before the room", 0, CAUSES, &[5, 7, 8, 0], &[]),
    not_drawn("a word that is no shape", &[1]),
    not_drawn("no id", &[1, 0, 0, 0, 0, 0, 0]),
    not_drawn("a word too many", &[1, 0, 0, 0, 0, 0, 0, 7, 1]),
    not_drawn("kind 0", &[0, 0, 0, 0, 0, 0, 0, 7]),
    not_drawn("kind 4", &[4, 0, 0, 0, 0, 0, 0, 7]),
    not_drawn("a kind below 0", &[-1, 0, 0, 0, 0, 0, 0, 7]),
    not_drawn("a point with a second x", &[1, 0, 0, 1, 0, 0, 0, 7]),
    not_drawn("a point with a third y", &[1, 0, 0, 0, 0, 0, 1, 7]),
    not_drawn("a line with a third x", &[2, 0, 0, 0, 0, -1, 0, 7]),
    not_drawn("the fault in the last shape", &[1, 0, 0, 0, 0, 0, 0, 7, 2, 0, 0, 0, 0, 0, 1, 7]),
    not_drawn(
        "the fault after an id below 0 and a coordinate out of range",
        &[1, 262_144, 0, 0, 0, 0, 0, -1, 4, 0, 0, 0, 0, 0, 0, 7],
    ),
];
