//! What it costs to read a frame: all lists at once, list by list and entry by entry, and to count it, in turn with the audit that
//! each of these calls makes, and with a copy of the same lists from vectors in plain Rust.

use std::hint::black_box;

use flourscoop::{raw, Shape, Vertex};

use crate::lists::lists_in;
use crate::plain::Plain;
use crate::shapes::{over, small, wide};
use crate::{filled, filled_plain, round, Edition, SCREEN, TILES};

/// The rounds of a run, and how often a call on the whole pool is repeated in each, so that it takes far longer than to look at
/// the clock.
const ROUNDS: usize = 9;
const CALLS: usize = 20;

/// How many entries, at most, are read one by one in a round: the time of all is taken from theirs.
const SINGLE: usize = 200;

/// A frame: its entries, and the times of each round in nanoseconds for all of it.
pub struct Framed {
    pub kind: String,
    pub entries: usize,
    /// by an audit, all lists at once, list by list, entry by entry, by counts, and as a copy in plain Rust
    pub rounds: Vec<[f64; 6]>,
}

/// A pool, and the same lists in vectors.
struct Frame {
    words: Vec<u32>,
    plain: Plain,
    entries: usize,
    /// the tiles and the places of those entries that are read one by one
    single: Vec<(u32, u32)>,
}

impl Frame {
    fn of(edition: Edition, shapes: &[Shape<Vertex>]) -> Frame {
        let (words, plain) = (filled(edition, shapes), filled_plain(shapes));
        let of_tile = |(tile, list): (u32, &Vec<u32>)| (0..list.len() as u32).map(move |place| (tile, place));
        let places: Vec<_> = (0..).zip(&plain.lists).flat_map(of_tile).collect();
        let single = places.iter().copied().step_by(places.len().div_ceil(SINGLE)).collect();
        Frame { words, entries: places.len(), single, plain }
    }

    /// Words for the starts, and for the entries.
    fn lent(&self) -> (Vec<u32>, Vec<u32>) {
        (vec![1; TILES as usize + 1], vec![1; self.entries])
    }

    /// Reads all lists, one after the other, into the words for the entries. The answer is how many these have.
    fn read_lists(&self, entries: &mut [u32]) -> usize {
        let mut at = 0;
        for tile in 0..TILES {
            let [count] = black_box(raw::read_list(black_box(&self.words), tile, &mut entries[at..])).done().unwrap();
            at += count as usize;
        }
        at
    }

    /// The pool has the lists that plain Rust has, every way to read them gives these, and counts tells how many entries they have.
    fn check(&self) {
        let lists = &self.plain.lists;
        assert_eq!(&lists_in(&self.words), lists);
        let [(mut starts, mut entries), (mut plain_starts, mut plain_entries)] = [self.lent(), self.lent()];
        raw::read_all(&self.words, &mut starts, &mut entries).done().unwrap();
        let list = |ends: &[u32]| entries[ends[0] as usize..ends[1] as usize].to_vec();
        assert_eq!(&starts.windows(2).map(list).collect::<Vec<_>>(), lists);
        self.plain.read_all(&mut plain_starts, &mut plain_entries);
        assert_eq!((&plain_starts, &plain_entries), (&starts, &entries));
        let (_, mut by_list) = self.lent();
        assert_eq!((self.read_lists(&mut by_list), by_list), (self.entries, entries));
        for &(tile, place) in &self.single {
            assert_eq!(raw::read(&self.words, tile, place).done().ok().map(Into::into), self.plain.read(tile, place));
        }
        assert_eq!(raw::counts(&self.words).done().map(|[.., entries]| entries as usize), Ok(self.entries));
    }

    /// The time of one way for all of the frame.
    fn time(&self, way: usize) -> f64 {
        let words = || black_box(&self.words[..]);
        let often = |call: &dyn Fn()| round(CALLS, || (), |()| (0..CALLS).for_each(|_| call()));
        match way {
            0 => often(&|| {
                black_box(raw::audit(words())).done().unwrap();
            }),
            1 => round(
                CALLS,
                || self.lent(),
                |(starts, entries)| {
                    for _ in 0..CALLS {
                        black_box(raw::read_all(words(), starts, entries)).done().unwrap();
                    }
                },
            ),
            2 => round(
                1,
                || self.lent(),
                |(_, entries)| {
                    self.read_lists(entries);
                },
            ),
            3 => {
                let of_single = round(
                    1,
                    || (),
                    |()| {
                        for &(tile, place) in &self.single {
                            black_box(raw::read(words(), tile, place)).done().unwrap();
                        }
                    },
                );
                of_single * self.entries as f64 / self.single.len() as f64
            }
            4 => often(&|| {
                black_box(raw::counts(words())).done().unwrap();
            }),
            _ => round(
                CALLS,
                || self.lent(),
                |(starts, entries)| {
                    for _ in 0..CALLS {
                        black_box(&self.plain).read_all(black_box(starts), black_box(entries));
                    }
                },
            ),
        }
    }
}

fn framed(edition: Edition, kind: &str, shapes: &[Shape<Vertex>]) -> Framed {
    let frame = Frame::of(edition, shapes);
    frame.check();
    let in_turn = |count: usize| {
        let mut times = [0.0; 6];
        for way in (0..times.len()).map(|way| (way + count) % 6) {
            times[way] = frame.time(way);
        }
        times
    };
    Framed { kind: edition.named(kind), entries: frame.entries, rounds: (0..ROUNDS).map(in_turn).collect() }
}

pub fn run() -> Vec<Framed> {
    let of = |edition| {
        [
            framed(edition, "31 screen-wide shapes", &wide(31)),
            framed(edition, "1,500 small shapes", &small(1500)),
            framed(edition, "31 shapes over the whole screen", &[over(SCREEN); 31]),
        ]
    };
    [Edition::One, Edition::Two(64)].into_iter().flat_map(of).collect()
}
