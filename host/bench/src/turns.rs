//! The archive by turns with another version's, 0.6.0 or newer: what a call takes by each, and the ratio within each round.
//! host/measure.sh links a copy of either under names of its own, with every function at a multiple of 64 bytes. Each works on
//! pools of its own. The read is not among the calls: before 0.7.0 it wrote one value less. Before 0.8.0 a bin did too, its
//! last; on both processors the caller hands over the last arguments and takes them back, so that one too many does no harm.

use std::hint::black_box;

use flourscoop::{bin_list_of, Screen, Shape, Vertex, WHOLE};

use crate::lists::entries_in;
use crate::shapes::{diagonals, small, wide};
use crate::{round, table, Edition, BLOCKS, ROUNDS, SCREEN, TILES};

/// The calls of an archive.
#[derive(Clone, Copy)]
struct Archive {
    open: unsafe extern "C" fn(*mut u32, usize, u32, u32, u32, u32) -> u32,
    audit: unsafe extern "C" fn(*const u32, usize) -> u32,
    bin: unsafe extern "C" fn(*mut u32, usize, u32, i32, i32, i32, i32, i32, i32, *mut u32, *mut u32, *mut u32) -> u32,
    bin_list: unsafe extern "C" fn(*mut u32, usize, *const i32, usize, *mut u8, usize) -> u32,
    release: unsafe extern "C" fn(*mut u32, usize, u32, *mut u32) -> u32,
}

macro_rules! archive {
    ($open:ident $audit:ident $bin:ident $bin_list:ident $release:ident) => {{
        extern "C" {
            fn $open(pool: *mut u32, words: usize, width: u32, height: u32, s: u32, blocks: u32) -> u32;
            fn $audit(pool: *const u32, words: usize) -> u32;
            fn $bin(
                pool: *mut u32,
                words: usize,
                id: u32,
                x1: i32,
                y1: i32,
                x2: i32,
                y2: i32,
                x3: i32,
                y3: i32,
                tiles: *mut u32,
                blocks: *mut u32,
                tests: *mut u32,
            ) -> u32;
            fn $bin_list(
                pool: *mut u32,
                words: usize,
                list: *const i32,
                list_words: usize,
                answers: *mut u8,
                answer_bytes: usize,
            ) -> u32;
            fn $release(pool: *mut u32, words: usize, tile: u32, blocks: *mut u32) -> u32;
        }
        Archive { open: $open, audit: $audit, bin: $bin, bin_list: $bin_list, release: $release }
    }};
}

/// The other version's, and then this one.
fn archives() -> [Archive; 2] {
    [
        archive!(other_flourscoop_open other_flourscoop_audit other_flourscoop_bin_triangle other_flourscoop_bin_list other_flourscoop_release),
        archive!(this_flourscoop_open this_flourscoop_audit this_flourscoop_bin_triangle this_flourscoop_bin_list this_flourscoop_release),
    ]
}

impl Archive {
    fn open(self, words: &mut [u32], Screen { width, height, s }: Screen) -> u32 {
        unsafe { (self.open)(words.as_mut_ptr(), words.len(), width, height, s, BLOCKS) }
    }

    fn audit(self, words: &[u32]) -> u32 {
        unsafe { (self.audit)(words.as_ptr(), words.len()) }
    }

    fn bin(self, words: &mut [u32], id: u32, shape: Shape<Vertex>) -> u32 {
        let Shape::Triangle(a, b, c) = shape else { unreachable!("all mixes are of triangles") };
        let [mut tiles, mut blocks, mut tests] = [0; 3];
        let (pool, length) = (words.as_mut_ptr(), words.len());
        unsafe { (self.bin)(pool, length, id, a.x, a.y, b.x, b.y, c.x, c.y, &mut tiles, &mut blocks, &mut tests) }
    }

    fn bin_list(self, words: &mut [u32], list: &[i32], answers: &mut [u8]) -> u32 {
        let bytes = answers.len();
        unsafe {
            (self.bin_list)(words.as_mut_ptr(), words.len(), list.as_ptr(), list.len(), answers.as_mut_ptr(), bytes)
        }
    }

    fn release(self, words: &mut [u32], tile: u32) -> u32 {
        let mut blocks = 0;
        unsafe { (self.release)(words.as_mut_ptr(), words.len(), tile, &mut blocks) }
    }
}

/// A row of the table: a call by both archives, each on what is prepared for it, the one that begins changing from round to
/// round.
fn row<P>(call: &str, calls: usize, prepare: impl Fn(usize) -> P, run: impl Fn(Archive, &mut P)) {
    let archives = archives();
    let rounds: Vec<[f64; 2]> = (0..ROUNDS)
        .map(|count| {
            let mut times = [0.0; 2];
            for turn in [count % 2, 1 - count % 2] {
                times[turn] = round(calls, || prepare(turn), |prepared| run(archives[turn], prepared));
            }
            times
        })
        .collect();
    table::print_turns(call, &rounds);
}

/// How often an audit is repeated, so that it takes far longer than to look at the clock.
const AUDITS: usize = 20;

/// Audits of each archive's pool.
fn audits(edition: Edition, kind: &str, words: [&[u32]; 2]) {
    row(
        &edition.named(&format!("audit of the pool {kind}")),
        AUDITS,
        |turn| words[turn].to_vec(),
        |archive, words| {
            for _ in 0..AUDITS {
                assert_eq!(archive.audit(black_box(words)), 0);
            }
        },
    );
}

/// Two pools are the same but for the flags of entries, which versions before 0.7.0 do not write.
fn check(one: &[u32], other: &[u32]) {
    assert_eq!(one.len(), other.len());
    assert!(one.iter().zip(other).all(|(one, other)| one == other || one.abs_diff(*other) == WHOLE));
}

fn calls_on(edition: Edition, kind: &str, shapes: &[Shape<Vertex>]) {
    let named = |call: &str| edition.named(&format!("{call}, {kind}"));
    let opened = |_| edition.opened(SCREEN, BLOCKS);
    let bin_all = |archive: Archive, words: &mut Vec<u32>| {
        for (id, &shape) in shapes.iter().enumerate() {
            assert_eq!(archive.bin(words, id as u32, shape), 0);
        }
    };
    let list = bin_list_of((0..).zip(shapes.iter().copied()));
    let bin_list = |archive: Archive, (words, answers): &mut (Vec<u32>, Vec<u8>)| {
        assert_eq!(archive.bin_list(words, black_box(&list), answers), 0);
    };
    let filled = archives().map(|archive| {
        let (mut words, mut drawn) = (opened(0), (opened(0), vec![1; shapes.len()]));
        bin_all(archive, &mut words);
        bin_list(archive, &mut drawn);
        assert_eq!(drawn, (words.clone(), vec![0; shapes.len()]));
        words
    });
    check(&filled[0], &filled[1]);
    audits(edition, &format!("with {kind}"), [&filled[0], &filled[1]]);
    row(&named("bin"), shapes.len(), opened, bin_all);
    let per_shape = named("bin_list") + ", per shape";
    let drawing = |turn| (opened(turn), vec![1; shapes.len()]);
    row(&per_shape, shapes.len(), drawing, bin_list);
    row(&(named("bin_list") + ", per tile"), entries_in(&filled[1]), drawing, bin_list);
    row(
        &named("release"),
        TILES as usize,
        |turn| filled[turn].clone(),
        |archive, words| {
            for tile in 0..TILES {
                assert_eq!(archive.release(words, tile), 0);
            }
        },
    );
}

/// Prints the table. An archive that answers 4 to the pools of an edition has no rows of them.
pub fn print() {
    let [other, _] = archives();
    table::print_turns_head();
    let unopened = |_| Edition::One.unopened(SCREEN, BLOCKS);
    row("open", 1, unopened, |archive, words| assert_eq!(archive.open(words, SCREEN), 0));
    for edition in [Edition::One, Edition::Two(64)] {
        let opened = edition.opened(SCREEN, BLOCKS);
        if other.audit(&opened) != 0 {
            continue;
        }
        audits(edition, "as it was opened", [&opened, &opened]);
        calls_on(edition, "1,500 small shapes", &small(1500));
        calls_on(edition, "31 screen-wide shapes", &wide(31));
        calls_on(edition, "300 thin diagonals", &diagonals(300));
    }
}
