//! Lists and frames read at once, and counts: against the model and against single reads, on pools of every fill with their
//! blocks in any order; against lists known beforehand, of every length around whole blocks and after releases; in words of every
//! number and with anything in them; in two pools of different sizes; and what refuses a read, in which order.

use std::collections::{BTreeMap, BTreeSet};

use flourscoop::raw::{self, Answer};
use flourscoop::{Counts, Entry, Pool, Refusal};
use model::frame::{self, Frame};
use model::layout::{Layout, LAYOUTS};
use model::marked::SCREEN;
use model::number;
use model::pool::{State, Tile, MOST_BLOCKS, MOST_ENTRY, MOST_ID, POISON, WHOLE};
use model::screen::Screen;
use model::Vertex;
use tests::call::{self, shape_of};
use tests::generate::{self, screen_with};
use tests::hold::{hold, Case};
use tests::random::Random;
use tests::reading::{Reading, FILLINGS};
use tests::smaller::{self, lower, nearer_zero};

/// A sound pool with so many words past its room; by how many the words lent for the starts and for the entries are more than it
/// takes, or fewer; and what stands in them.
#[derive(Clone, Debug)]
struct Framed {
    state: State,
    tail: usize,
    spare: [i32; 2],
    filling: [u32; 2],
}

/// The number that each list got, those of tiles that there are not included, and the number of the frame.
struct Seen {
    lists: Vec<u32>,
    frame: u32,
}

/// The number of a call's answer.
fn number_of<T>(answer: &Result<T, u32>) -> u32 {
    answer.as_ref().err().copied().unwrap_or(number::DONE)
}

impl Framed {
    fn words(&self) -> Vec<u32> {
        let tail = (0..self.tail as u32).map(|at| 0x7A11 + at);
        self.state.words().into_iter().chain(tail).collect()
    }

    /// The tiles whose lists are read: all of them or, of many, the first, the last and some between.
    fn tiles(&self) -> impl Iterator<Item = u32> {
        let tiles = self.state.screen.tiles();
        (0..tiles).step_by(tiles.div_ceil(40) as usize).chain([tiles - 1])
    }
}

impl Case for Framed {
    type Seen = Seen;

    fn make(random: &Random, place: u64) -> Framed {
        let layout = generate::layout(place);
        Framed {
            state: match place % 3000 {
                0..=2 => generate::state_on(random, layout, generate::full_screen(random), MOST_BLOCKS, 70),
                _ => generate::state(random, layout),
            },
            tail: random.pick(&[0, 0, 1, 40]),
            spare: [
                random.pick(&[0, 0, 0, 0, 0, 1, 9, 40, -1, i32::MIN]),
                random.pick(&[0, 0, 0, 0, 1, 9, -1, -1, -2, i32::MIN]),
            ],
            filling: random.pick(&FILLINGS),
        }
    }

    fn smaller(&self) -> Vec<Framed> {
        let states = smaller::states(&self.state).into_iter().chain(smaller::pools(&self.state));
        let mut all: Vec<_> = states.map(|state| Framed { state, ..self.clone() }).collect();
        all.extend(lower(self.tail as u32).into_iter().map(|tail| Framed { tail: tail as usize, ..self.clone() }));
        let spares = smaller::each(&self.spare, |&spare| nearer_zero(spare)).into_iter();
        all.extend(spares.map(|spare| Framed { spare: [spare[0], spare[1]], ..self.clone() }));
        all
    }

    /// The counts, the frame and the lists are the model's, and the lists are what single reads give.
    fn run(&self) -> Result<Seen, String> {
        let (words, mut seen) = (self.words(), Seen { lists: Vec::new(), frame: number::DONE });
        let mut reading = Reading::over(&words);
        let counts = frame::counts(&words).map_err(|_| "the pool is not sound")?;
        reading.counts(Ok(counts))?;
        let with = |words: u32, spare: i32| (words as usize).saturating_add_signed(spare as isize);
        let [tiles, .., entries] = counts;
        let rooms = [with(tiles + 1, self.spare[0]), with(entries, self.spare[1])];
        let all = frame::read_all(&words, rooms[0], rooms[1]);
        seen.frame = number_of(&all);
        reading.frame(self.filling, rooms, all.as_ref().map_err(|&number| number))?;
        for tile in self.tiles().chain([tiles, u32::MAX]) {
            let entries = self.state.tiles.get(tile as usize).map_or(&[][..], |tile| &tile.entries);
            let room = with(entries.len() as u32, self.spare[1]);
            let list = frame::read_list(&words, tile, room);
            seen.lists.push(number_of(&list));
            reading.list(self.filling, tile, room, list.as_deref().map_err(|&number| number))?;
            if tile < tiles {
                reading.singly(tile, entries, if words.len() > 5000 { 2 } else { 70 })?;
            }
        }
        Ok(seen)
    }
}

/// What the pools of a layout reached.
#[derive(Default, Debug)]
struct Reached {
    /// lists by the number that they get, and frames
    lists: BTreeMap<u32, u64>,
    frames: BTreeMap<u32, u64>,
    /// the lists of frames that are read, by how many blocks they have, of 4 and more together
    chains: BTreeMap<usize, u64>,
    /// those in which a block stands before one that it comes behind
    out_of_order: u64,
    /// those frames without an entry, and of 4,096 tiles
    empty: u64,
    largest: u64,
    /// the most entries of one
    most: usize,
}

impl Reached {
    fn add(&mut self, Framed { state, .. }: &Framed, Seen { lists, frame }: &Seen) {
        lists.iter().for_each(|&number| *self.lists.entry(number).or_default() += 1);
        *self.frames.entry(*frame).or_default() += 1;
        if *frame != number::DONE {
            return;
        }
        for tile in &state.tiles {
            *self.chains.entry(tile.blocks.len().min(4)).or_default() += 1;
            self.out_of_order += u64::from(tile.blocks.windows(2).any(|pair| pair[1] < pair[0]));
        }
        let entries = state.tiles.iter().map(|tile| tile.entries.len()).sum();
        self.empty += u64::from(entries == 0);
        self.largest += u64::from(state.tiles.len() == 4096);
        self.most = self.most.max(entries);
    }
}

#[test]
fn lists_and_frames_are_the_model_s_and_those_of_single_reads() {
    let mut reached: BTreeMap<Layout, Reached> = BTreeMap::new();
    hold(0xF100_000D, 90_000, |case: &Framed, seen| reached.entry(case.state.layout).or_default().add(case, &seen));
    reached.iter().for_each(|(layout, reached)| println!("{layout:?}: {reached:?}"));
    assert_eq!(reached.len(), LAYOUTS.len());
    for Reached { lists, frames, chains, out_of_order, empty, largest, most } in reached.into_values() {
        assert!(lists.keys().copied().eq([number::DONE, number::NO_TILE, number::BUFFER]), "each number");
        assert!(lists.values().all(|&calls| calls > 10_000), "and often");
        assert!(frames.keys().copied().eq([number::DONE, number::BUFFER]), "each number of a frame");
        assert!(frames.values().all(|&calls| calls > 2000), "and often");
        assert!((0..=4).all(|blocks| chains[&blocks] > 50), "lists of every number of blocks");
        assert!(out_of_order > 5000, "blocks should often be out of order");
        assert!(empty > 1000 && largest > 10 && most > 50_000, "no entry, most tiles and many entries");
    }
}

/// The frame of these lists.
fn frame_of(lists: &[Vec<u32>]) -> Frame {
    let mut starts = vec![0];
    for list in lists {
        starts.push(starts[starts.len() - 1] + list.len() as u32);
    }
    Frame { starts, entries: lists.concat() }
}

/// Every way to read these words gives these lists and so many blocks, of which so many are free, on every filling.
fn expect_lists(words: &[u32], lists: &[Vec<u32>], [blocks, free]: [u32; 2], what: &str) {
    let (mut reading, all) = (Reading::over(words), frame_of(lists));
    let read = (|| {
        reading.counts(Ok([lists.len() as u32, blocks, free, all.entries.len() as u32]))?;
        for filling in FILLINGS {
            for spare in [0, 2] {
                let rooms = [all.starts.len() + spare, all.entries.len() + spare];
                reading.frame(filling, rooms, Ok(&all))?;
                for (tile, list) in (0..).zip(lists) {
                    reading.list(filling, tile, list.len() + spare, Ok(list))?;
                }
            }
        }
        (0..).zip(lists).try_for_each(|(tile, list)| reading.singly(tile, list, 70))
    })();
    assert_eq!(read, Ok(()), "{what}");
}

/// Lists of so many entries each, which are all different, some of them with the flag.
fn numbered(lengths: &[usize]) -> Vec<Vec<u32>> {
    let entry = |tile: u32, place: u32| 1_000_000 * tile + place + if place % 3 == 1 { WHOLE } else { 0 };
    let list = |(tile, &entries): (u32, &usize)| (0..entries as u32).map(|place| entry(tile, place)).collect();
    (0..).zip(lengths).map(list).collect()
}

/// Each of these with each of those.
fn pairs<A: Copy, B: Copy>(these: &[A], those: &[B]) -> Vec<(A, B)> {
    these.iter().flat_map(|&one| those.iter().map(move |&other| (one, other))).collect()
}

/// The state of a pool with these lists and so many free blocks, in which the order of all blocks is this one.
fn state_of(layout: Layout, screen: Screen, lists: &[Vec<u32>], free: u32, order: fn(&mut [u32])) -> State {
    let blocks_of = |list: &Vec<u32>| list.len().div_ceil(layout.ids_of_block());
    let blocks = lists.iter().map(blocks_of).sum::<usize>() as u32 + free;
    let mut state = State::opened(layout, screen, blocks);
    order(state.free.make_contiguous());
    for (tile, list) in state.tiles.iter_mut().zip(lists) {
        let chain = state.free.drain(..blocks_of(list)).collect();
        *tile = Tile { blocks: chain, entries: list.clone(), mark: list.len() as u32 };
    }
    state
}

/// Orders of all blocks: as they are, backwards, and any.
const ORDERS: [fn(&mut [u32]); 3] = [|_| (), <[u32]>::reverse, |blocks| Random::new(7).shuffle(blocks)];

/// Lists of no entry, of one, and of as many as fill some blocks, an entry less and one more, beside others.
#[test]
fn lists_of_every_length() {
    for layout in LAYOUTS {
        let ids = layout.ids_of_block();
        let whole_blocks = [1, 2, 3, 4, 10, 40].map(|blocks| blocks * ids);
        let around = whole_blocks.into_iter().flat_map(|entries| [entries - 1, entries, entries + 1]);
        let lengths: BTreeSet<usize> =
            [0, 1, 2, 30, 31, 32, 62, 63, 64, 93, 124, 200].into_iter().chain(around).collect();
        for length in lengths {
            for lengths in [vec![length], vec![length, 1, 0], vec![0, ids, length, 0], vec![ids + 1, length]] {
                let lists = numbered(&lengths);
                let screen = screen_with([lists.len() as u32, 1, 3], [0, 7]);
                for (order, free) in ORDERS.into_iter().zip([0, 1, 3]) {
                    let state = state_of(layout, screen, &lists, free, order);
                    let what = format!("{lengths:?} entries with {free} free blocks in {layout:?}");
                    expect_lists(&state.words(), &lists, [state.blocks, free], &what);
                }
            }
        }
    }
}

/// Entries at both ends of their range, with the flag and without, in each place of a block.
#[test]
fn entries_are_read_as_they_stand() {
    for layout in LAYOUTS {
        let ends = [0, 1, MOST_ID - 1, MOST_ID, WHOLE, WHOLE + 1, MOST_ENTRY - 1, MOST_ENTRY];
        for from in 0..ends.len() {
            let list: Vec<u32> = ends.iter().cycle().skip(from).take(2 * layout.ids_of_block() + 5).copied().collect();
            let lists = [list.clone(), Vec::new(), list];
            let state = state_of(layout, screen_with([3, 1, 4], [0, 0]), &lists, 1, ORDERS[1]);
            expect_lists(&state.words(), &lists, [state.blocks, 1], &format!("{layout:?}"));
        }
    }
}

/// Words of every number from none to two more than it takes, on every filling: a list and a frame are read where they fit, and
/// else no word is written.
#[test]
fn a_read_takes_as_many_words_as_it_needs_or_more() {
    for layout in LAYOUTS {
        let ids = layout.ids_of_block();
        for lengths in
            [vec![0], vec![1], vec![ids], vec![ids + 1, 0], vec![0, 0, 0], vec![0, 2, 0], vec![3, ids + 2, 1, 0]]
        {
            let lists = numbered(&lengths);
            let (tiles, all) = (lists.len(), frame_of(&lists));
            let words = state_of(layout, screen_with([1, tiles as u32, 5], [31, 0]), &lists, 2, ORDERS[1]).words();
            let mut reading = Reading::over(&words);
            for filling in FILLINGS {
                for (tile, list) in (0..).zip(&lists) {
                    for room in 0..=list.len() + 2 {
                        let expected = if room < list.len() { Err(number::BUFFER) } else { Ok(&list[..]) };
                        assert_eq!(reading.list(filling, tile, room, expected), Ok(()), "{lengths:?} in {layout:?}");
                    }
                }
                let up_to = |most: usize| (0..=most).collect::<Vec<_>>();
                for (starts, entries) in pairs(&up_to(tiles + 3), &up_to(all.entries.len() + 2)) {
                    let fits = tiles < starts && all.entries.len() <= entries;
                    let expected = if fits { Ok(&all) } else { Err(number::BUFFER) };
                    assert_eq!(
                        reading.frame(filling, [starts, entries], expected),
                        Ok(()),
                        "{lengths:?} in {layout:?}"
                    );
                }
            }
        }
    }
}

/// The words of a sound pool with these lists, of which the first has two entries, and words that are not a sound pool; whether
/// they are.
fn pools(layout: Layout, lists: &[Vec<u32>]) -> Vec<(Vec<u32>, bool)> {
    let sound = state_of(layout, SCREEN, lists, 2, ORDERS[2]).words();
    let changed = |place: usize, word: u32| {
        let mut words = sound.clone();
        words[place] = word;
        words
    };
    let (table, block) = (layout.header(), layout.block_at(SCREEN, 1));
    let short = [0, 7, table, sound.len() - 1].map(|words| sound[..words].to_vec());
    let in_header = [(2, 7), (4, 1), (5, 0), (6, 9)].map(|(place, word)| changed(place, word));
    let in_table = [(0, 3), (0, u32::MAX), (2, 0), (3, 1)].map(|(place, word)| changed(table + place, word));
    let in_block = [MOST_ENTRY + 1, u32::MAX].map(|word| changed(block, word));
    let unsound = [&short[..], &in_header, &in_table, &in_block, &[changed(layout.link_at(SCREEN, 0), 9)]].concat();
    [(sound.clone(), true)].into_iter().chain(unsound.into_iter().map(|words| (words, false))).collect()
}

/// A pool that is not sound, a tile that there is not, and too few words, alone and together: 4 comes before 9, 9 before 11, and no
/// word is written.
#[test]
fn a_read_is_refused_in_order() {
    for layout in LAYOUTS {
        let lists = numbered(&[2, layout.words_of_block(), 0, 0, 0, 0, 0, 0]);
        let (all, entries) = (frame_of(&lists), lists.concat().len());
        for (words, sound) in pools(layout, &lists) {
            let mut reading = Reading::over(&words);
            // two blocks for the second list, one for the first, and two that are free
            let counts = if sound { Ok([8, 5, 2, entries as u32]) } else { Err(number::UNSOUND) };
            assert_eq!(reading.counts(counts), Ok(()), "{layout:?}");
            for filling in FILLINGS {
                for (tile, room) in pairs(&[0, 1, 2, 7, 8, 9, 1 << 16, u32::MAX], &[0, 1, 2, 99]) {
                    let expected = match (sound, lists.get(tile as usize)) {
                        (false, _) => Err(number::UNSOUND),
                        (true, None) => Err(number::NO_TILE),
                        (true, Some(list)) if room < list.len() => Err(number::BUFFER),
                        (true, Some(list)) => Ok(&list[..]),
                    };
                    assert_eq!(reading.list(filling, tile, room, expected), Ok(()), "{layout:?}");
                }
                for (starts, room) in pairs(&[0, 1, 8, 9, 99], &[0, 1, entries - 1, entries, 99]) {
                    let expected = match (sound, 9 <= starts && entries <= room) {
                        (false, _) => Err(number::UNSOUND),
                        (true, false) => Err(number::BUFFER),
                        (true, true) => Ok(&all),
                    };
                    assert_eq!(reading.frame(filling, [starts, room], expected), Ok(()), "{layout:?}");
                }
            }
        }
    }
}

/// A pool with so many blocks, and the lists that it should have: kept by hand, and not by the model.
struct Kept {
    words: Vec<u32>,
    blocks: u32,
    lists: Vec<Vec<u32>>,
}

/// Three tiles in a row, of which the screen cuts the last.
const THREE: Screen = Screen { width: 44, height: 16, s: 4 };

impl Kept {
    fn open(layout: Layout, blocks: u32) -> Kept {
        let mut words = vec![0; layout.room(THREE, blocks)];
        call::open(&mut words, layout, THREE, blocks).done().unwrap();
        Kept { words, blocks, lists: vec![Vec::new(); 3] }
    }

    /// Bins a point of a tile, or where that is 3 a triangle that covers all of them. The answer is whether there was room.
    fn bin(&mut self, tile: usize, id: u32) -> bool {
        let shape: &[Vertex] = match tile {
            3 => &[[-5000, -5000], [20_000, -5000], [-5000, 20_000]],
            _ => &[[256 * tile as i32 + 9, 9]],
        };
        let Answer { number, .. } = raw::bin(&mut self.words, id, shape_of(shape));
        assert!([number::DONE, number::NO_ROOM].contains(&number));
        if number == number::DONE {
            match tile {
                3 => self.lists.iter_mut().for_each(|list| list.push(id + WHOLE)),
                _ => self.lists[tile].push(id),
            }
        }
        number == number::DONE
    }

    fn release(&mut self, tile: usize) {
        raw::release(&mut self.words, tile as u32).done().unwrap();
        self.lists[tile].clear();
    }

    /// Every way to read the pool gives the lists.
    fn expect(&self, layout: Layout) {
        let used: usize = self.lists.iter().map(|list| list.len().div_ceil(layout.ids_of_block())).sum();
        expect_lists(&self.words, &self.lists, [self.blocks, self.blocks - used as u32], &format!("{layout:?}"));
    }

    /// How many pairs of blocks, one behind the other in a chain, do not stand one behind the other in the pool.
    fn jumps(&self) -> usize {
        let state = State::read(&self.words).unwrap();
        let jumps = |tile: &Tile| tile.blocks.windows(2).filter(|pair| pair[1] != pair[0] + 1).count();
        state.tiles.iter().map(jumps).sum()
    }
}

/// Bins and releases in any order, in two pools of which the second has more blocks: both have the lists kept by hand, and after
/// releases their chains lead to and fro. They differ in what the counts say of the blocks, and in nothing else.
#[test]
fn chains_are_followed_after_releases_in_pools_of_both_sizes() {
    for layout in LAYOUTS {
        let (random, ids) = (Random::new(0xF100_000E), layout.ids_of_block() as u32);
        let mut pools = [12, 17].map(|blocks| Kept::open(layout, blocks));
        let (mut jumps, mut refused) = (0, 0);
        for step in 0..300 {
            let tile = random.below(4) as usize;
            if random.once_in(6) {
                pools.iter_mut().for_each(|pool| pool.release(tile % 3));
            } else {
                for _ in 0..random.pick(&[1, 2, ids - 1, ids, ids + 1]) {
                    let ([first, second], id) = (&mut pools, random.below(MOST_ID + 1));
                    match first.bin(tile, id) {
                        true => assert!(second.bin(tile, id)),
                        false => refused += 1,
                    }
                }
            }
            if step % 5 == 0 {
                pools.iter().for_each(|pool| pool.expect(layout));
                jumps = jumps.max(pools[0].jumps());
            }
            let [first, second] = [0, 1].map(|pool| Pool::over(&mut pools[pool].words.clone()).counts().unwrap());
            assert_eq!(second, Counts { blocks: first.blocks + 5, free: first.free + 5, ..first });
            assert_eq!(pools[0].lists, pools[1].lists);
        }
        println!("{layout:?}: {jumps} jumps along the chains at most, and {refused} bins refused for room");
        assert!(jumps > 4 && refused > 20, "chains should lead to and fro, and room run out");
    }
}

#[test]
fn entries_and_tiles_are_taken_from_both_ends() {
    let lists = [vec![7, WHOLE + 9, 11, WHOLE], Vec::new(), vec![5]];
    let mut words = state_of(Layout::One, THREE, &lists, 1, ORDERS[0]).words();
    let pool = Pool::over(&mut words);
    let (mut starts, mut entries) = ([POISON; 9], [POISON; 9]);
    let frame = pool.read_all(&mut starts, &mut entries).unwrap();
    let entry = |id, whole| Entry { id, whole };

    let first = frame.tile(0).unwrap();
    assert_eq!((first.len(), first.size_hint(), first.words()), (4, (4, Some(4)), &lists[0][..]));
    let mut taken = first.clone();
    assert_eq!([taken.next(), taken.next_back()], [Some(entry(7, false)), Some(entry(0, true))]);
    assert_eq!((taken.len(), taken.words()), (2, &[WHOLE + 9, 11][..]));
    assert_eq!([taken.next_back(), taken.next()], [Some(entry(11, false)), Some(entry(9, true))]);
    assert_eq!([taken.next(), taken.next_back(), taken.next()], [None; 3]);
    assert_eq!((first.clone().nth(1), first.clone().nth_back(1)), (Some(entry(9, true)), Some(entry(11, false))));
    assert_eq!((first.clone().nth(4), first.clone().nth_back(4)), (None, None));
    assert_eq!(first.clone().rev().map(Entry::word).collect::<Vec<_>>(), [WHOLE, 11, WHOLE + 9, 7]);
    assert_eq!(format!("{:?}", frame.tile(2).unwrap()), format!("{:?}", [entry(5, false)]));

    assert_eq!((frame.tiles(), frame.starts(), frame.words().len()), (3, &[0, 4, 4, 5][..], 5));
    assert_eq!(
        [1, 2, 3, 8, u32::MAX].map(|tile| frame.tile(tile).map(|list| list.len())),
        [Some(0), Some(1), None, None, None]
    );
    let mut tiles = frame.iter();
    assert_eq!(tiles.len(), 3);
    assert_eq!(tiles.next_back().map(|(tile, list)| (tile, list.len())), Some((2, 1)));
    assert_eq!(tiles.next().map(|(tile, list)| (tile, list.len())), Some((0, 4)));
    assert_eq!((tiles.len(), frame.iter().nth(2).map(|(tile, _)| tile)), (1, Some(2)));
    assert!(tiles.clone().nth(1).is_none());
    assert_eq!(tiles.next().map(|(tile, list)| (tile, list.len())), Some((1, 0)));
    assert!(tiles.next().is_none() && tiles.next_back().is_none() && tiles.next().is_none());
    let by_for: Vec<(u32, Vec<u32>)> = (&frame).into_iter().map(|(tile, list)| (tile, list.words().to_vec())).collect();
    assert_eq!(by_for, (0..).zip(lists).collect::<Vec<_>>());
    assert!(format!("{frame:?}").starts_with("{0: [Entry { id: 7, whole: false }, Entry { id: 9, whole: true }"));

    let mut alone = [0; 4];
    assert_eq!(pool.read_list(0, &mut alone).unwrap().words(), first.words());
    assert_eq!(pool.read_list(3, &mut alone).err(), Some(Refusal::NoTile));
    assert_eq!(pool.read_list(0, &mut alone[..3]).err(), Some(Refusal::Buffer));
}

#[test]
fn an_entry_is_its_word() {
    for (id, whole) in [0, 1, 5, MOST_ID - 1, MOST_ID].into_iter().flat_map(|id| [false, true].map(|whole| (id, whole)))
    {
        let word = if whole { id + WHOLE } else { id };
        assert_eq!((Entry { id, whole }.word(), Entry::of(word)), (word, Entry { id, whole }));
    }
}
