//! Sound pools in each layout with one to three words changed: the audit against the sentences on soundness, and calls on
//! them. The ends of an entry's range and of a mark's, the words that tell the layout, and pools with three words a tile.

use std::collections::BTreeMap;

use model::layout::{Layout, LAYOUTS, WORDS_OF_TILE};
use model::marked::SCREEN;
use model::number;
use model::pool::{State, MOST_BLOCKS, MOST_ENTRY, MOST_ID, POISON, WHOLE};
use model::screen::Screen;
use tests::call::{alone, done, Call, Slot};
use tests::draw::Draw;
use tests::generate::{self, bad_layouts};
use tests::hold::{hold, Case};
use tests::random::Random;
use tests::smaller::{self, fewer};
use tests::square::cut_both_ways;

/// A sound pool with words changed and, perhaps, words cut off or added; and a call on it.
#[derive(Clone, Debug)]
struct Damaged {
    state: State,
    changes: Vec<(usize, u32)>,
    length: usize,
    call: Call,
}

/// A word of the pool, those on which soundness turns more often.
fn place(random: &Random, state: &State, words: &[u32]) -> usize {
    let layout = state.layout;
    let any = random.below(words.len() as u32) as usize;
    let tile = generate::tile(random, state.screen);
    let block = random.below(state.blocks.max(1));
    let chain = &state.tiles[tile as usize];
    // the places around the end of the tile's list
    let end = chain.entries.len().saturating_sub(random.below(2) as usize) % layout.ids_of_block();
    let at_end = chain.blocks.last().map_or(any, |&last| layout.block_at(state.screen, last) + end);
    let place = match random.below(8) {
        0 => random.below(layout.header() as u32) as usize,
        1 | 2 => layout.tile_at(tile) + random.below(WORDS_OF_TILE as u32) as usize,
        3 | 4 => layout.link_at(state.screen, block),
        5 => at_end,
        _ => any,
    };
    place.min(words.len() - 1)
}

/// Another value for a word: one beside it, another word's, or one that means something.
fn value(random: &Random, state: &State, words: &[u32], place: usize) -> u32 {
    let other = words[random.below(words.len() as u32) as usize];
    let link = random.below(state.blocks + 2);
    let most_entries = state.layout.ids_of_block() as u32 * state.blocks;
    match random.below(9) {
        0 => words[place].wrapping_add(1),
        1 => words[place].wrapping_sub(1),
        2 => other,
        3 | 4 => link,
        5 => random.pick(&[0, 1, 8, 10, 31, 32, 63, 64, POISON, MOST_ID, WHOLE, MOST_ENTRY, MOST_ENTRY + 1, u32::MAX]),
        6 => random.below(MOST_ENTRY),
        7 => random.pick(&[most_entries, most_entries + 1]),
        _ => random.word() as u32,
    }
}

/// Changes after which each chain is right by itself, and the chains together are not: a tile has another's chain, the
/// first free block is in no chain, or a tile's blocks are in none.
fn amiss_as_a_whole(random: &Random, state: &State, words: &[u32]) -> Vec<(usize, u32)> {
    let [from, to] = [0; 2].map(|_| state.layout.tile_at(generate::tile(random, state.screen)));
    match random.below(3) {
        0 => (0..WORDS_OF_TILE).map(|word| (to + word, words[from + word])).collect(),
        1 if words[5] != 0 => {
            let after = state.layout.link_at(state.screen, words[5] - 1);
            vec![(4, words[4] - 1), (5, words[after])]
        }
        _ => (0..WORDS_OF_TILE).map(|word| (to + word, 0)).collect(),
    }
}

impl Damaged {
    /// A call on a pool that is as it was opened or binned.
    fn whole(state: State, call: Call) -> Damaged {
        Damaged { length: state.words().len(), state, changes: Vec::new(), call }
    }

    fn words(&self) -> Vec<u32> {
        let mut words = self.state.words();
        words.resize(self.length, 0x7A11);
        for &(place, value) in &self.changes {
            if let Some(word) = words.get_mut(place) {
                *word = value;
            }
        }
        words
    }
}

impl Case for Damaged {
    /// `Sound`, or the first fault that the model finds
    type Seen = String;

    fn make(random: &Random, place_of_case: u64) -> Damaged {
        let state = generate::state(random, generate::layout(place_of_case));
        let words = state.words();
        let places: Vec<usize> = (0..1 + random.below(3)).map(|_| place(random, &state, &words)).collect();
        let changes = match (random.below(8), &places[..]) {
            (0, _) => amiss_as_a_whole(random, &state, &words),
            (1..=3, &[one, two]) => vec![(one, words[two]), (two, words[one])],
            _ => places.iter().map(|&place| (place, value(random, &state, &words, place))).collect(),
        };
        let length = match random.below(40) {
            0 => words.len() - 1,
            1 => random.below(words.len() as u32) as usize,
            2 => random.below(12) as usize,
            3..=9 => words.len() + random.below(40) as usize,
            _ => words.len(),
        };
        let [middle, last, past] = Call::reads_of_longest(&state);
        let call = match random.below(12) {
            0 => middle,
            1 => last,
            2 => past,
            3 => Call::BinList(Draw::make(random, state.screen, 4)),
            _ => Call::make(random, state.layout, state.screen),
        };
        Damaged { state, changes, length, call }
    }

    fn smaller(&self) -> Vec<Damaged> {
        let with = |changes| Damaged { changes, ..self.clone() };
        let mut all: Vec<_> = fewer(&self.changes).into_iter().map(with).collect();
        let room = self.state.words().len();
        if self.length != room {
            all.push(Damaged { length: room, ..self.clone() });
        }
        let calls = self.call.smaller().into_iter().chain((self.call != Call::Audit).then_some(Call::Audit));
        all.extend(calls.map(|call| Damaged { call, ..self.clone() }));
        all.extend(smaller::states(&self.state).into_iter().map(|state| Damaged { state, ..self.clone() }));
        if self.changes.is_empty() && self.length == room {
            all.extend(smaller::pools(&self.state).into_iter().map(|state| Damaged::whole(state, self.call.clone())));
        }
        all
    }

    fn run(&self) -> Result<String, String> {
        let mut slot = Slot::over(self.words(), self.state.blocks);
        let verdict = match State::read(&slot.words) {
            Ok(state) if !slot.words.starts_with(&state.words()) => {
                return Err("the words of the state that was read are others".into());
            }
            Ok(_) => "Sound".into(),
            Err(fault) => format!("{fault:?}"),
        };
        let on_all = Call::at_once(self.state.screen.tiles() - 1);
        for call in [&Call::Audit].into_iter().chain(&on_all).chain([&self.call]) {
            let told = slot.call(call);
            told.map_err(|wrong| format!("{wrong}\nthe sentences on soundness say of the words: {verdict}"))?;
        }
        Ok(verdict)
    }
}

/// What the pools of a layout reached.
#[derive(Default, Debug)]
struct Reached {
    /// sound still, or the first fault found
    verdicts: BTreeMap<String, u64>,
    /// the same of the pools on which a list of shapes was binned
    with_list: BTreeMap<String, u64>,
    /// the most blocks that a chain had
    chain: usize,
    /// how many have 4,096 tiles and 2,048 blocks
    largest: u32,
}

#[test]
fn the_audit_says_yes_exactly_for_sound_pools() {
    let mut reached: BTreeMap<Layout, Reached> = BTreeMap::new();
    let mut cut = 0;
    hold(0xF100_0003, 400_000, |Damaged { state, call, .. }: &Damaged, verdict| {
        let reached = reached.entry(state.layout).or_default();
        if matches!(call, Call::BinList(_)) {
            *reached.with_list.entry(verdict.clone()).or_default() += 1;
        }
        *reached.verdicts.entry(verdict).or_default() += 1;
        reached.chain = reached.chain.max(state.longest_chain());
        reached.largest += u32::from(state.tiles.len() == 4096 && state.blocks == 2048);
        cut += u32::from(cut_both_ways(state.screen));
    });
    reached.iter().for_each(|(layout, reached)| println!("{layout:?}: {reached:?}"));
    println!("{cut} pools are for screens cut on both axes");
    assert_eq!(reached.len(), LAYOUTS.len());
    for Reached { verdicts, with_list, chain, largest } in reached.into_values() {
        assert_eq!(verdicts.len(), 11, "each sentence should be broken, and some pools be sound still");
        assert!(verdicts.values().all(|&pools| pools > 500), "each often");
        assert_eq!(with_list.len(), 11, "for lists of shapes too");
        assert!(with_list.values().all(|&pools| pools > 50), "each often");
        assert!(chain > 40 && largest > 20, "long chains and largest pools should be there");
    }
    assert!(cut > 100_000, "screens that are cut on both axes should be common");
}

/// Each call on these words is refused with 4, and every word stays. The answer is the words after the calls.
fn expect_unsound(words: &[u32], what: &str) -> Vec<u32> {
    let mut slot = Slot::over(words.to_vec(), 0);
    for call in Call::each_on_a_pool() {
        assert_eq!(slot.call(&call), Ok(alone(number::UNSOUND)), "{call:?} on {what}");
    }
    assert_eq!(slot.words, words, "{what}");
    slot.words
}

/// The words are a sound pool of this layout: the audit says yes, and the mark of tile 0 is told before and after a release.
fn expect_sound(words: &[u32], layout: Layout, what: &str) {
    let mut slot = Slot::over(words.to_vec(), 0);
    let state = slot.state.as_ref().unwrap_or_else(|| panic!("{what} is not sound"));
    let (blocks, mark) = (state.tiles[0].blocks.len() as u32, state.tiles[0].mark);
    assert_eq!(state.layout, layout, "{what}");
    let mut expect = |call, value| assert_eq!(slot.call(&call), Ok(done([value])), "{call:?} on {what}");
    expect(Call::Audit, 0);
    expect(Call::HighWater { tile: 0 }, mark);
    expect(Call::Release { tile: 0 }, blocks);
    expect(Call::HighWater { tile: 0 }, mark);
}

/// A pool in which tile 0 has so many entries.
fn with_entries(layout: Layout, screen: Screen, blocks: u32, entries: u32) -> State {
    let mut state = State::opened(layout, screen, blocks);
    for id in 0..entries {
        assert_eq!(state.bin(id, &[[1, 1]]).map(|[tiles, ..]| tiles), Ok(1));
    }
    state
}

/// The words with changes: alone, and in a slice so long that it is not the length that is refused.
fn changed(words: &[u32], changes: &[(usize, u32)]) -> [Vec<u32>; 3] {
    let mut changed = words.to_vec();
    changes.iter().for_each(|&(place, value)| changed[place] = value);
    let [mut before_zeros, mut before_poison] = [changed.clone(), changed.clone()];
    before_zeros.resize(2 * words.len(), 0);
    before_poison.resize(2 * words.len(), POISON);
    [changed, before_zeros, before_poison]
}

/// An entry at each end of a block, in a chain of three.
#[test]
fn an_entry_is_at_most_33554431() {
    for layout in LAYOUTS {
        let ids = layout.ids_of_block() as u32;
        let words = with_entries(layout, SCREEN, 3, 2 * ids + 1).words();
        for place in [0, 1, ids - 1, ids, 2 * ids - 1, 2 * ids] {
            let at = layout.block_at(SCREEN, place / ids) + (place % ids) as usize;
            assert_eq!(words[at], place);
            let with_entry = |entry: u32| {
                let [words, ..] = changed(&words, &[(at, entry)]);
                (words, format!("the entry {entry} at place {place} in {layout:?}"))
            };
            for (id, whole) in [(0, 0), (MOST_ID, 0), (0, 1), (1, 1), (MOST_ID, 1)] {
                let (words, what) = with_entry(id + whole * WHOLE);
                let read = Slot::over(words.clone(), 0).call(&Call::Read { tile: 0, place });
                assert_eq!(read, Ok(done([id, whole])), "{what}");
                expect_sound(&words, layout, &what);
            }
            for entry in [MOST_ENTRY + 1, MOST_ENTRY + 2, 1 << 26, 1 << 31, POISON, u32::MAX] {
                let (words, what) = with_entry(entry);
                expect_unsound(&words, &what);
            }
        }
    }
}

#[test]
fn a_mark_is_at_least_the_entries_and_at_most_what_all_blocks_hold() {
    for layout in LAYOUTS {
        let ids = layout.ids_of_block() as u32;
        let small = [(0, 0), (1, 0), (1, 1), (1, ids), (2, 0), (2, 1), (2, ids), (2, ids + 1), (2, 2 * ids)];
        for (blocks, entries) in small.into_iter().chain([(MOST_BLOCKS, 0), (MOST_BLOCKS, 2 * ids + 1)]) {
            let most = ids * blocks;
            let with_mark = |mark: u32| {
                let mut words = with_entries(layout, SCREEN, blocks, entries).words();
                words[layout.mark_at(0)] = mark;
                (words, format!("{entries} entries and the mark {mark} of {blocks} blocks in {layout:?}"))
            };
            for (words, what) in [entries, (entries + most) / 2, most].map(with_mark) {
                expect_sound(&words, layout, &what);
            }
            for (words, what) in [entries.wrapping_sub(1), most + 1, 1 << 17, u32::MAX].map(with_mark) {
                expect_unsound(&words, &what);
            }
        }
    }
}

const ONE_TILE: Screen = Screen { width: 1, height: 1, s: 3 };
const MOST_TILES: Screen = Screen { width: 512, height: 512, s: 3 };

/// Pools of a layout with no block, with free ones, and with up to three blocks in a chain.
fn pools(layout: Layout) -> Vec<State> {
    let ids = layout.ids_of_block() as u32;
    let small = [(SCREEN, 0, 0), (SCREEN, 2, 0), (SCREEN, 2, 1), (SCREEN, 2, ids), (SCREEN, 40, ids + 1)];
    let others = [(ONE_TILE, 0, 0), (ONE_TILE, 3, 2 * ids + 1), (MOST_TILES, MOST_BLOCKS, ids + 1)];
    let state = |(screen, blocks, entries)| with_entries(layout, screen, blocks, entries);
    small.into_iter().chain(others).map(state).collect()
}

/// Word 6, alone or with the word 7 that goes with it, says another edition, or none; then both are changed back.
#[test]
fn a_pool_is_read_as_the_edition_that_word_6_tells() {
    for state in LAYOUTS.into_iter().flat_map(pools) {
        let words = state.words();
        for word_6 in [0, 7, 8, 9, 10, 11, 32, 64, u32::MAX].into_iter().filter(|&word_6| word_6 != words[6]) {
            for word_7 in [words[7], word_6.wrapping_add(4 * state.screen.tiles())] {
                let what = format!("words 6 and 7 are {word_6} and {word_7} in {state:?}");
                for slice in changed(&words, &[(6, word_6), (7, word_7)]) {
                    let mut after = expect_unsound(&slice, &what);
                    after[6..8].copy_from_slice(&words[6..8]);
                    expect_sound(&after, state.layout, &format!("{what}, and are changed back"));
                }
            }
        }
    }
}

#[test]
fn words_8_and_9_are_as_the_opening_writes_them() {
    for state in LAYOUTS[1..].iter().copied().flat_map(pools) {
        let words = state.words();
        let refused_with = |place, value| {
            for slice in changed(&words, &[(place, value)]) {
                expect_unsound(&slice, &format!("word {place} is {value} in {state:?}"));
            }
        };
        bad_layouts().iter().for_each(|bad| refused_with(8, bad.words_of_block() as u32));
        [1, 2, 8, 10, 31, 32, 64, POISON, 1 << 31, u32::MAX].iter().for_each(|&word_9| refused_with(9, word_9));
        // without a block the other size says as much
        let other = 96 - words[8];
        match state.blocks {
            0 => {
                let [words, ..] = changed(&words, &[(8, other)]);
                expect_sound(&words, Layout::Two { block_words: other }, &format!("word 8 is {other} in {state:?}"));
            }
            _ => refused_with(8, other),
        }
    }
}

/// The words of a pool of edition one with three words a tile, which have no marks.
fn three_words_a_tile(state: &State) -> Vec<u32> {
    let words = state.words();
    let (tiles, blocks) = words[8..].split_at(WORDS_OF_TILE * state.tiles.len());
    let without_marks = tiles.chunks(WORDS_OF_TILE).flat_map(|tile| &tile[..3]);
    let header = words[..7].iter().copied().chain([8 + 3 * state.screen.tiles()]);
    header.chain(without_marks.chain(blocks).copied()).collect()
}

#[test]
fn a_pool_of_three_words_a_tile_is_refused() {
    for state in pools(Layout::One) {
        let words = three_words_a_tile(&state);
        assert_eq!(words.len(), (8 + 3 * state.screen.tiles() + 32 * state.blocks) as usize);
        for slice in changed(&words, &[]) {
            expect_unsound(&slice, &format!("three words a tile in {state:?}"));
        }
    }
}
