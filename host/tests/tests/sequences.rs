//! Mixed calls on two pools of different sizes, in each layout: every answer and every word against the model, every mark
//! against the lengths that its list had, and demand 3, in which a list of shapes counts as its single bins.

use std::collections::BTreeMap;

use model::layout::{Layout, LAYOUTS};
use model::number;
use model::pool::{State, POISON};
use model::screen::Screen;
use tests::answers::{less_no_room, runs_out};
use tests::call::{Blocks, Call, Outcome, Repeated, Slot};
use tests::generate::{self, cut_screens, rarest_cut};
use tests::hold::{hold, Case};
use tests::lengths::Watched;
use tests::random::Random;
use tests::smaller::{self, fewer};
use tests::square::{cut_both_ways, squares_touched};

/// Calls on two pools of one layout for one screen, the second with at least as many blocks as the first.
#[derive(Clone, Debug)]
struct Sequence {
    layout: Layout,
    screen: Screen,
    blocks: [u32; 2],
    /// words past the room that each pool needs for any of its openings
    tails: [usize; 2],
    calls: Vec<Repeated>,
}

/// How large a sequence is: the screen, the blocks of both pools, and how often a call may be repeated.
struct Sizes {
    screen: Screen,
    blocks: [u32; 2],
    times: Vec<u32>,
}

impl Sizes {
    /// A few tiles, in which the same call again and again makes chains.
    fn usual(random: &Random, ids_of_block: u32) -> Sizes {
        let first = random.below(24);
        let blocks = [first, first + 1 + random.below(12)];
        let times = vec![1, 1, 1, 1, 1, 1, 1, 2, 3, ids_of_block, ids_of_block + 3];
        Sizes { screen: generate::screen(random, 4), blocks, times }
    }

    /// A screen that ends inside its last tiles along both axes.
    fn cut(random: &Random) -> Sizes {
        let first = random.below(random.pick(&[24, 600]));
        let blocks = [first, first + random.below(600)];
        Sizes { screen: random.pick(&cut_screens()), blocks, times: vec![1, 1, 1, 2] }
    }

    /// As large as a pool can be, or nearly.
    fn large(random: &Random) -> Sizes {
        let screen = random.pick(&[generate::full_screen(random), generate::screen(random, 512)]);
        let first = random.pick(&[1024, 2047, random.below(2049)]);
        let second = random.pick(&[2048, 2048 - random.below(2049 - first)]);
        Sizes { screen, blocks: [first, second], times: vec![1, 1, 2] }
    }

    /// Few tiles with long chains.
    fn long(random: &Random, ids_of_block: u32) -> Sizes {
        let first = 60 + random.below(60);
        let blocks = [first, first + random.below(30)];
        let times = vec![1, 1, ids_of_block, 10 * ids_of_block, 45 * ids_of_block + 5];
        Sizes { screen: generate::screen(random, 2), blocks, times }
    }
}

/// What the calls of a sequence reached.
struct Seen {
    /// the answers of the first pool
    answers: Vec<Outcome>,
    /// how many lists of shapes ran out of room in the middle there
    run_out: u64,
    /// the most blocks that a chain had, in either pool
    chain: usize,
    /// after how many calls a list of the first pool was shorter than it had been
    shorter: u64,
    /// the entries of the first pool that have the flag in the end
    whole: usize,
}

impl Case for Sequence {
    type Seen = Seen;

    fn make(random: &Random, place: u64) -> Sequence {
        let layout = generate::layout(place);
        let ids_of_block = layout.ids_of_block() as u32;
        let sizes = match place % 1000 {
            0 => Sizes::large(random),
            500 => Sizes::long(random, ids_of_block),
            place if place % 50 == 25 => Sizes::cut(random),
            _ => Sizes::usual(random, ids_of_block),
        };
        let Sizes { screen, blocks, times } = sizes;
        let early = random.pick(&[0, 0, 0, 0, 0, 0, 0, 1, 3]);
        let mut calls: Vec<_> = (0..early).map(|_| Repeated(1, Call::make(random, layout, screen))).collect();
        calls.push(Repeated(1, Call::Open { layout, screen, blocks: Blocks::Own }));
        for _ in 0..2 + random.below(14) {
            calls.push(Repeated(random.pick(&times), Call::make(random, layout, screen)));
        }
        let tails = [random.below(4) as usize, random.below(4) as usize];
        Sequence { layout, screen, blocks, tails, calls }
    }

    fn smaller(&self) -> Vec<Sequence> {
        let with_calls = |calls| Sequence { calls, ..self.clone() };
        let blocks = [[self.blocks[0] / 2, self.blocks[1]], [self.blocks[0], self.blocks[0]]];
        let with_blocks = |blocks| Sequence { blocks, ..self.clone() };
        let mut all: Vec<_> = fewer(&self.calls).into_iter().map(with_calls).collect();
        all.extend(smaller::screens(self.screen).into_iter().map(|screen| self.on(self.layout, screen)));
        all.extend(smaller::layouts(self.layout).into_iter().map(|layout| self.on(layout, self.screen)));
        all.extend(blocks.into_iter().filter(|&fewer| fewer != self.blocks).map(with_blocks));
        all.extend(smaller::each(&self.calls, Repeated::smaller).into_iter().map(with_calls));
        all
    }

    /// Makes each call on the first pool and, unless that has no room for it (3 or 8), on the second, a list of shapes less
    /// those that the first has no room for; then reads the longest list of each.
    fn run(&self) -> Result<Seen, String> {
        let [mut first, mut second] = [0, 1].map(|pool| Watched::over(self.slot(pool)));
        let mut seen = Seen { answers: Vec::new(), run_out: 0, chain: 0, shorter: 0, whole: 0 };
        for call in Repeated::each(&self.calls) {
            let answer = first.call(call).map_err(|wrong| format!("first pool: {wrong}"))?;
            let listed = first.slot.answers.given();
            seen.answers.push(answer);
            seen.run_out += u64::from(runs_out(&listed));
            if ![number::SHORT, number::NO_ROOM].contains(&answer[0]) {
                let with_room = call.less_no_room(&listed);
                let shared = second.call(&with_room).map_err(|wrong| format!("second pool: {wrong}"))?;
                let also_listed = second.slot.answers.given();
                let [fewer, more] =
                    [&first, &second].map(|pool| pool.slot.state.as_ref().map_or(0, |state| state.blocks));
                if shared != call.with_more_blocks(answer, more as i32 - fewer as i32)
                    || also_listed != less_no_room(&listed)
                {
                    return Err(format!(
                        "{call:?}: the first pool answers {answer:?} {listed:?}, the second {shared:?} {also_listed:?}"
                    ));
                }
                if let Some(wrong) = second.slot.lent.other_than(&first.slot.lent) {
                    return Err(format!("{call:?}: by the second pool, and not by the first, {wrong}"));
                }
            }
            self.agree(&first.slot, &second.slot).map_err(|wrong| format!("after {call:?}: {wrong}"))?;
            seen.chain = seen.chain.max(second.slot.state.as_ref().map_or(0, State::longest_chain));
        }
        seen.shorter = first.shorter;
        seen.whole = first.slot.state.as_ref().map_or(0, State::whole_entries);
        for mut slot in [first.slot, second.slot] {
            if State::read(&slot.words).ok() != slot.state {
                return Err("the words do not say what the model's state is".into());
            }
            for read in slot.state.as_ref().map(Call::reads_of_longest).iter().flatten() {
                slot.call(read).map_err(|wrong| format!("after all calls, {wrong}"))?;
            }
        }
        Ok(seen)
    }
}

impl Sequence {
    /// The same with another layout and screen.
    fn on(&self, layout: Layout, screen: Screen) -> Sequence {
        let mut other = Sequence { layout, screen, ..self.clone() };
        for Repeated(_, call) in &mut other.calls {
            if let Call::Open { layout: own, screen: opened, .. } = call {
                if *own == self.layout {
                    *own = layout;
                }
                if *opened == self.screen {
                    *opened = screen;
                }
            }
        }
        other
    }

    /// How many shapes were listed, going by these answers, in fewer tiles than full squares would have it.
    fn in_fewer_tiles(&self, answers: &[Outcome]) -> usize {
        let mut answers = answers.iter();
        let last_answers = self.calls.iter().map(|Repeated(times, call)| (call, answers.nth(*times as usize - 1)));
        let fewer = |(call, answer): &(&Call, Option<&Outcome>)| match (call.shape(), answer) {
            (Some(shape), Some([number::DONE, tiles, ..])) => *tiles < squares_touched(self.screen, &shape),
            _ => false,
        };
        last_answers.filter(fewer).count()
    }

    /// How many reads, going by these answers, find an entry with the flag.
    fn whole_reads(&self, answers: &[Outcome]) -> usize {
        let found = |(call, answer): &(&Call, &Outcome)| {
            matches!((call, answer), (Call::Read { .. }, [number::DONE, _, 1, ..]))
        };
        Repeated::each(&self.calls).zip(answers).filter(found).count()
    }

    /// How many bins, going by these answers, list a shape in some tile with tests, and how many without.
    fn tested(&self, answers: &[Outcome]) -> [usize; 2] {
        let bin = |call: &Call| matches!(call, Call::Bin { .. } | Call::BinPixels { .. });
        let bins = Repeated::each(&self.calls).zip(answers).filter(|(call, _)| bin(call));
        let listed = bins.filter(|(_, [_, tiles, ..])| *tiles > 0);
        let (with, without): (Vec<_>, Vec<_>) = listed.partition(|(_, [.., tests, _])| *tests > 0);
        [with.len(), without.len()]
    }

    /// How many lists with entries, going by these answers, were read at once, and how many did not fit; and how many frames.
    fn read_at_once(&self, answers: &[Outcome]) -> [usize; 4] {
        let mut calls = [0; 4];
        for (call, &[number, count, ..]) in Repeated::each(&self.calls).zip(answers) {
            let which = match call {
                Call::ReadList { .. } => 0,
                Call::ReadAll { .. } => 2,
                _ => continue,
            };
            calls[which] += usize::from(count > 0);
            calls[which + 1] += usize::from(number == number::BUFFER);
        }
        calls
    }

    /// A pool's slot before it is opened: words that say nothing.
    fn slot(&self, pool: usize) -> Slot {
        let room = |Repeated(_, call): &Repeated| match call {
            Call::Open { layout, .. } if layout.allowed() => layout.room(self.screen, self.blocks[pool]),
            _ => 0,
        };
        let words = self.calls.iter().map(room).max().unwrap_or(0) + self.tails[pool];
        Slot::over((0..words as u32).map(|at| at.wrapping_mul(0x9E37_79B9)).collect(), self.blocks[pool])
    }

    /// Demand 3 of two pools that are opened: both have one layout, all lists and marks agree, the second has more free blocks
    /// by the difference at the opening, and the id places of its extra blocks hold poison.
    fn agree(&self, first: &Slot, second: &Slot) -> Result<(), String> {
        let (Some(one), Some(two)) = (&first.state, &second.state) else {
            return Ok(());
        };
        if one.layout != two.layout {
            return Err("the layouts differ".into());
        }
        if one.tiles.iter().zip(&two.tiles).any(|(one, two)| one.entries != two.entries) {
            return Err("the lists differ".into());
        }
        let mut marks = (0..one.screen.tiles()).map(|tile| one.layout.mark_at(tile));
        if let Some(at) = marks.find(|&at| first.words[at] != second.words[at]) {
            return Err(format!("the marks in word {at} differ"));
        }
        if second.words[4] - first.words[4] != two.blocks - one.blocks {
            return Err(format!("the first has {} free blocks, the second {}", first.words[4], second.words[4]));
        }
        let places = |block| &second.words[two.layout.places_at(two.screen, block)];
        match (one.blocks..two.blocks).find(|&block| places(block).iter().any(|&word| word != POISON)) {
            Some(block) => Err(format!("extra block {block} holds an id")),
            None => Ok(()),
        }
    }
}

/// What the sequences of a layout reached.
#[derive(Default, Debug)]
struct Reached {
    /// the calls on the first pool, by the number that they return
    numbers: BTreeMap<u32, u64>,
    /// how many lists of shapes ran out of room in the middle
    run_out: u64,
    /// the most blocks that a chain had
    chain: usize,
    /// how many have a second pool with 4,096 tiles and 2,048 blocks
    largest: u32,
    /// after how many calls a mark is above the entries of its tile
    shorter: u64,
    /// the entries of the first pools that have the flag in the end
    whole: usize,
    /// reads that find such an entry
    whole_read: usize,
    /// bins that list a shape with tests, and without
    tested: [usize; 2],
    /// lists with entries that are read at once, and that do not fit; and frames
    at_once: [usize; 4],
}

#[test]
fn two_pools_answer_and_hold_as_the_model() {
    let mut reached: BTreeMap<Layout, Reached> = BTreeMap::new();
    let (mut cut, mut in_fewer_tiles, mut screens) = (0, 0, Vec::new());
    hold(0xF100_0002, 30_000, |case: &Sequence, seen: Seen| {
        let reached = reached.entry(case.layout).or_default();
        seen.answers.iter().for_each(|answer| *reached.numbers.entry(answer[0]).or_default() += 1);
        reached.run_out += seen.run_out;
        reached.chain = reached.chain.max(seen.chain);
        reached.largest += u32::from(case.screen.tiles() == 4096 && case.blocks[1] == 2048);
        reached.shorter += seen.shorter;
        reached.whole += seen.whole;
        reached.whole_read += case.whole_reads(&seen.answers);
        reached.tested.iter_mut().zip(case.tested(&seen.answers)).for_each(|(reached, bins)| *reached += bins);
        let at_once = case.read_at_once(&seen.answers);
        reached.at_once.iter_mut().zip(at_once).for_each(|(reached, calls)| *reached += calls);
        screens.push(case.screen);
        if cut_both_ways(case.screen) {
            cut += 1;
            in_fewer_tiles += case.in_fewer_tiles(&seen.answers);
        }
    });
    let rarest = rarest_cut(&screens);
    reached.iter().for_each(|(layout, reached)| println!("{layout:?}: {reached:?}"));
    println!("{cut} sequences are on screens cut on both axes; each of the cut screens comes {rarest} times or more");
    println!("{in_fewer_tiles} shapes on these were listed in fewer tiles than full squares would have it");
    assert_eq!(reached.len(), LAYOUTS.len());
    for Reached { numbers, run_out, chain, largest, shorter, whole, whole_read, tested, at_once } in
        reached.into_values()
    {
        assert!(numbers.keys().copied().eq((0..=11).chain([15])), "each number should be returned");
        assert!(numbers.values().all(|&calls| calls > 500), "and often");
        assert!(run_out > 500, "lists should often run out of room in the middle");
        assert!(chain > 40 && largest > 1, "long chains and largest pools should be there");
        assert!(shorter > 60_000, "lists should often be shorter than they had been");
        assert!(whole > 10_000 && whole_read > 500, "entries with the flag should be common, and be read");
        assert!(tested.iter().all(|&bins| bins > 5000), "bins with tests and without should be common");
        assert!(at_once.iter().all(|&calls| calls > 500), "lists and frames should be read at once, and some not fit");
    }
    assert!(cut > 10_000 && rarest > 3, "screens that are cut on both axes should be common");
    assert!(in_fewer_tiles > 5000, "it should often matter that tiles are cut");
}
