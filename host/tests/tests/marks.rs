//! How many blocks a list of calls needs, in each layout. As many as its marks ask for are enough; as many as were in use at
//! once are just enough.

use std::borrow::Cow;
use std::collections::BTreeMap;

use flourscoop::raw;
use model::layout::{Layout, LAYOUTS};
use model::number;
use model::pool::MOST_BLOCKS;
use model::screen::Screen;
use tests::answers::{less_no_room, no_room};
use tests::call::{alone, Blocks, Call, Outcome, Repeated, Slot};
use tests::generate::{self, cut_screens};
use tests::hold::{hold, Case};
use tests::random::Random;
use tests::smaller::{self, fewer};

/// Calls on a pool, after its opening.
#[derive(Clone, Debug)]
struct List {
    layout: Layout,
    screen: Screen,
    calls: Vec<Repeated>,
}

/// The blocks that the marks ask for, and the most that were in use at once.
#[derive(Clone, Copy, PartialEq, Eq, Debug)]
struct Needs {
    by_marks: u32,
    at_once: u32,
}

/// A call for which there was room, less the shapes of its list that had none; its outcome, and its answers to a list.
struct Made<'a> {
    call: Cow<'a, Call>,
    outcome: Outcome,
    answers: Vec<u8>,
}

/// The mark of each tile, as the archive tells it.
fn marks(slot: &Slot) -> Vec<u32> {
    (0..).map_while(|tile| raw::high_water(&slot.words, tile).done().ok()).map(|[mark]| mark).collect()
}

impl List {
    /// A pool with so many blocks.
    fn opened(&self, blocks: u32) -> Slot {
        let &List { layout, screen, .. } = self;
        let mut slot = Slot::over(vec![0; layout.room(screen, blocks)], blocks);
        assert_eq!(slot.call(&Call::Open { layout, screen, blocks: Blocks::Own }), Ok(alone(number::DONE)));
        slot
    }

    /// Whether a pool with so many blocks gives these calls these answers, and has these marks in the end. Where not, it has
    /// refused one for room.
    fn enough(&self, blocks: u32, made: &[Made], all_marks: &[u32]) -> Result<bool, String> {
        let mut slot = self.opened(blocks);
        for Made { call, outcome, answers } in made {
            let other = slot.call(call)?;
            let others = slot.answers.given();
            if other[0] == number::NO_ROOM || others.iter().any(|&answer| no_room(answer)) {
                return Ok(false);
            }
            let outcome = call.with_more_blocks(*outcome, blocks as i32 - MOST_BLOCKS as i32);
            if other != outcome || others != *answers {
                return Err(format!(
                    "{call:?}: with {blocks} blocks {other:?} {others:?}, with {MOST_BLOCKS} {outcome:?} {answers:?}"
                ));
            }
        }
        if marks(&slot) != all_marks {
            return Err(format!("with {blocks} blocks the marks are others"));
        }
        Ok(true)
    }
}

impl Case for List {
    type Seen = Needs;

    fn make(random: &Random, place: u64) -> List {
        let layout = generate::layout(place);
        let ids_of_block = layout.ids_of_block() as u32;
        let screen = match place % 20 {
            0 => random.pick(&cut_screens()),
            10 => generate::screen(random, 24),
            _ => generate::screen(random, 4),
        };
        let call = |_| match random.below(4) {
            0 => Call::Release { tile: generate::tile(random, screen) },
            _ => Call::make(random, layout, screen),
        };
        let calls = (0..4 + random.below(20)).map(call).filter(|call| !matches!(call, Call::Open { .. }));
        let times = || random.pick(&[1, 1, 1, 1, 1, 2, 5, ids_of_block, ids_of_block + 9]);
        List { layout, screen, calls: calls.map(|call| Repeated(times(), call)).collect() }
    }

    fn smaller(&self) -> Vec<List> {
        let with_calls = |calls| List { calls, ..self.clone() };
        let mut all: Vec<_> = fewer(&self.calls).into_iter().map(with_calls).collect();
        all.extend(smaller::screens(self.screen).into_iter().map(|screen| List { screen, ..self.clone() }));
        all.extend(smaller::layouts(self.layout).into_iter().map(|layout| List { layout, ..self.clone() }));
        all.extend(smaller::each(&self.calls, Repeated::smaller).into_iter().map(with_calls));
        all
    }

    /// Makes the calls in a pool of 2,048 blocks and, less those that it has no room for, in pools with as many blocks as the
    /// marks ask for, as were in use at once, and with a block more and less.
    fn run(&self) -> Result<Needs, String> {
        let mut largest = self.opened(MOST_BLOCKS);
        let (mut made, mut at_once) = (Vec::new(), 0);
        for call in Repeated::each(&self.calls) {
            let outcome = largest.on_archive(call);
            let answers = largest.answers.given();
            if outcome[0] != number::NO_ROOM {
                made.push(Made { call: call.less_no_room(&answers), outcome, answers: less_no_room(&answers) });
            }
            at_once = at_once.max(MOST_BLOCKS - largest.words[4]);
        }
        let marks = marks(&largest);
        let by_marks = marks.iter().map(|mark| mark.div_ceil(self.layout.ids_of_block() as u32)).sum();
        let around = [by_marks, at_once].into_iter().flat_map(|blocks| [blocks.saturating_sub(1), blocks, blocks + 1]);
        for blocks in around.filter(|&blocks| blocks <= MOST_BLOCKS) {
            let enough = self.enough(blocks, &made, &marks)?;
            if enough != (at_once <= blocks) || (by_marks <= blocks && !enough) {
                return Err(format!(
                    "{blocks} blocks are {}enough; the marks ask for {by_marks}, and {at_once} were in use at once",
                    if enough { "" } else { "not " }
                ));
            }
        }
        Ok(Needs { by_marks, at_once })
    }
}

#[test]
fn as_many_blocks_as_the_marks_ask_for_are_enough() {
    let mut seen: BTreeMap<Layout, [u32; 4]> = BTreeMap::new();
    hold(0xF100_0006, 1200, |list: &List, needs| {
        let [tight, loose, most, with_lists] = seen.entry(list.layout).or_default();
        *tight += u32::from(needs.by_marks == needs.at_once && needs.at_once > 0);
        *loose += u32::from(needs.by_marks > needs.at_once);
        *most = needs.by_marks.max(*most);
        *with_lists += u32::from(list.calls.iter().any(|Repeated(_, call)| matches!(call, Call::BinList(_))));
    });
    println!(
        "lists that need what the marks ask for or less, the most blocks asked for, lists with draw calls: {seen:?}"
    );
    assert_eq!(seen.len(), LAYOUTS.len());
    for [tight, loose, most, with_lists] in seen.into_values() {
        assert!(with_lists > 100, "draw calls should be common");
        assert!(tight > 100, "a block less than the marks ask for should often be refused");
        assert!(loose > 60, "lists that give blocks back should be common");
        assert!(most > 100, "some lists should fill many tiles");
    }
}

/// Calls on a screen of two tiles.
fn on_two_tiles(layout: Layout, calls: &[(u32, Call)]) -> List {
    let calls = calls.iter().map(|(times, call)| Repeated(*times, call.clone())).collect();
    List { layout, screen: Screen { width: 16, height: 8, s: 3 }, calls }
}

fn point_in(tile: i32) -> Call {
    Call::Bin { id: 5, shape: vec![[128 * tile + 1, 1]] }
}

#[test]
fn without_a_release_a_block_less_is_refused() {
    for layout in LAYOUTS {
        let one_more = layout.words_of_block();
        let list = on_two_tiles(layout, &[(one_more as u32, point_in(0)), (1, point_in(1))]);
        assert_eq!(list.run(), Ok(Needs { by_marks: 3, at_once: 3 }), "{layout:?}");
        let mut slot = list.opened(2);
        let numbers: Vec<u32> = Repeated::each(&list.calls).map(|call| slot.call(call).unwrap()[0]).collect();
        assert_eq!(numbers, [vec![number::DONE; one_more], vec![number::NO_ROOM]].concat(), "{layout:?}");
    }
}

#[test]
fn what_a_tile_gives_back_another_takes() {
    for layout in LAYOUTS {
        let one_more = layout.words_of_block() as u32;
        let list = [(one_more, point_in(0)), (1, Call::Release { tile: 0 }), (one_more + 8, point_in(1))];
        assert_eq!(on_two_tiles(layout, &list).run(), Ok(Needs { by_marks: 4, at_once: 2 }), "{layout:?}");
    }
}
