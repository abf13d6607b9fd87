//! From f32 to units: the unit that the archive says, and the one that its bin goes by.
//!
//! A line that passes through the point in which four tiles meet is listed in all four; with one end a unit off it misses
//! that point, and at least one of the tiles. So for each f32 there is a line that is listed four times exactly if bin
//! takes the f32 to the unit that the model computes.

use std::thread;

use flourscoop::raw::{self, Answer};
use model::layout::Layout;
use model::pool::State;
use model::screen::Screen;
use model::stepping::tests;
use model::touch::touched;
use model::unit::unit;
use model::{number, Vertex, UNITS};
use tests::call::pixels_of;
use tests::hold::{hold, Case};
use tests::random::Random;

const SCREEN: Screen = Screen { width: 16, height: 16, s: 3 };

/// Both coordinates of the point in which the four tiles of the screen meet.
const MEETING: i32 = 128;

const ID: u32 = 5;

/// Asks for the unit of these bits.
fn check_unit(bits: u32) -> Result<(), String> {
    let archive = raw::unit(f32::from_bits(bits));
    let model = match unit(bits) {
        Ok(unit) => Answer { number: number::DONE, values: [unit as u32] },
        Err(number) => Answer { number, values: [0] },
    };
    if archive != model {
        let v = f32::from_bits(bits);
        return Err(format!(
            "the unit of bits {bits:#010x}, that is {v:?}: the archive gives {archive:?}, the model {model:?}"
        ));
    }
    Ok(())
}

/// A diagonal line through the meeting point whose first x is this unit, and which ends one unit past the point.
fn diagonal(unit: i32) -> [Vertex; 2] {
    let gap = MEETING - unit;
    [[unit, MEETING - gap.abs()], [MEETING + gap.signum(), MEETING + 1]]
}

/// The words of a pool of four blocks, opened and with the id in each of its four tiles.
struct Images {
    opened: Vec<u32>,
    listed: Vec<u32>,
}

impl Images {
    fn new() -> Images {
        let mut state = State::opened(Layout::One, SCREEN, 4);
        let opened = state.words();
        assert_eq!(state.bin(ID, &[[MEETING, MEETING]]), Ok([4, 4, 3]));
        Images { opened, listed: state.words() }
    }

    /// Bins the diagonal whose first x is the unit of these bits, its first coordinate given as the bits themselves; with
    /// x and y exchanged where `mirrored`.
    fn check_bin(&self, bits: u32, mirrored: bool) -> Result<(), String> {
        let expected = unit(bits);
        let mut line = diagonal(expected.unwrap_or(0));
        if mirrored {
            line.iter_mut().for_each(|vertex| vertex.reverse());
        }
        let mut pixels = line.map(|vertex| vertex.map(|unit| (unit as f32 / 16.0).to_bits()));
        pixels[0][usize::from(mirrored)] = bits;
        let mut words = self.opened.clone();
        let archive = raw::bin_pixels(&mut words, ID, pixels_of(&pixels));
        let (model, image) = match expected {
            Ok(_) => (Answer { number: 0, values: [4, 4, tests(SCREEN, &line)] }, &self.listed),
            Err(number) => (Answer { number, values: [0; 3] }, &self.opened),
        };
        if archive != model || words != *image {
            return Err(format!(
                "bits {bits:#010x}, that is {:?}, {} of a line: the archive gives {archive:?}, the model {model:?} for {expected:?}",
                f32::from_bits(bits),
                if mirrored { "first y" } else { "first x" },
            ));
        }
        Ok(())
    }
}

thread_local! {
    static IMAGES: Images = Images::new();
}

/// A bit pattern: its unit, and a bin with it as x and as y.
#[derive(Clone, Debug)]
struct Pattern(u32);

impl Case for Pattern {
    type Seen = ();

    /// First the patterns whose lower half is zero; then, in turn, any pattern, and one that is near a multiple of a 64th
    /// of a unit and at most a unit out of range.
    fn make(random: &Random, place: u64) -> Pattern {
        let any = random.word() as u32;
        Pattern(match place {
            0..0x1_0000 => (place as u32) << 16,
            _ if place % 2 == 0 => any,
            _ => (random.from_to(-(1 << 24) - 64, (1 << 24) + 64) as f32 / 1024.0).to_bits() ^ (any & 3),
        })
    }

    fn smaller(&self) -> Vec<Pattern> {
        [self.0 & 0xffff_0000, self.0 & 0xffff_ff00, self.0 & (self.0.wrapping_sub(1))]
            .into_iter()
            .filter(|&bits| bits != self.0)
            .map(Pattern)
            .collect()
    }

    fn run(&self) -> Result<(), String> {
        check_unit(self.0)?;
        IMAGES.with(|images| images.check_bin(self.0, false).and_then(|()| images.check_bin(self.0, true)))
    }
}

#[test]
fn a_unit_off_misses_a_tile() {
    let ends = [*UNITS.start(), *UNITS.start() + 1, -1, 0, 1, 127, 128, 129, *UNITS.end() - 1];
    let random = Random::new(0xF100_0004);
    for unit in (0..2000).map(|_| random.from_to(*UNITS.start(), *UNITS.end())).chain(ends) {
        let line = diagonal(unit);
        assert!(model::touch::in_range(&line));
        assert_eq!(touched(SCREEN, &line), [0, 1, 2, 3]);
        for off in [unit - 1, unit + 1] {
            assert!(touched(SCREEN, &[[off, line[0][1]], line[1]]).len() < 4, "{unit} and {off}");
        }
    }
}

/// Numbers of units at which an answer turns or a sum or product in f32 stops being exact, and the patterns beside them, of
/// both signs: at zero these are the least subnormals, and past the largest f32 the infinities and patterns of no number.
#[test]
fn units_where_answers_turn() {
    let whole = [0.0, 1.0, 262_143.0, 262_144.0, 262_145.0, 524_288.0];
    let half = [0.5, 1.5, 2.5, 262_142.5, 262_143.5, 262_144.5, 262_145.5, 524_287.5];
    let past = [4_194_304.0, 8_388_608.0, 12_582_912.0, 16_777_216.0];
    let turns = whole.into_iter().chain(half).chain(past).map(|units: f32| units / 16.0);
    let ends = [f32::MIN_POSITIVE, 2f32.powi(124), f32::MAX];
    for bits in turns.chain(ends).map(f32::to_bits) {
        for beside in bits.saturating_sub(3)..=bits + 3 {
            Pattern(beside).run().unwrap();
            Pattern(beside | 1 << 31).run().unwrap();
        }
    }
}

#[test]
fn units_are_the_model_s() {
    hold(0xF100_0005, 0x1_0000 + 2_000_000, |_: &Pattern, ()| ());
}

#[test]
#[ignore = "all 2^32 patterns take half a minute on two cores"]
fn units_of_all_patterns_are_the_model_s() {
    let threads = thread::available_parallelism().map_or(1, |threads| threads.get() as u64);
    let share = (1u64 << 32).div_ceil(threads);
    thread::scope(|scope| {
        for first in (0..1u64 << 32).step_by(share as usize) {
            scope.spawn(move || {
                let last = (first + share).min(1 << 32) - 1;
                for bits in first..=last {
                    check_unit(bits as u32).unwrap();
                }
                println!("patterns {first:#x} to {last:#x} hold");
            });
        }
    });
}
