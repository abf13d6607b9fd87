//! A shape inside a shape: against the model, on pairs decided by hand, all pairs of a few vertices and many where the answer turns; in
//! lists of every length that overlap or are the same; and what refuses a pair, in which order.

use std::collections::BTreeMap;

use flourscoop::raw::{self, Answer};
use model::inside;
use model::marked::MARKED;
use model::nested::{Nested, AMONG_MARKED, NESTED};
use model::shapes::{faults, vertices, WORDS_OF_SHAPE};
use model::{number, Vertex, UNITS};
use tests::call::shape_of;
use tests::generate;
use tests::hold::{hold, Case};
use tests::list::{words_of, List, Words};
use tests::pairs::{self, answer_of, is_inside, list_of, Pair};
use tests::random::Random;

const LOW: i32 = *UNITS.start();
const HIGH: i32 = *UNITS.end();

#[test]
fn pairs_decided_by_hand() {
    for Nested { name, first, second, inside } in NESTED {
        let pair = Pair::of(first, second);
        assert_eq!(pair.run(), Ok(answer_of(Ok(inside))), "{name}: {pair:?}");
    }
}

#[test]
fn marked_cases_inside_others() {
    for (first, by_hand) in MARKED.iter().zip(AMONG_MARKED) {
        for second in &MARKED {
            let inside = first.name == second.name || by_hand.contains(&second.name);
            let said = flourscoop::inside(shape_of(first.shape), shape_of(second.shape));
            assert_eq!(said, Ok(inside), "{} in {}", first.name, second.name);
        }
    }
}

/// Every pair of points, lines and triangles with their vertices where these coordinates meet: near the origin, at the ends of the
/// range, beside these, and in uneven steps.
#[test]
fn all_pairs_of_a_few_vertices() {
    for (across, down) in [
        ([0, 1, 2], [0, 1, 2]),
        ([LOW, -1, HIGH], [LOW, 0, HIGH]),
        ([LOW, LOW + 1, HIGH - 1], [HIGH - 2, HIGH - 1, HIGH]),
        ([-6, 3, 12], [40, 46, 58]),
    ] {
        let grid: Vec<Vertex> = across.iter().flat_map(|&x| down.iter().map(move |&y| [x, y])).collect();
        let lines = grid.iter().flat_map(|&a| grid.iter().map(move |&b| vec![a, b]));
        let triangles = lines.clone().flat_map(|line| grid.iter().map(move |&c| [&line[..], &[c]].concat()));
        let shapes: Vec<Vec<Vertex>> = grid.iter().map(|&a| vec![a]).chain(lines.clone()).chain(triangles).collect();
        let mut kinds: BTreeMap<[usize; 2], [u32; 2]> = BTreeMap::new();
        for second in &shapes {
            let points: Vec<Vertex> =
                grid.iter().copied().filter(|&point| inside::weights(second, point).is_some()).collect();
            for first in &shapes {
                let inside = first.iter().all(|vertex| points.contains(vertex));
                assert_eq!(is_inside(first, second), inside, "{first:?} in {second:?}");
                kinds.entry([first.len(), second.len()]).or_default()[usize::from(inside)] += 1;
            }
        }
        println!("pairs by kinds, not inside and inside: {kinds:?}");
        assert!(kinds.len() == 9 && kinds.values().flatten().all(|&pairs| pairs > 5));
    }
}

/// A pair that is answered or refused.
#[derive(Clone, Debug)]
struct Asked(Pair);

/// A list that is not of one shape: none, two, or one with a fault.
fn no_list(random: &Random, shape: &[Vertex]) -> List<WORDS_OF_SHAPE> {
    let list = list_of(shape);
    match random.below(5) {
        0 => List { shapes: Vec::new(), ..list },
        1 => List { shapes: vec![(2, words_of(shape))], ..list },
        _ => list.with_fault(random),
    }
}

impl Case for Asked {
    type Seen = Answer<[u32; 1]>;

    fn make(random: &Random, _: u64) -> Asked {
        let lists = pairs::nested(random).map(|shape| {
            let far = random.once_in(10);
            let shape = if far { generate::out_of_range(random, shape) } else { shape };
            if random.once_in(10) {
                no_list(random, &shape)
            } else {
                list_of(&shape)
            }
        });
        let [first, second] = lists;
        Asked(Pair { first, second })
    }

    fn smaller(&self) -> Vec<Asked> {
        self.0.smaller().into_iter().map(Asked).collect()
    }

    fn run(&self) -> Result<Answer<[u32; 1]>, String> {
        self.0.run()
    }
}

/// Whether a list is of one shape, and whether the first words that would be coordinates are all in range.
fn causes(list: &[i32]) -> [bool; 2] {
    let one = list.len() == WORDS_OF_SHAPE && faults(list, WORDS_OF_SHAPE).next().is_none();
    [!one, list.iter().skip(1).take(6).any(|unit| !UNITS.contains(unit))]
}

/// Whether a step of a unit of one vertex of the first shape changes whether it is inside the second.
fn turns(first: &[Vertex], second: &[Vertex]) -> bool {
    let now = inside::is_inside(first, second);
    let steps = [[1, 0], [-1, 0], [0, 1], [0, -1]];
    let moved = |(at, step): (usize, [i32; 2])| {
        let mut other = first.to_vec();
        other[at] = [0, 1].map(|axis| other[at][axis] + step[axis]);
        inside::is_inside(&other, second) != now
    };
    (0..first.len()).flat_map(|at| steps.map(|step| (at, step))).any(moved)
}

/// What the pairs reached.
#[derive(Default, Debug)]
struct Reached {
    /// pairs by the number that they get
    numbers: BTreeMap<u32, u64>,
    /// refused pairs by their causes: of 15 in the first and the second, and of 7 in the first and the second
    causes: BTreeMap<[bool; 4], u64>,
    /// answered pairs by their kinds, those not inside and those inside
    kinds: BTreeMap<[usize; 2], [u64; 2]>,
    /// of the answered ones with a coordinate at an end of the range, those not inside and those inside
    ends: [u64; 2],
    /// of those that are looked at, all, and those in which a step of a unit changes the answer from no and from yes
    looked_at: u64,
    turn: [u64; 2],
    /// answered pairs of which the second is a triangle without area, those not inside and those inside
    flat: [u64; 2],
}

impl Reached {
    fn add(&mut self, pair: &Pair, answer: Answer<[u32; 1]>, look: bool) {
        *self.numbers.entry(answer.number).or_default() += 1;
        let (first, second) = (pair.first.words(), pair.second.words());
        if answer.number != number::DONE {
            let ([one, far], [other, other_far]) = (causes(&first), causes(&second));
            *self.causes.entry([one, other, far, other_far]).or_default() += 1;
            return;
        }
        let (first, second) = (vertices(&first), vertices(&second));
        let inside = answer.values[0] as usize;
        self.kinds.entry([first.len(), second.len()]).or_default()[inside] += 1;
        let at_an_end = first.iter().chain(&second).flatten().any(|unit| [LOW, HIGH].contains(unit));
        self.ends[inside] += u64::from(at_an_end);
        if let [[x, y], b, c] = second[..] {
            let [[bx, by], [cx, cy]] = [b, c].map(|[to_x, to_y]| [i64::from(to_x - x), i64::from(to_y - y)]);
            self.flat[inside] += u64::from(bx * cy == cx * by);
        }
        if look {
            self.looked_at += 1;
            self.turn[inside] += u64::from(turns(&first, &second));
        }
    }
}

#[test]
fn answers_and_refusals_are_the_model_s() {
    let (mut reached, mut cases) = (Reached::default(), 0);
    hold(0xF100_0011, 500_000, |Asked(pair): &Asked, answer| {
        cases += 1;
        reached.add(pair, answer, cases % 8 == 0);
    });
    println!("{reached:?}");
    let Reached { numbers, causes, kinds, ends, looked_at, turn, flat } = reached;
    for (number, pairs) in [(number::DONE, 300_000), (number::OUT_OF_RANGE, 50_000), (number::LIST, 50_000)] {
        assert!(numbers[&number] > pairs, "{number} should be returned often");
    }
    assert_eq!(numbers.len(), 3);
    assert!(causes.len() == 15 && causes.values().all(|&pairs| pairs > 20), "each cause with and without the others");
    assert!(kinds.len() == 9 && kinds.values().flatten().all(|&pairs| pairs > 500), "each kind in each, yes and no");
    assert!(ends.iter().chain(&flat).all(|&pairs| pairs > 10_000), "the ends of the range, and triangles without area");
    assert!(turn.iter().all(|turn| 10 * turn > looked_at), "the answer should often turn on a unit");
}

/// The words of a shape with one of them changed.
fn with(shape: Words, place: usize, word: i32) -> Vec<i32> {
    let mut words = shape.to_vec();
    words[place] = word;
    words
}

/// A list, and the number by which it refuses every pair that it is in, where the other list does not refuse it before that.
type Listed = (Vec<i32>, u32);

const SHAPES: [Words; 3] = [[1, 5, 5, 0, 0, 0, 0], [2, 0, 0, 9, 9, 0, 0], [3, 0, 0, 9, 0, 0, 9]];

/// Lists of one shape and others: of every length up to three shapes and a word, with each wrong kind, with each unused word not 0, with
/// each coordinate out of range and at the ends of it; and with several of these together.
fn lists() -> Vec<Listed> {
    let mut lists = Vec::new();
    for shape in SHAPES {
        let used = 1 + 2 * shape[0] as usize;
        let of_length = |length: usize| shape.repeat(4)[..length].to_vec();
        lists.extend(
            (0..=22)
                .map(|length| (of_length(length), if length == WORDS_OF_SHAPE { number::DONE } else { number::LIST })),
        );
        for kind in [0, 4, 5, -1, i32::MIN, i32::MAX, 256 + shape[0], 65_536 + shape[0]] {
            lists.push((with(shape, 0, kind), number::LIST));
            lists.push((with(with(shape, 0, kind).try_into().unwrap(), 1, HIGH + 1), number::LIST));
        }
        for (unused, word) in
            (used..WORDS_OF_SHAPE).flat_map(|at| [1, -1, 256, HIGH + 1, i32::MIN].map(|word| (at, word)))
        {
            lists.push((with(shape, unused, word), number::LIST));
            lists.push((with(with(shape, unused, word).try_into().unwrap(), 2, LOW - 1), number::LIST));
        }
        for coordinate in 1..used {
            lists.extend(
                [LOW - 1, HIGH + 1, i32::MIN, i32::MAX].map(|far| (with(shape, coordinate, far), number::OUT_OF_RANGE)),
            );
            lists.extend([LOW, HIGH].map(|end| (with(shape, coordinate, end), number::DONE)));
            // a shape out of range is still no list where there is another, or a word too few
            let far = with(shape, coordinate, HIGH + 1);
            lists.push(([&far[..], &shape].concat(), number::LIST));
            lists.push((far[..6].to_vec(), number::LIST));
        }
    }
    lists
}

/// 15 comes before 7, whichever list has the cause; and zero is written.
#[test]
fn a_pair_is_refused_in_order() {
    let lists = lists();
    let mut refused = BTreeMap::new();
    for (first, of_first) in &lists {
        for (second, of_second) in &lists {
            let cause =
                [number::LIST, number::OUT_OF_RANGE].into_iter().find(|number| [of_first, of_second].contains(&number));
            let answer = raw::inside(first, second);
            let expected = match cause {
                Some(number) => Answer { number, values: [0] },
                None => answer_of(inside::inside(first, second)),
            };
            assert_eq!(answer, expected, "{first:?} in {second:?}");
            *refused.entry([*of_first, *of_second]).or_insert(0) += 1;
        }
    }
    println!("pairs by the numbers of their lists: {refused:?}");
    assert!(refused.len() == 9 && refused.values().all(|&pairs| pairs > 500));
}

extern "C" {
    fn flourscoop_inside(
        first: *const i32,
        first_words: usize,
        second: *const i32,
        second_words: usize,
        inside: *mut u32,
    ) -> u32;
}

/// Lists without a word may be null, with another list that is one, is none, or is null too.
#[test]
fn no_words_may_be_null() {
    let null: (*const i32, usize) = (std::ptr::null(), 0);
    let far = with(SHAPES[2], 6, HIGH + 1);
    let others = [&SHAPES[0][..], &SHAPES[1], &SHAPES[2], &SHAPES[2][..6], &far, &[]];
    for other in others.map(|other| (other.as_ptr(), other.len())).into_iter().chain([null]) {
        for ((first, first_words), (second, second_words)) in [(null, other), (other, null)] {
            let mut inside = 0xAAAA_AAAA;
            // each is null with no words, or a slice that lives through the call
            let number = unsafe { flourscoop_inside(first, first_words, second, second_words, &mut inside) };
            assert_eq!((number, inside), (number::LIST, 0), "{first_words} and {second_words} words");
        }
    }
}

/// Both lists as one slice, of every length.
#[test]
fn both_lists_may_be_the_same() {
    for (list, number) in lists() {
        let expected = if number == number::DONE { Ok(true) } else { Err(number) };
        assert_eq!(raw::inside(&list, &list), answer_of(expected), "{list:?}");
    }
}

/// Two slices of one buffer, from each place and of each length, most of which overlap. In some of these buffers two that overlap are
/// both of one shape.
#[test]
fn lists_may_overlap() {
    let buffers: [&[i32]; 5] = [
        &[3, 1, 0, 0, 0, 0, 0, 0],
        &[3, 2, 1, 0, 0, 0, 0, 0, 0],
        &[3, 3, 3, 3, 3, 3, 3, 3, 3, 3],
        &[3, 2, 3, 2, 1, 1, 0, 0, 0, 0, 0],
        &[1, 1, 2, 0, 0, 0, 0, 0, 0, 262_144],
    ];
    let mut answers = BTreeMap::new();
    for buffer in buffers {
        let length = buffer.len();
        let slices = || (0..=length).flat_map(|start| (start..=length).map(move |end| start..end));
        for (first, second) in slices().flat_map(|first| slices().map(move |second| (first.clone(), second))) {
            let words = buffer.to_vec();
            let answer = raw::inside(&words[first.clone()], &words[second.clone()]);
            let expected = answer_of(inside::inside(&buffer[first.clone()], &buffer[second.clone()]));
            assert_eq!(answer, expected, "{first:?} in {second:?} of {buffer:?}");
            assert_eq!(words, buffer);
            if first != second {
                *answers.entry((answer.number, answer.values)).or_insert(0) += 1;
            }
        }
    }
    println!("slices that are not the same, by their answers: {answers:?}");
    assert!(answers[&(number::DONE, [0])] > 3 && answers[&(number::DONE, [1])] > 3);
}
