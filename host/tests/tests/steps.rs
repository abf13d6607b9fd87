//! The tests that a bin makes, against the model's walk, and their price: on shapes most of which have vertices where tiles meet
//! and at the ends of the screen, in every order; and none for shapes a unit off the screen and for refusals.

use std::collections::BTreeMap;
use std::fmt::Debug;

use flourscoop::raw::{self, Answer};
use model::layout::{Layout, LAYOUTS};
use model::marked::SCREEN;
use model::number;
use model::pool::{State, MOST_BLOCKS, MOST_ID};
use model::screen::Screen;
use model::stepping::{on_screen, walk, Walk};
use model::touch::touched;
use model::Vertex;
use tests::call::{alone, pixels_of, shape_of, Call, Slot};
use tests::forms::{bins, in_pixels, orders};
use tests::generate::{self, cut_screens, end_of, screen_with};
use tests::hold::{hold, Case};
use tests::list::{bin_words, words_of};
use tests::random::Random;
use tests::smaller;
use tests::square::cut_both_ways;

const ID: u32 = 7;

/// A shape on a screen, or with a vertex a unit off it, and the layout of the pool for it.
#[derive(Clone, Debug)]
struct Step {
    layout: Layout,
    screen: Screen,
    shape: Vec<Vertex>,
}

/// A screen of few tiles, which often ends inside its last ones.
fn screen(random: &Random) -> Screen {
    let s = random.from_to(3, 6) as u32;
    let tiles = || random.pick(&[1, 2, 3, 3, 4, 5]);
    let less = || random.pick(&[0, 0, 1, (1 << s) - 1, random.below(1 << s)]);
    screen_with([tiles(), tiles(), s], [less(), less()])
}

/// A vertex on the screen: most often a corner of a tile, or along an axis between two tiles, at the screen's end, or a unit
/// beside that.
fn vertex(random: &Random, screen: Screen) -> Vertex {
    let (side, end, tiles) = (screen.side() as i32, end_of(screen), [screen.columns(), screen.rows()]);
    let corner = random.once_in(3);
    [0, 1].map(|axis| {
        let between = side * random.from_to(0, tiles[axis] as i32);
        let any = random.from_to(0, end[axis]);
        let other = random.pick(&[between, between, between + 1, between - 1, 0, end[axis], any, any]);
        (if corner { between } else { other }).clamp(0, end[axis])
    })
}

/// The vertex, moved to a unit off the screen on one of its four sides.
fn off_side([x, y]: Vertex, screen: Screen, side: usize) -> Vertex {
    let [right, bottom] = end_of(screen);
    [[-1, y], [right + 1, y], [x, -1], [x, bottom + 1]][side]
}

impl Case for Step {
    /// the tests
    type Seen = u32;

    fn make(random: &Random, place: u64) -> Step {
        let screen = match place % 4000 {
            0 => generate::full_screen(random),
            1..=80 => generate::screen(random, 16),
            _ => screen(random),
        };
        let vertices = random.pick(&[1, 2, 2, 2, 3, 3, 3, 3, 3]);
        let mut shape: Vec<Vertex> = (0..vertices).map(|_| vertex(random, screen)).collect();
        let one = || random.below(vertices) as usize;
        if random.once_in(10) {
            shape[one()] = shape[one()];
        }
        // as high or as far to the left as another
        if random.once_in(5) {
            let axis = random.below(2) as usize;
            shape[one()][axis] = shape[one()][axis];
        }
        if random.once_in(8) {
            let at = one();
            shape[at] = off_side(shape[at], screen, random.below(4) as usize);
        }
        Step { layout: generate::layout(place), screen, shape }
    }

    fn smaller(&self) -> Vec<Step> {
        let screens = smaller::screens(self.screen).into_iter().map(|screen| Step { screen, ..self.clone() });
        let shapes = smaller::shapes(&self.shape).into_iter().map(|shape| Step { shape, ..self.clone() });
        let layouts = smaller::layouts(self.layout).into_iter().map(|layout| Step { layout, ..self.clone() });
        screens.chain(shapes).chain(layouts).collect()
    }

    /// Bins the shape in each order of its vertices, in units and in pixels, and by a draw call. Each bin lists it in the same
    /// tiles and makes the tests of the model's walk; after the first and after all, every word is the model's.
    fn run(&self) -> Result<u32, String> {
        let &Step { layout, screen, ref shape } = self;
        let mut state = State::opened(layout, screen, MOST_BLOCKS.min(screen.tiles()));
        let mut words = state.words();
        let model = match state.bin(ID, shape) {
            Ok(values) => Answer { number: number::DONE, values },
            Err(number) => Answer { number, values: [0; 3] },
        };
        let [tiles, _, tests] = model.values;
        let again = Answer { values: [tiles, 0, tests], ..model };
        let rows = rows_in(&state);
        if tests > 2 * tiles + rows {
            return Err(format!("{tests} tests for {tiles} tiles in {rows} rows"));
        }
        let orders = orders(shape);
        same("the bin", raw::bin(&mut words, ID, shape_of(shape)), model)?;
        same("the words after it", &words, &state.words())?;
        for ordered in &orders[1..] {
            same("the bin in another order", raw::bin(&mut words, ID, shape_of(ordered)), again)?;
        }
        same("the bin in pixels", raw::bin_pixels(&mut words, ID, pixels_of(&in_pixels(shape))), again)?;
        let mut answers = [0xAA];
        raw::bin_list(&mut words, &bin_words(words_of(shape), ID as i32), &mut answers);
        same("the answer of the draw call", u32::from(answers[0]), model.number)?;
        let bins = orders.len() + 2;
        for tile in state.tiles.iter_mut().filter(|tile| !tile.entries.is_empty()) {
            tile.entries = vec![tile.entries[0]; bins];
            tile.mark = bins as u32;
        }
        same("the words after all", &words, &state.words())?;
        Ok(tests)
    }
}

/// Says what the archive and the model give, where they differ.
fn same<T: PartialEq + Debug>(what: &str, archive: T, model: T) -> Result<(), String> {
    match archive == model {
        true => Ok(()),
        false => Err(format!("{what}: {archive:?} by the archive, {model:?} by the model")),
    }
}

/// In how many rows a pool has entries.
fn rows_in(state: &State) -> u32 {
    let columns = state.screen.columns() as usize;
    state.tiles.chunks(columns).filter(|row| row.iter().any(|tile| !tile.entries.is_empty())).count() as u32
}

/// What the shapes reached.
#[derive(Default, Debug)]
struct Reached {
    /// shapes on the screen, by the number of vertices and s
    on_screen: BTreeMap<(usize, u32), u64>,
    /// of these, those on screens that are cut on both axes
    cut: u64,
    /// those with a vertex at a corner of a tile, and where four tiles meet
    corner: [u64; 2],
    /// those that start where two columns meet, and where two rows do
    start_between: [u64; 2],
    /// those with several topmost vertices, and with vertices that coincide
    several: [u64; 2],
    /// those with a vertex at the left end of the screen, the right, the top and the bottom one
    at_end: [u64; 4],
    /// those that reach down to where a row begins
    last_line: u64,
    /// those on screens of 4,096 tiles
    largest: u64,
    /// of those whose walk is looked at, all, those that go to the left of where they start, and those that test a tile twice
    walks: u64,
    to_left: u64,
    twice: u64,
    /// shapes with a vertex off the left end of the screen, the right, the top and the bottom one, that touch a tile
    off: [u64; 4],
}

/// Adds one where something holds.
fn count(counter: &mut u64, holds: bool) {
    *counter += u64::from(holds);
}

impl Reached {
    fn add(&mut self, &Step { screen, ref shape, .. }: &Step) {
        let (side, [right, bottom]) = (screen.side() as i32, end_of(screen));
        let between = |along: i32, end: i32| along % side == 0 && 0 < along && along < end;
        let top = shape.iter().map(|&[_, y]| y).min().unwrap();
        let topmost: Vec<i32> = shape.iter().filter(|&&[_, y]| y == top).map(|&[x, _]| x).collect();
        let low = shape.iter().map(|&[_, y]| y).max().unwrap();
        *self.on_screen.entry((shape.len(), screen.s)).or_default() += 1;
        count(&mut self.cut, cut_both_ways(screen));
        let corner = |&[x, y]: &Vertex| (x % side == 0 || x == right) && (y % side == 0 || y == bottom);
        count(&mut self.corner[0], shape.iter().any(corner));
        count(&mut self.corner[1], shape.iter().any(|&[x, y]| between(x, right) && between(y, bottom)));
        count(&mut self.start_between[0], between(*topmost.iter().min().unwrap(), right));
        count(&mut self.start_between[1], between(top, bottom));
        count(&mut self.several[0], topmost.len() > 1);
        count(&mut self.several[1], (1..shape.len()).any(|at| shape[..at].contains(&shape[at])));
        for (counter, at_end) in self.at_end.iter_mut().zip([[0, -1], [right, -1], [-1, 0], [-1, bottom]]) {
            count(counter, shape.iter().any(|vertex| vertex[0] == at_end[0] || vertex[1] == at_end[1]));
        }
        count(&mut self.last_line, between(low, bottom));
        count(&mut self.largest, screen.tiles() == 4096);
    }

    fn look_at(&mut self, Walk { start, tested, listed, .. }: &Walk) {
        self.walks += 1;
        count(&mut self.to_left, *start > listed[0]);
        count(&mut self.twice, (1..tested.len()).any(|at| tested[..at].contains(&tested[at])));
    }

    fn add_off(&mut self, &Step { screen, ref shape, .. }: &Step) {
        let [right, bottom] = end_of(screen);
        let off = shape.iter().find(|&&vertex| !on_screen(screen, &[vertex])).unwrap();
        let sides = [off[0] < 0, off[0] > right, off[1] < 0, off[1] > bottom];
        let touches = !touched(screen, shape).is_empty();
        self.off.iter_mut().zip(sides).for_each(|(counter, off)| count(counter, off && touches));
    }
}

#[test]
fn tests_are_those_of_the_walk() {
    let (mut reached, mut cases) = (Reached::default(), 0);
    hold(0xF100_000B, 600_000, |case: &Step, tests| {
        cases += 1;
        if !on_screen(case.screen, &case.shape) {
            assert_eq!(tests, 0, "{case:?}");
            reached.add_off(case);
            return;
        }
        reached.add(case);
        if cases % 10 == 0 {
            reached.look_at(&walk(case.screen, &case.shape).unwrap());
        }
    });
    println!("{reached:?}");
    let Reached { on_screen, cut, corner, start_between, several, at_end, .. } = reached;
    let shapes: u64 = on_screen.values().sum();
    println!("{shapes} shapes on the screen");
    assert!(shapes > 500_000 && on_screen.len() == 12, "points, lines and triangles on screens of each s");
    assert!(on_screen.values().all(|&shapes| shapes > 10_000), "each often");
    assert!(2 * corner[0] > shapes && corner[1] > 60_000, "most should have vertices at the corners of tiles");
    assert!(cut > 100_000, "screens that are cut on both axes should be common");
    assert!(start_between.iter().chain(&several).all(|&shapes| shapes > 50_000), "and starts that could be others");
    assert!(at_end.iter().all(|&shapes| shapes > 100_000), "and vertices at each end of the screen");
    let Reached { last_line, largest, walks, to_left, twice, off, .. } = reached;
    assert!(last_line > 50_000 && largest > 100, "and shapes that just reach a row; some should be on largest screens");
    assert!(4 * to_left > walks && 10 * twice > walks, "and walks to the left, and that test a tile twice");
    assert!(off.iter().all(|&shapes| shapes > 10_000), "and shapes that reach off each end");
}

/// Every point, line and triangle with its vertices at corners of tiles, in every order.
#[test]
fn tests_of_every_shape_of_corners() {
    let mut shapes = 0;
    for s in 3..=6 {
        for less in [[0, 0], [1, (1 << s) - 1], [3, 2]] {
            let screen = screen_with([3, 2, s], less);
            let [right, bottom] = end_of(screen);
            let corners = |along: i32| along * screen.side() as i32;
            let across = [0, corners(1), corners(2), right];
            let vertices: Vec<Vertex> = [0, corners(1), bottom].iter().flat_map(|&y| across.map(|x| [x, y])).collect();
            let lines = || vertices.iter().flat_map(|&a| vertices.iter().map(move |&b| [a, b]));
            let triangles = lines().flat_map(|[a, b]| vertices.iter().map(move |&c| vec![a, b, c]));
            for shape in vertices.iter().map(|&a| vec![a]).chain(lines().map(Vec::from)).chain(triangles) {
                let case = Step { layout: Layout::One, screen, shape };
                case.run().unwrap_or_else(|wrong| panic!("{case:?}: {wrong}"));
                shapes += 1;
            }
        }
    }
    println!("{shapes} shapes");
}

/// The screen of the marked cases, 60 by 28, 800 by 480, and those that are cut.
fn screens() -> impl Iterator<Item = Screen> {
    [SCREEN, Screen { width: 60, height: 28, s: 4 }, Screen { width: 800, height: 480, s: 4 }]
        .into_iter()
        .chain(cut_screens())
}

/// A vertex a unit off each end of the screen, on it and a unit inside it: as a point, as a line straight from the middle, and in
/// a triangle.
#[test]
fn a_unit_off_the_screen_there_are_no_tests() {
    for screen in screens() {
        let [right, bottom] = end_of(screen);
        let middle = [right / 2, bottom / 2];
        for side in 0..4 {
            let off = off_side(middle, screen, side);
            let inwards = |units: i32| [0, 1].map(|axis| off[axis] + units * (middle[axis] - off[axis]).signum());
            for others in [&[][..], &[middle], &[middle, [right / 3, 0]]] {
                let tests = |vertex: Vertex| {
                    let case = Step { layout: Layout::One, screen, shape: [others, &[vertex]].concat() };
                    case.run().unwrap_or_else(|wrong| panic!("{case:?}: {wrong}"))
                };
                assert_eq!(tests(off), 0, "{off:?} with {others:?} on {screen:?}");
                for on in [inwards(1), inwards(2)] {
                    assert!(tests(on) > 0 || screen.columns() == 1, "{on:?} with {others:?} on {screen:?}");
                }
            }
            let [past, up_to] = [off, inwards(1)].map(|end| touched(screen, &[middle, end]));
            assert_eq!(past, up_to, "{off:?} on {screen:?}");
        }
    }
}

/// Shapes on the screen that have tests, and are refused with each number that a bin has.
#[test]
fn a_refusal_has_no_tests() {
    let shapes = [vec![[256, 256]], vec![[0, 0], [512, 512]], vec![[0, 0], [1024, 0], [0, 512]]];
    for layout in LAYOUTS {
        for shape in &shapes {
            let bin = |id: u32, shape: &[Vertex]| {
                let [units, pixels, _] = bins(id, shape);
                [units, pixels]
            };
            let expect = |blocks: u32, call: &Call, number: u32| {
                let mut slot = Slot::over(State::opened(layout, SCREEN, blocks).words(), 0);
                if number == number::UNSOUND {
                    slot = Slot::over(slot.words[1..].to_vec(), 0);
                }
                let answer = slot.call(call).unwrap();
                match number {
                    number::DONE => assert!(answer[0] == number && answer[3] > 0, "{call:?}: {answer:?}"),
                    _ => assert_eq!(answer, alone(number), "{call:?}"),
                }
            };
            let mut far = shape.clone();
            far[0][1] = -262_145;
            let mut no_number = in_pixels(shape);
            no_number[0][0] = f32::NAN.to_bits();
            for call in bin(1, shape) {
                expect(7, &call, number::DONE);
                expect(3, &call, number::NO_ROOM);
                expect(7, &call, number::UNSOUND);
            }
            bin(MOST_ID + 1, shape).iter().for_each(|call| expect(7, call, number::ID));
            bin(1, &far).iter().for_each(|call| expect(7, call, number::OUT_OF_RANGE));
            expect(7, &Call::BinPixels { id: 1, shape: no_number }, number::NOT_FINITE);
        }
    }
}
