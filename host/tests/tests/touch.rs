//! Box and corner against the model, on shapes most of which lie where the answer turns.

use model::cover::{corners, cover, has_point, Cover};
use model::screen::{Rectangle, Screen};
use model::touch::box_meets;
use model::Vertex;
use tests::call::{ask, Asked};
use tests::generate::{self, rarest_cut};
use tests::hold::{hold, Case};
use tests::random::Random;
use tests::smaller;
use tests::square::{cut_both_ways, square};

#[derive(Clone, Debug)]
struct Question {
    screen: Screen,
    tile: u32,
    shape: Vec<Vertex>,
}

impl Case for Question {
    type Seen = Asked;

    fn make(random: &Random, _place: u64) -> Question {
        let most = random.pick(&[2, 6, 64, 512]);
        let screen = generate::screen(random, most);
        let tile = generate::tile(random, screen);
        let shape = generate::shape(random, screen, tile);
        let question = Question { screen, tile, shape };
        match random.below(50) {
            0 => Question { screen: generate::bad_screen(random), ..question },
            1 => Question { tile: screen.tiles() + random.pick(&[0, 1, 4096, u32::MAX - 4096]), ..question },
            2 => Question { shape: generate::out_of_range(random, question.shape), ..question },
            _ => question,
        }
    }

    fn smaller(&self) -> Vec<Question> {
        if !self.screen.allowed() {
            return Vec::new();
        }
        let tiles = smaller::lower(self.tile).into_iter();
        let mut all: Vec<_> = tiles.map(|tile| Question { tile, ..self.clone() }).collect();
        all.extend((1..self.screen.tiles()).contains(&self.tile).then(|| self.at_first_tile()));
        all.extend(smaller::screens(self.screen).into_iter().map(|screen| Question { screen, ..self.clone() }));
        all.extend(smaller::shapes(&self.shape).into_iter().map(|shape| Question { shape, ..self.clone() }));
        all
    }

    fn run(&self) -> Result<Asked, String> {
        ask(self.screen, self.tile, &self.shape)
    }
}

impl Question {
    /// The shape as it lies at its tile, at tile 0 of the screen that begins there.
    fn at_first_tile(&self) -> Question {
        let Rectangle { left, top, .. } = self.screen.rectangle(self.tile);
        let Screen { width, height, s } = self.screen;
        let screen = Screen { width: width - left as u32 / 16, height: height - top as u32 / 16, s };
        let moved = |&[x, y]: &Vertex| [x.wrapping_sub(left as i32), y.wrapping_sub(top as i32)];
        Question { screen, tile: 0, shape: self.shape.iter().map(moved).collect() }
    }

    /// Whether a step of one unit by one of the vertices changes the answer.
    fn turns_on_a_unit(&self) -> bool {
        let rectangle = self.screen.rectangle(self.tile);
        let answer = cover(&self.shape, rectangle);
        let steps = (0..self.shape.len()).flat_map(|vertex| [[0, 1], [1, 0], [0, -1], [-1, 0]].map(|by| (vertex, by)));
        steps.into_iter().any(|(vertex, [x, y])| {
            let mut moved = self.shape.clone();
            moved[vertex] = [moved[vertex][0] + x, moved[vertex][1] + y];
            cover(&moved, rectangle) != answer
        })
    }

    /// How many corners of the tile are points of the shape.
    fn corners(&self) -> usize {
        let corners = corners(self.screen.rectangle(self.tile));
        corners.into_iter().filter(|&corner| has_point(&self.shape, corner)).count()
    }

    /// Whether the shape has an area.
    fn has_area(&self) -> bool {
        let [a, b, c] = self.shape[..] else {
            return false;
        };
        let from_a = |v: Vertex| [0, 1].map(|axis| i64::from(v[axis]) - i64::from(a[axis]));
        let ([bx, by], [cx, cy]) = (from_a(b), from_a(c));
        bx * cy != by * cx
    }
}

/// What the questions on shapes that are not refused reached.
#[derive(Default, Debug)]
struct Reached {
    /// how often box says yes
    boxed: u32,
    /// how often corner says apart, partly and wholly
    covers: [u32; 3],
    /// of the shapes looked at with each of these covers: all, and those whose answer one unit of one vertex changes
    turning: [[u32; 2]; 3],
    /// of the shapes looked at, those with so many corners of the tile
    corners: [u32; 5],
    /// triangles without area that touch the tile
    flat: u32,
    /// shapes at a tile that is cut on both axes
    at_cut_tile: u32,
    /// how often a full square would change what box says
    cut_boxed: u32,
    /// how often it would be touched where the tile is not, and be covered partly where the tile is covered wholly
    cut_covers: [u32; 2],
}

impl Reached {
    fn add(&mut self, case: &Question, boxed: bool, said: Cover, look: bool) {
        self.boxed += u32::from(boxed);
        self.covers[said as usize] += 1;
        if look {
            let [all, turning] = &mut self.turning[said as usize];
            *all += 1;
            *turning += u32::from(case.turns_on_a_unit());
            self.corners[case.corners()] += 1;
        }
        if !case.has_area() {
            assert_ne!(said, Cover::Wholly, "{case:?}");
            self.flat += u32::from(case.shape.len() == 3 && said == Cover::Partly);
        }
        self.at_cut_tile += u32::from(cut_both_ways(case.screen) && case.tile == case.screen.tiles() - 1);
        let square = square(case.screen, case.tile);
        if square != case.screen.rectangle(case.tile) {
            self.cut_boxed += u32::from(boxed != box_meets(&case.shape, square));
            match (said, cover(&case.shape, square)) {
                (Cover::Apart, Cover::Partly) => self.cut_covers[0] += 1,
                (Cover::Wholly, Cover::Partly) => self.cut_covers[1] += 1,
                (said, of_square) => assert_eq!(said, of_square, "{case:?}"),
            }
        }
    }
}

#[test]
fn box_and_corner_answer_as_the_model() {
    let (mut asked, mut refused, mut reached, mut screens) = (0, 0, Reached::default(), Vec::new());
    hold(0xF100_0001, 1_200_000, |case: &Question, seen| {
        asked += 1;
        screens.push(case.screen);
        match (seen.boxed, seen.cover) {
            (Ok(boxed), Ok(cover)) => reached.add(case, boxed, cover, asked % 50 == 0),
            _ => refused += 1,
        }
    });
    let rarest = rarest_cut(&screens);
    println!("{asked} shapes, {refused} refused; each of the cut screens comes {rarest} times or more; {reached:?}");
    let Reached { boxed, covers: [_, partly, wholly], turning, corners, .. } = reached;
    let [all, turning_of_all] = [0, 1].map(|which| turning.iter().map(|turning| turning[which]).sum::<u32>());
    assert!(turning_of_all * 2 > all, "most shapes should lie where the answer turns");
    let [_, _, [wholly_covering, turning_of_these]] = turning;
    assert!(turning_of_these * 2 > wholly_covering, "those that cover the tile wholly too");
    assert!(corners.iter().all(|&shapes| shapes > 200), "any number of corners should be points of many shapes");
    assert!(boxed - partly - wholly > 50_000, "the box should often say yes wrongly");
    let Reached { flat, at_cut_tile, cut_boxed, cut_covers, .. } = reached;
    assert!(wholly > 60_000 && flat > 60_000, "tiles should often be covered wholly, and triangles often without area");
    assert!(at_cut_tile > 100_000 && rarest > 1000, "tiles that are cut on both axes should be common");
    assert!(cut_boxed > 20_000 && cut_covers[0] > 40_000, "it should often matter that a tile is cut");
    assert!(cut_covers[1] > 30_000, "also to whether it is covered wholly");
}
