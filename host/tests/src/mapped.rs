//! Maps, made by the archive and by the model side by side, in bytes lent at any address with bytes on either side that are not
//! lent.

use std::ops::Range;

use flourscoop::raw::{self, Answer};
use flourscoop::{room, Refusal};
use model::number;
use model::pool::MOST_BLOCKS;
use model::quarters;
use model::screen::Screen;
use model::touch::in_range;
use model::Vertex;

use crate::call::{screen_of, shape_of};
use crate::forms::orders;
use crate::smaller::{self, lower, nearer_zero};

/// How many bytes stand past those that are lent.
const BEHIND: usize = 9;

/// The tiles that a screen outside the rules counts for, where bytes are lent.
const TILES_OF_NO_SCREEN: u32 = 8;

/// A shape on a screen, and the bytes that are lent for its map.
#[derive(Clone, Debug)]
pub struct Mapped {
    pub screen: Screen,
    pub shape: Vec<Vertex>,
    /// by how many the bytes are more than the tiles, or fewer
    pub spare: i32,
    /// how many bytes stand before them
    pub before: usize,
    /// what the first byte of all is, and how much more each of the next
    pub filling: [u8; 2],
}

/// What a map gave: its number, its bytes where it was done, and at which address the archive was to write them.
#[derive(Clone, PartialEq, Eq, Debug)]
pub struct Seen {
    pub number: u32,
    pub map: Vec<u8>,
    pub address: usize,
}

impl Mapped {
    /// A map with a byte for each tile, at an odd address, on bytes that are neither 0 nor 1.
    pub fn plain(screen: Screen, shape: &[Vertex]) -> Mapped {
        Mapped { screen, shape: shape.to_vec(), spare: 0, before: 1, filling: [0xA5, 0] }
    }

    /// How many bytes are lent.
    pub fn bytes(&self) -> usize {
        let tiles = if self.screen.allowed() { self.screen.tiles() } else { TILES_OF_NO_SCREEN };
        (tiles as usize).saturating_add_signed(self.spare as isize)
    }

    /// Where they stand among all.
    pub fn lent(&self) -> Range<usize> {
        self.before..self.before + self.bytes()
    }

    /// All bytes, before the call.
    pub fn all(&self) -> Vec<u8> {
        let [first, step] = self.filling;
        (0..self.lent().end + BEHIND).map(|at| first.wrapping_add(step.wrapping_mul(at as u8))).collect()
    }

    /// Which of the refusals have a cause.
    pub fn causes(&self) -> [bool; 3] {
        let allowed = self.screen.allowed();
        [!allowed, !in_range(&self.shape), !allowed || self.bytes() < self.screen.tiles() as usize]
    }

    /// Says how the archive's number or bytes, of a call on all of them, are others than the model's.
    fn compare(&self, what: &str, number: u32, bytes: &[u8], model: (u32, &[u8])) -> Result<(), String> {
        if number != model.0 {
            return Err(format!("{what}: the archive gives {number}, the model {}", model.0));
        }
        match (0..bytes.len()).find(|&at| bytes[at] != model.1[at]) {
            Some(at) => Err(format!(
                "{what}: byte {} is {} by the archive, {} by the model, and was {}",
                at as isize - self.before as isize,
                bytes[at],
                model.1[at],
                self.all()[at]
            )),
            None => Ok(()),
        }
    }

    /// Makes the map on the archive, in each order of the vertices and by the wrapper, and on the model, and compares the number
    /// and every byte. Where it is done, the shape is binned too, and listed in the tiles with a 1.
    pub fn run(&self) -> Result<Seen, String> {
        let (screen, mut expected) = (screen_of(self.screen), self.all());
        let (number, map) = match quarters::map(self.screen, &self.shape, self.bytes()) {
            Ok(map) => (number::DONE, map),
            Err(number) => (number, Vec::new()),
        };
        expected[self.before..self.before + map.len()].copy_from_slice(&map);
        for shape in orders(&self.shape) {
            let mut bytes = self.all();
            let Answer { number: given, values: [] } = raw::map(screen, shape_of(&shape), &mut bytes[self.lent()]);
            self.compare(&format!("{shape:?}"), given, &bytes, (number, &expected))?;
        }
        let mut bytes = self.all();
        let answer = flourscoop::map(screen, shape_of(&self.shape), &mut bytes[self.lent()]);
        let given = answer.map_or_else(Refusal::number, |()| number::DONE);
        self.compare("by the wrapper", given, &bytes, (number, &expected))?;
        if number == number::DONE {
            self.bin(&map)?;
        }
        Ok(Seen { number, map, address: bytes[self.lent()].as_ptr() as usize })
    }

    /// Bins the shape in a pool with a block for each tile, or as many as there may be. The tiles that gain an entry are those that
    /// have a 1 in the map, and the bin tells how many they are.
    fn bin(&self, map: &[u8]) -> Result<(), String> {
        let (screen, tiles) = (screen_of(self.screen), self.screen.tiles());
        let blocks = tiles.min(MOST_BLOCKS);
        let mut words = vec![0; room(screen, blocks).unwrap()];
        raw::open(&mut words, screen, blocks);
        let Answer { number, values: [listed, ..] } = raw::bin(&mut words, 7, shape_of(&self.shape));
        let touched = map.iter().filter(|&&byte| byte == 1).count();
        if number == number::NO_ROOM && touched > MOST_BLOCKS as usize {
            return Ok(());
        }
        let gained = (0..tiles as usize).map(|tile| u8::from(words[8 + 4 * tile] == 1));
        if number != number::DONE || listed as usize != touched || !gained.eq(map.iter().copied()) {
            return Err(format!("the bin gives {number}, {listed} tiles; the map has {touched}: {map:?}"));
        }
        Ok(())
    }

    /// A smaller screen or shape, fewer bytes, or plainer ones.
    pub fn smaller(&self) -> Vec<Mapped> {
        let mut all = Vec::new();
        if self.screen.allowed() {
            all.extend(smaller::screens(self.screen).into_iter().map(|screen| Mapped { screen, ..self.clone() }));
        }
        all.extend(smaller::shapes(&self.shape).into_iter().map(|shape| Mapped { shape, ..self.clone() }));
        all.extend(nearer_zero(self.spare).into_iter().map(|spare| Mapped { spare, ..self.clone() }));
        all.extend(
            lower(self.before as u32).into_iter().map(|before| Mapped { before: before as usize, ..self.clone() }),
        );
        let step = (self.filling[1] != 0).then_some([self.filling[0], 0]);
        all.extend(step.map(|filling| Mapped { filling, ..self.clone() }));
        all
    }
}
