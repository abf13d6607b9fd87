//! A draw call: a list of shapes with ids, and bytes for its answers.

use model::screen::Screen;
use model::shapes::WORDS_OF_BIN;

use crate::answers::{no_room, Answers};
use crate::list::List;
use crate::random::Random;
use crate::smaller::nearer_zero;

/// A list, and by how many its answer bytes are more than its shapes, or fewer.
#[derive(Clone, PartialEq, Eq, Debug)]
pub struct Draw {
    pub list: List<WORDS_OF_BIN>,
    pub spare: i32,
}

impl Draw {
    /// A list of at most so many different shapes, one in eight with a fault; most often with a byte for each shape, else with
    /// more, one less or none.
    pub fn make(random: &Random, screen: Screen, most: u32) -> Draw {
        let list = List::make(random, screen, most).with_ids(random);
        let list = if random.once_in(8) { list.with_fault(random) } else { list };
        Draw { list, spare: random.pick(&[0, 0, 0, 0, 0, 1, 9, -1, i32::MIN]) }
    }

    /// How many bytes there are for answers.
    pub fn bytes(&self) -> usize {
        self.list.shape_count().saturating_add_signed(self.spare as isize)
    }

    /// The bytes for answers, before the call.
    pub fn untouched(&self) -> Answers {
        Answers::untouched(self.bytes())
    }

    /// The same less the shapes that these answers refuse for room.
    pub fn less_no_room(&self, answers: &[u8]) -> Draw {
        let each = self.list.shapes.iter().flat_map(|&(times, words)| std::iter::repeat_n((1, words), times));
        let with_room = each.zip(answers).filter(|(_, &answer)| !no_room(answer)).map(|(shape, _)| shape);
        Draw { list: List { shapes: with_room.collect(), rest: self.list.rest.clone() }, spare: self.spare }
    }

    /// A smaller list, or a number of bytes nearer to that of the shapes.
    pub fn smaller(&self) -> Vec<Draw> {
        let lists = self.list.smaller().into_iter().map(|list| Draw { list, ..*self });
        lists.chain(nearer_zero(self.spare).into_iter().map(|spare| Draw { spare, ..self.clone() })).collect()
    }
}
