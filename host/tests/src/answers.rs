//! Bytes lent for the answers to a list, with bytes on either side that are not lent.

use model::number;

/// How many bytes stand on either side: an odd number, so that what is lent is not aligned.
const BESIDE: usize = 3;

/// A byte from here on is no answer.
const UNTOUCHED: u8 = 0xA0;

#[derive(Clone, PartialEq, Eq)]
pub struct Answers(Vec<u8>);

impl Answers {
    /// So many bytes to lend, of which none is an answer.
    pub fn untouched(bytes: usize) -> Answers {
        Answers((0..bytes + 2 * BESIDE).map(|at| UNTOUCHED | (at as u8 & 15)).collect())
    }

    pub fn lent(&mut self) -> &mut [u8] {
        let end = self.0.len() - BESIDE;
        &mut self.0[BESIDE..end]
    }

    /// The answers among the bytes.
    pub fn given(&self) -> Vec<u8> {
        self.0.iter().copied().filter(|&byte| byte < UNTOUCHED).collect()
    }

    /// Says the first byte, counted from the first that is lent, that is another one in the model's.
    pub fn other_than(&self, model: &Answers) -> Option<String> {
        let at = (0..self.0.len()).find(|&at| self.0[at] != model.0[at])?;
        let place = at as isize - BESIDE as isize;
        Some(format!("answer byte {place} is {:#x} by the archive, {:#x} by the model", self.0[at], model.0[at]))
    }
}

/// Whether an answer refuses a shape for room.
pub fn no_room(answer: u8) -> bool {
    u32::from(answer) == number::NO_ROOM
}

/// The answers but for those that refuse a shape for room.
pub fn less_no_room(answers: &[u8]) -> Vec<u8> {
    answers.iter().copied().filter(|&answer| !no_room(answer)).collect()
}

/// Whether room runs out in the middle: after a shape that is done there is one that has no room, and one after that is done.
pub fn runs_out(answers: &[u8]) -> bool {
    let done = |&answer: &u8| u32::from(answer) == number::DONE;
    let (first, last) = (answers.iter().position(done), answers.iter().rposition(done));
    first.zip(last).is_some_and(|(first, last)| answers[first..=last].iter().any(|&answer| no_room(answer)))
}
