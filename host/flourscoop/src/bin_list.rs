//! A draw call at a time: the shapes of a list, each with its id, binned by one call.

use crate::{raw, Pool, Refusal, Shape, Vertex, SHAPE_WORDS};

/// The words of a shape with its id in a list: those of the shape, then the id.
pub const BIN_WORDS: usize = SHAPE_WORDS + 1;

impl Shape<Vertex> {
    /// The shape with its id, as a list has it. An id above 2,147,483,647 becomes a word below 0, so that it is refused as a
    /// bin refuses it, with 5.
    pub fn bin_words(self, id: u32) -> [i32; BIN_WORDS] {
        let [kind, x1, y1, x2, y2, x3, y3] = self.words();
        [kind, x1, y1, x2, y2, x3, y3, id as i32]
    }
}

/// The list of these shapes, each with its id.
pub fn bin_list_of(bins: impl IntoIterator<Item = (u32, Shape<Vertex>)>) -> Vec<i32> {
    bins.into_iter().flat_map(|(id, shape)| shape.bin_words(id)).collect()
}

/// The shapes of a list that were refused, each by its place with why, in the order of the list.
pub fn refused(answers: &[u8]) -> impl Iterator<Item = (usize, Refusal)> + '_ {
    let refusal = |(place, &answer)| Some((place, Refusal::of(u32::from(answer))?));
    answers.iter().enumerate().filter_map(refusal)
}

impl Pool<'_> {
    /// Bins the shapes of a list one after the other, and audits the pool once. The pool and the answers are then as from
    /// single bins: each shape has its number in its place of `answers`, and one that is refused is passed over. Bytes past
    /// the list's shapes stay as they are.
    ///
    /// The list is one that `bin_list_of` makes, of at most `MOST_SHAPES` shapes, with a byte for each; with any other, and
    /// in a pool that is not sound, the call is refused, and no word and no byte is written.
    ///
    /// ```
    /// use flourscoop::{bin_list_of, refused, room, Pool, Refusal, Screen, Shape, Vertex};
    ///
    /// let screen = Screen { width: 64, height: 32, s: 4 };
    /// let mut words = vec![0; room(screen, 2)?];
    /// let mut pool = Pool::open(&mut words, screen, 2)?;
    ///
    /// let [origin, meeting, far] = [[0, 0], [256, 256], [262_144, 0]].map(|[x, y]| Vertex { x, y });
    /// let list = bin_list_of([
    ///     (7, Shape::Point(origin)),
    ///     // four tiles meet here, three of them are empty, and one block is free
    ///     (9, Shape::Point(meeting)),
    ///     (11, Shape::Line(origin, far)),
    ///     (13, Shape::Point(origin)),
    /// ]);
    /// let mut answers = [0; 4];
    /// pool.bin_list(&list, &mut answers)?;
    /// assert_eq!(answers, [0, 8, 7, 0]);
    /// assert_eq!(refused(&answers).collect::<Vec<_>>(), [(1, Refusal::NoRoom), (2, Refusal::OutOfRange)]);
    /// assert_eq!([pool.read(0, 0)?.id, pool.read(0, 1)?.id], [7, 13]);
    ///
    /// // three bytes for four shapes, and a list without its last word
    /// assert_eq!(pool.bin_list(&list, &mut answers[..3]), Err(Refusal::Buffer));
    /// assert_eq!(pool.bin_list(&list[..31], &mut answers), Err(Refusal::List));
    /// # Ok::<(), Refusal>(())
    /// ```
    pub fn bin_list(&mut self, list: &[i32], answers: &mut [u8]) -> Result<(), Refusal> {
        raw::bin_list(self.words, list, answers).done().map(|[]| ())
    }
}
