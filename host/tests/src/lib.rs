//! What the tests share: fixed seeds, cases, the smallest failing case, the calls on the archive and on the model, the
//! greatest length that each list had, lists of shapes, draw calls and the bytes lent for their answers, the words lent to read
//! lists into and what is read there, the forms in which a shape can be binned, maps, pairs of shapes, and
//! pools that tell of the bins of such pairs.

pub mod answers;
pub mod call;
pub mod draw;
pub mod forms;
pub mod generate;
pub mod hold;
pub mod lengths;
pub mod lent;
pub mod list;
pub mod mapped;
pub mod pairs;
pub mod random;
pub mod reading;
pub mod smaller;
pub mod square;
pub mod told;
