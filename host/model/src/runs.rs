//! Long lists of numbers in few words.

use std::fmt;

/// Shows numbers with each run of rising ones as `first..=last`, and of equal ones as `number; times`.
pub struct Runs<'a>(pub &'a [u32]);

impl fmt::Debug for Runs<'_> {
    fn fmt(&self, f: &mut fmt::Formatter) -> fmt::Result {
        let mut list = f.debug_list();
        let mut rest = self.0;
        while let [first, ..] = *rest {
            let run = |step: u32| {
                let in_run = |&(place, &number): &(u32, &u32)| first.checked_add(place * step) == Some(number);
                (0..).zip(rest).take_while(in_run).count()
            };
            let (equal, rising) = (run(0), run(1));
            rest = &rest[equal.max(rising)..];
            match (equal, rising) {
                (1, 1) => list.entry(&first),
                (1, _) => list.entry(&(first..=first + (rising as u32 - 1))),
                _ => list.entry(&format_args!("{first}; {equal}")),
            };
        }
        list.finish()
    }
}
