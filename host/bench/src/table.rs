//! The table of the measures: for each call the middle of its runs and, in brackets, the least and the most.

use crate::frames::Framed;
use crate::maps::Mapped;
use crate::walks::Walked;

/// What stands beside a call's time.
#[derive(Clone, Copy)]
pub enum Beside {
    Nothing,
    /// the plain binner's time, and the ratio of the middles
    Plain(f64),
    /// the plain binner's time; the call's own is a difference that is lost in its spread, so that it has a range alone and
    /// no ratio
    PlainOfARange(f64),
}

/// A call, its time in nanoseconds, and what stands beside it.
pub struct Row {
    pub call: String,
    pub archive: f64,
    pub beside: Beside,
}

/// A number with one decimal below a hundred and none above, its thousands parted by commas.
fn number(value: f64) -> String {
    if value.abs() < 99.95 {
        return format!("{value:.1}").replace('-', "−");
    }
    let digits = format!("{:.0}", value.abs());
    let mut parted = String::from(if value < 0.0 { "−" } else { "" });
    for (place, digit) in digits.chars().enumerate() {
        if place > 0 && (digits.len() - place) % 3 == 0 {
            parted.push(',');
        }
        parted.push(digit);
    }
    parted
}

/// The times of one row in all runs, in rising order.
struct Spread(Vec<f64>);

impl Spread {
    fn of(times: impl Iterator<Item = f64>) -> Spread {
        let mut times: Vec<f64> = times.collect();
        times.sort_by(f64::total_cmp);
        Spread(times)
    }

    fn middle(&self) -> f64 {
        self.part(2)
    }

    /// What so many quarters of the times are at most.
    fn part(&self, quarters: usize) -> f64 {
        self.0[self.0.len() * quarters / 4]
    }

    fn ends(&self) -> [String; 2] {
        [self.0[0], self.0[self.0.len() - 1]].map(number)
    }

    fn text(&self) -> String {
        let [least, most] = self.ends();
        format!("{} ({least}–{most})", number(self.middle()))
    }

    fn range(&self) -> String {
        self.ends().join(" to ")
    }

    /// The middle of ratios and, in brackets, their quartiles; with two decimals or, from a hundred on, none.
    fn with_quartiles(&self) -> String {
        let text = |ratio: f64| if ratio < 99.95 { format!("{ratio:.2}") } else { number(ratio) };
        let [low, middle, high] = [1, 2, 3].map(|quarters| text(self.part(quarters)));
        format!("{middle} ({low}–{high})")
    }

    fn best_and_middle(&self) -> String {
        format!("{}; {}", number(self.0[0]), number(self.middle()))
    }
}

/// Prints the table of some runs, each of the same calls in the same order.
pub fn print(runs: &[Vec<Row>]) {
    println!("| call | archive, ns | plain Rust, ns | ratio |");
    println!("|---|---|---|---|");
    for (at, row) in runs[0].iter().enumerate() {
        let archive = Spread::of(runs.iter().map(|run| run[at].archive));
        let plain = Spread::of(runs.iter().filter_map(|run| match run[at].beside {
            Beside::Nothing => None,
            Beside::Plain(plain) | Beside::PlainOfARange(plain) => Some(plain),
        }));
        let call = &row.call;
        match row.beside {
            Beside::Nothing => println!("| {call} | {} | | |", archive.text()),
            Beside::Plain(_) => {
                let ratio = number(archive.middle() / plain.middle());
                println!("| {call} | {} | {} | {ratio} |", archive.text(), plain.text());
            }
            Beside::PlainOfARange(_) => println!("| {call} | {} | {} | |", archive.range(), plain.text()),
        }
    }
}

/// Prints what a tile costs, of some runs, each of the same mixes in the same order.
pub fn print_walks(runs: &[Vec<Walked>]) {
    println!();
    println!("| on the screen | tiles each | tests per tile, through the box | stepping | bin, ns per tile | bin_list, ns per tile |");
    println!("|---|---|---|---|---|---|");
    for (at, Walked { kind, tiles, through_box, stepping, .. }) in runs[0].iter().enumerate() {
        let times = |of: fn(&Walked) -> f64| Spread::of(runs.iter().map(|run| of(&run[at]))).text();
        let (bin, bin_list) = (times(|walked| walked.bin), times(|walked| walked.bin_list));
        println!("| {kind} | {} | {through_box:.2} | {stepping:.2} | {bin} | {bin_list} |", number(*tiles));
    }
}

/// A ratio with two decimals, below a tenth with three.
fn small_ratio(ratio: f64) -> String {
    if ratio < 0.1 {
        format!("{ratio:.3}")
    } else {
        format!("{ratio:.2}")
    }
}

/// Prints what a map costs, of the rounds of all runs together, each run of the same mixes in the same order: the best and the
/// middle of its times, the ratio of the best ones, and the middle of the ratios within each round.
pub fn print_maps(runs: &[Vec<Mapped>]) {
    println!();
    println!("| maps | tiles each | tests each, by quarters | by quarters alone | stepping | through the box | map, ns | tile by tile in plain Rust, ns | ratio | bin with its audit, ns |");
    println!("|---|---|---|---|---|---|---|---|---|---|");
    for (at, Mapped { kind, tiles, with_step, alone, stepping, through_box, .. }) in runs[0].iter().enumerate() {
        let rounds = || runs.iter().flat_map(|run| &run[at].maps);
        let [map, plain] = [0, 1].map(|which| Spread::of(rounds().map(|times| times[which])));
        let ratios = Spread::of(rounds().map(|[map, plain]| map / plain));
        let bins = Spread::of(runs.iter().flat_map(|run| run[at].bins.iter().flatten().copied()));
        let mut line = format!("| {kind} |");
        for counted in [Some(*tiles), Some(*with_step), Some(*alone), *stepping, Some(*through_box)] {
            line += &counted.map_or(" |".into(), |counted| format!(" {} |", number(counted)));
        }
        line += &format!(" {} | {} |", map.best_and_middle(), plain.best_and_middle());
        line += &format!(" {}; {} |", small_ratio(map.0[0] / plain.0[0]), small_ratio(ratios.middle()));
        line += &if bins.0.is_empty() { " |".into() } else { format!(" {} |", bins.best_and_middle()) };
        println!("{line}");
    }
}

/// Prints what it costs to read a frame, of the rounds of all runs together, each run of the same frames in the same order: the
/// best and the middle of the times of an audit, and the ratios of the other ways to the audit of the same round, the middle and
/// the quartiles.
pub fn print_frames(runs: &[Vec<Framed>]) {
    println!();
    println!("| frames | entries | audit, ns | read_all, to the audit | read_list of each tile | read of each entry, by some of them | counts | copy in plain Rust |");
    println!("|---|---|---|---|---|---|---|---|");
    for (at, Framed { kind, entries, .. }) in runs[0].iter().enumerate() {
        let rounds = || runs.iter().flat_map(|run| &run[at].rounds);
        let audit = Spread::of(rounds().map(|times| times[0])).best_and_middle();
        let ratios =
            [1, 2, 3, 4, 5].map(|way| Spread::of(rounds().map(|times| times[way] / times[0])).with_quartiles());
        println!("| {kind} | {} | {audit} | {} |", number(*entries as f64), ratios.join(" | "));
    }
}

#[cfg(other)]
pub fn print_turns_head() {
    println!();
    println!("| call | other archive, ns | archive, ns | ratio, and its quartiles |");
    println!("|---|---|---|---|");
}

/// Prints a call's row, of the times of two archives in each round.
#[cfg(other)]
pub fn print_turns(call: &str, rounds: &[[f64; 2]]) {
    let [other, archive] = [0, 1].map(|turn| number(Spread::of(rounds.iter().map(|times| times[turn])).middle()));
    let ratio = Spread::of(rounds.iter().map(|[other, archive]| archive / other)).with_quartiles();
    println!("| {call} | {other} | {archive} | {ratio} |");
}
