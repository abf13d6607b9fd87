//! Makes the calls of a list in a pool, and tells how many blocks a pool for them needs; or tells how many tiles their shapes
//! overlap, for each s. `planner --help` has the rest.

mod opening;
mod overlaps;
mod parse;
mod run;
mod sizes;
mod table;

use std::env;
use std::io::{self, Read, Write};
use std::process::ExitCode;

use flourscoop::{Refusal, MOST_SHAPES};
use parse::List;

const HELP: &str = include_str!("help.txt");

/// A list that could be run, told to the end.
const DONE: u8 = 0;
/// A call was refused for room, or the output was not written.
const NOT_ENOUGH: u8 = 1;
/// Nothing was run.
const NOT_RUN: u8 = 2;

/// The status and what goes to standard output, or why nothing does.
type Told = Result<(u8, String), String>;

/// How many blocks a list needs.
fn blocks(list: &List) -> Told {
    let made = run::run(list).map_err(|refusal| format!("line {}: {refusal}", list.line))?;
    let status = if made.for_room() == 0 { DONE } else { NOT_ENOUGH };
    Ok((status, table::text(list, &made)))
}

/// How many tiles the shapes of a list overlap.
fn overlaps(list: &List) -> Told {
    match overlaps::count(list) {
        Ok(counted) => Ok((DONE, sizes::text(&counted))),
        Err(Refusal::List) => Err(format!("the list has more than {MOST_SHAPES} shapes")),
        Err(refusal) => Err(format!("line {}: {refusal}", list.line)),
    }
}

fn plan() -> Told {
    let arguments: Vec<_> = env::args_os().skip(1).collect();
    let tell = match &arguments[..] {
        [] => blocks,
        [word] if word == "overlaps" => overlaps,
        [word] if word == "--help" => return Ok((DONE, HELP.into())),
        [.., word] => return Err(format!("what is {word:?}? planner --help tells what it takes")),
    };
    let mut bytes = Vec::new();
    io::stdin().read_to_end(&mut bytes).map_err(|error| format!("standard input cannot be read: {error}"))?;
    tell(&parse::list(&String::from_utf8_lossy(&bytes))?)
}

fn write(text: &str) -> io::Result<()> {
    let mut output = io::stdout().lock();
    output.write_all(text.as_bytes())?;
    output.flush()
}

fn main() -> ExitCode {
    let (status, said) = match plan() {
        Err(why) => (NOT_RUN, Some(why)),
        Ok((status, text)) => match write(&text) {
            Err(error) => (NOT_ENOUGH, Some(format!("the output was not written to its end: {error}"))),
            Ok(()) => (status, None),
        },
    };
    if let Some(said) = said {
        // where standard error is closed too, the status is all that tells
        let _ = writeln!(io::stderr(), "planner: {said}");
    }
    ExitCode::from(status)
}
