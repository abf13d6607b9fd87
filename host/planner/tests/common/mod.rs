//! Runs of the planner, and the lists of the folder cases.

use std::ffi::OsStr;
use std::fs;
use std::io::Write;
use std::path::PathBuf;
use std::process::{Child, Command, Stdio};

/// How a run ended, what it printed, and what it said on standard error.
#[derive(PartialEq, Debug)]
pub struct Ended {
    pub status: Option<i32>,
    pub output: String,
    pub said: String,
}

pub fn start(arguments: &[&OsStr], output: Stdio) -> Child {
    let mut planner = Command::new(env!("CARGO_BIN_EXE_planner"));
    planner.args(arguments).stdin(Stdio::piped()).stdout(output).stderr(Stdio::piped()).spawn().unwrap()
}

/// Hands the planner its input, and waits for its end.
pub fn end(mut running: Child, input: &[u8]) -> Ended {
    // it may end before it has read all
    let _ = running.stdin.take().unwrap().write_all(input);
    let ended = running.wait_with_output().unwrap();
    let [output, said] = [ended.stdout, ended.stderr].map(|bytes| String::from_utf8(bytes).unwrap());
    Ended { status: ended.status.code(), output, said }
}

/// A run that came to nothing, for this reason.
pub fn not_run(why: &str) -> Ended {
    Ended { status: Some(2), output: String::new(), said: format!("planner: {why}\n") }
}

/// The stored lists, each with its name and the file beside it that has this ending.
pub fn stored(ending: &str) -> Vec<(String, String, String)> {
    let folder = PathBuf::from(env!("CARGO_MANIFEST_DIR")).join("cases");
    let mut lists: Vec<PathBuf> = fs::read_dir(folder).unwrap().map(|entry| entry.unwrap().path()).collect();
    lists.retain(|path| path.extension() == Some(OsStr::new("calls")) && path.with_extension(ending).exists());
    lists.sort();
    let read = |path: PathBuf| {
        let name = path.file_stem().unwrap().to_string_lossy().into_owned();
        let beside = fs::read_to_string(path.with_extension(ending)).unwrap();
        (name, fs::read_to_string(path).unwrap(), beside)
    };
    lists.into_iter().map(read).collect()
}
