//! How many blocks the planner tells of the lists of the folder cases, and what it says of lines that are no calls. Beside a
//! list `NAME.calls` stands what it prints, `NAME.out`, or, where it runs nothing, what it says on standard error, `NAME.err`.

mod common;

use std::ffi::{OsStr, OsString};
use std::fs;
use std::os::unix::ffi::OsStringExt;
use std::process::Stdio;

use common::{end, not_run, start, stored, Ended};

fn plan(list: impl AsRef<[u8]>) -> Ended {
    end(start(&[], Stdio::piped()), list.as_ref())
}

/// The number after these words of what was printed.
fn printed(output: &str, words: &str) -> u32 {
    let rest = output.lines().find_map(|line| line.strip_prefix(words)).unwrap();
    rest.split(',').next().unwrap().trim().parse().unwrap()
}

/// The line of a list that opens the pool.
fn opening(list: &str) -> &str {
    list.lines().find(|line| line.starts_with("open")).unwrap()
}

/// The rows of the table.
fn table(output: &str) -> Vec<&str> {
    output.lines().skip_while(|line| !line.starts_with("tile")).take_while(|line| !line.is_empty()).collect()
}

#[test]
fn stored_lists_print_what_stands_beside_them() {
    let lists = stored("out");
    assert!(lists.len() >= 6);
    for (name, list, output) in lists {
        let status = Some(i32::from(output.contains("refused with 8")));
        assert_eq!(plan(list), Ended { status, output, said: String::new() }, "{name}");
    }
}

#[test]
fn stored_lists_that_are_not_run_say_why() {
    let lists = stored("err");
    assert!(lists.len() >= 6);
    for (name, list, said) in lists {
        assert_eq!(plan(list), Ended { status: Some(2), output: String::new(), said }, "{name}");
    }
}

/// With as many blocks as are told, by the marks or in use at once, the table is the same; with a block less than were in use
/// at once, a call is refused for room.
#[test]
fn as_many_blocks_as_are_told_are_enough() {
    for (name, list, output) in stored("out") {
        if output.contains("refused with 8") {
            continue;
        }
        let with_blocks = |blocks: u32| {
            let (opening, blocks) = (opening(&list), blocks.to_string());
            let mut words: Vec<&str> = opening.split(' ').collect();
            words[4] = &blocks;
            plan(list.replace(opening, &words.join(" ")))
        };
        let by_marks = printed(&output, "blocks by the marks:");
        let at_once = printed(&output, "blocks in use at once, at most:");
        for blocks in [by_marks, at_once] {
            let ended = with_blocks(blocks);
            assert_eq!((ended.status, table(&ended.output)), (Some(0), table(&output)), "{name} with {blocks} blocks");
        }
        if at_once > 0 {
            assert_eq!(with_blocks(at_once - 1).status, Some(1), "{name} with {} blocks", at_once - 1);
        }
    }
}

/// With 32 words to a block a list tells the same in edition two as in edition one, but for the header's two words more.
#[test]
fn a_block_of_32_words_holds_as_many_in_either_edition() {
    let two_words_more = |line: &str| match line.split_once(", in a pool of ") {
        Some((blocks, words)) => {
            let words: u32 = words.strip_suffix(" words").unwrap().parse().unwrap();
            format!("{blocks}, in a pool of {} words\n", words + 2)
        }
        None => format!("{line}\n"),
    };
    let in_edition_one = |(_, list, _): &(String, String, String)| opening(list).starts_with("open ");
    for (name, list, output) in stored("out").into_iter().filter(in_edition_one) {
        let opening = opening(&list);
        let ended = plan(list.replace(opening, &format!("{} 32", opening.replace("open", "open_two"))));
        assert_eq!(ended.output, output.lines().map(two_words_more).collect::<String>(), "{name}");
    }
}

#[test]
fn a_line_that_is_no_call_is_told() {
    let whole = "is not a whole number from";
    let unit = format!("{whole} -2147483648 to 2147483647");
    let count = format!("{whole} 0 to 4294967295");
    let lines = [
        ("pont 7 0 0", "\"pont\" is not a call".into()),
        ("7", "\"7\" is not a call".into()),
        ("Point 7 0 0", "\"Point\" is not a call".into()),
        ("point 7 0 0 # here", "point takes an id and 2 coordinates".into()),
        ("point", "point takes an id and 2 coordinates".into()),
        ("point 7 0", "point takes an id and 2 coordinates".into()),
        ("line 7 0 0", "line takes an id and 4 coordinates".into()),
        ("triangle 7 0 0 1 1 2", "triangle takes an id and 6 coordinates".into()),
        ("triangle 7 0 0 1 1 2 2 3", "triangle takes an id and 6 coordinates".into()),
        ("point seven 0 0", format!("\"seven\" {count}")),
        ("point -1 0 0", format!("\"-1\" {count}")),
        ("point 4294967296 0 0", format!("\"4294967296\" {count}")),
        ("point 7 0.5 0", format!("\"0.5\" {unit}")),
        ("point 7 0 2147483648", format!("\"2147483648\" {unit}")),
        ("pixels", "pixels stands before point, line or triangle".into()),
        ("pixels release 0", "\"release\" is not a call".into()),
        ("pixels pixels point 7 0 0", "\"pixels\" is not a call".into()),
        ("pixels point 7 0", "point takes an id and 2 coordinates".into()),
        ("pixels point 7 0 0x1", "\"0x1\" is not a number".into()),
        ("pixels point 7.5 0 0", format!("\"7.5\" {count}")),
        ("release", "release takes a tile".into()),
        ("release 0 1", "release takes a tile".into()),
        ("release -1", format!("\"-1\" {count}")),
        ("open 64 32 4 2", "open stands first, and once".into()),
        ("open_two 64 32 4 2 64", "open_two stands first, and once".into()),
        ("point 7 0 \u{7}\u{fffd}", format!("\"\\u{{7}}\u{fffd}\" {unit}")),
    ];
    for (line, why) in lines {
        let list = format!("# a list\nopen 64 32 4 2\npoint 1 0 0\n\n{line}\npoint 2 0 0\n");
        assert_eq!(plan(list), not_run(&format!("line 5: {why}")), "{line}");
    }
    for (line, why) in [
        ("open", "open takes width, height, s and blocks".into()),
        ("open 64 32 4", "open takes width, height, s and blocks".into()),
        ("open 64 32 4 2 1", "open takes width, height, s and blocks".into()),
        ("open 64 32 4 two", format!("\"two\" {count}")),
        ("open 64 -32 4 2", format!("\"-32\" {count}")),
        ("open_two 64 32 4 2", "open_two takes width, height, s, blocks and the words per block".into()),
        ("open_two 64 32 4 2 64 1", "open_two takes width, height, s, blocks and the words per block".into()),
        ("open_two 64 32 4 2 -64", format!("\"-64\" {count}")),
        ("open_three 64 32 4 2 64", "a list begins with open or open_two".into()),
    ] {
        assert_eq!(plan(format!("\n{line}\npoint 1 0 0\n")), not_run(&format!("line 2: {why}")), "{line}");
    }
}

#[test]
fn lines_may_end_and_be_spaced_as_they_like() {
    let list = "open 64 32 4 2\npoint 7 0 0\n";
    let other = "  # a comment\r\n\topen  64 32\t4 2\r\n\r\n   point 7 0 0";
    assert_eq!(plan(other), plan(list));
    assert_eq!(plan(list).status, Some(0));
}

/// A triangle takes 2,048 blocks; one of them is given back, and a 2,049th tile takes it.
#[test]
fn marks_may_ask_for_more_than_a_pool_can_have() {
    for (opening, words) in [("open 512 512 3 2048", 81_928), ("open_two 512 512 3 2048 64", 147_466)] {
        let half = format!("{opening}\ntriangle 1 -262144 4095 262143 4095 0 -262144\n");
        let ended = plan(format!("{half}release 0\npoint 2 8190 8190\n"));
        assert_eq!(ended.status, Some(0));
        assert!(ended.output.contains("blocks by the marks: 2049, which are more than a pool can have\n"));
        let at_once = format!("blocks in use at once, at most: 2048, in a pool of {words} words\n");
        assert!(ended.output.contains(&at_once), "{}", ended.output);

        let ended = plan(format!("{half}point 2 8190 8190\n"));
        assert_eq!(ended.status, Some(1));
        let advice = " No pool has more blocks than this one: release earlier, or take larger tiles.\n";
        assert!(ended.output.ends_with(advice), "{}", ended.output);
    }
}

#[test]
fn what_is_no_text_is_told() {
    let why = "line 1: \"\u{fffd}\" is not a whole number from 0 to 4294967295";
    assert_eq!(plan(b"open 64 32 4 \xff"), not_run(why));
    assert_eq!(plan(b"# \xff\xfe\0\nopen 64 32 4 2\n"), plan("#\nopen 64 32 4 2\n"));
    assert_eq!(plan([0; 100_000]).status, Some(2));
}

#[test]
fn help_is_told_and_other_words_are_not_taken() {
    let with = |word: &OsStr| end(start(&[word], Stdio::piped()), b"");
    let help = with(OsStr::new("--help"));
    assert_eq!((help.status, help.said.as_str()), (Some(0), ""));
    for call in [
        "open WIDTH HEIGHT S BLOCKS",
        "open_two WIDTH HEIGHT S BLOCKS WORDS",
        "point ID",
        "line ID",
        "triangle ID",
        "pixels point ID",
        "release TILE",
        "planner overlaps <LIST",
    ] {
        assert!(help.output.contains(call), "{call}");
    }
    let ended = with(&OsString::from_vec(b"list\xff".to_vec()));
    assert_eq!((ended.status, ended.output.as_str()), (Some(2), ""));
    assert!(ended.said.starts_with("planner: what is "), "{}", ended.said);
}

#[test]
fn output_that_cannot_be_written_is_told() {
    let full = fs::OpenOptions::new().write(true).open("/dev/full").unwrap();
    let on_full_device = start(&[], full.into());
    let mut on_closed_pipe = start(&[], Stdio::piped());
    drop(on_closed_pipe.stdout.take());
    for running in [on_full_device, on_closed_pipe] {
        let ended = end(running, b"open 64 32 4 2\n");
        assert_eq!(ended.status, Some(1));
        assert!(ended.said.starts_with("planner: the output was not written to its end: "), "{}", ended.said);
    }
}
