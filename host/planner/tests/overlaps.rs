//! How many tiles the planner tells that the shapes of a list overlap, for each s. Beside a list `NAME.calls` of the folder
//! cases stands what it prints, `NAME.overlaps`.

mod common;

use std::ffi::OsStr;
use std::process::Stdio;

use common::{end, not_run, start, stored, Ended};

fn plan(list: impl AsRef<[u8]>) -> Ended {
    end(start(&[OsStr::new("overlaps")], Stdio::piped()), list.as_ref())
}

/// A row of the table, cell by cell.
fn row<'a>(output: &'a str, name: &str) -> Vec<&'a str> {
    let row = output.lines().find_map(|line| line.trim_start().strip_prefix(name)).unwrap();
    row.split_whitespace().filter(|&cell| cell != "%").collect()
}

/// The line of a list that opens the pool.
fn opening(list: &str) -> &str {
    list.lines().find(|line| line.starts_with("open")).unwrap()
}

/// The ventilator's display, and what is told of it.
fn display() -> (String, String) {
    let found = stored("overlaps").into_iter().find(|(name, _, _)| name == "display");
    let (_, list, output) = found.unwrap();
    (list, output)
}

#[test]
fn stored_lists_print_what_stands_beside_them() {
    let lists = stored("overlaps");
    assert!(lists.len() >= 6);
    for (name, list, output) in lists {
        assert_eq!(plan(list), Ended { status: Some(0), output, said: String::new() }, "{name}");
    }
}

/// As many tiles are told to be touched as the bins of the list add entries, for each s that the screen can have.
#[test]
fn the_tiles_by_touching_are_the_entries_that_the_bins_add() {
    for screen in ["800 480", "640 400", "333 77", "64 64"] {
        let (list, _) = display();
        let opened = |s: usize| list.replace(opening(&list), &format!("open {screen} {s} 2048"));
        let output = plan(opened(4)).output;
        for (s, touched) in (3..=6).zip(row(&output, "tiles by touching")) {
            let ended = end(start(&[], Stdio::piped()), opened(s).as_bytes());
            let sum = || row(&ended.output, "sum")[0];
            assert_eq!(touched, if ended.status == Some(2) { "-" } else { sum() }, "{screen} with s = {s}");
        }
    }
}

#[test]
fn of_the_opening_only_the_screen_counts() {
    let (list, output) = display();
    for other in ["open 800 480 7 0", "open 800 480 3 4294967295", "open_two 800 480 4 1 48", "open_two 800 480 6 0 64"]
    {
        assert_eq!(plan(list.replace(opening(&list), other)).output, output, "{other}");
    }
}

#[test]
fn ids_and_releases_do_not_count() {
    let list =
        |id: &str, between: &str| format!("open 64 32 4 2\npoint {id} 256 256\n{between}\nline {id} 0 0 512 512\n");
    let told = plan(list("1", ""));
    assert_eq!(row(&told.output, "tiles by touching"), ["15", "9", "3", "2"]);
    for (id, between) in [("4294967295", "# no call"), ("7", "release 0"), ("16777216", "release 9999")] {
        assert_eq!(plan(list(id, between)), told, "{id} and {between}");
    }
}

/// The first offence of a shape in pixels decides, x before y: it is out of range, or has no units.
#[test]
fn a_shape_in_pixels_is_out_of_range_or_has_no_units() {
    let shapes = [
        ("pixels point 1 16384 NaN", true),
        ("pixels point 1 NaN 16384", false),
        ("pixels line 1 0 0 -16384.1 inf", true),
        ("pixels line 1 0 0 0 inf", false),
        ("pixels triangle 1 0 0 0 0 0 1e38", true),
        ("pixels triangle 1 0 0 0 0 -inf 1e38", false),
        ("point 1 262144 0", true),
        ("triangle 1 0 0 0 0 0 -262145", true),
    ];
    for (shape, out_of_range) in shapes {
        let ended = plan(format!("open 64 32 4 2\n{shape}\npoint 1 0 0\n"));
        let refused = "line 2: refused with 6: a coordinate is infinite or no number\n";
        assert_eq!((ended.status, ended.output.starts_with(refused)), (Some(0), !out_of_range), "{shape}");
        assert_eq!(row(&ended.output, "shapes"), ["1"; 4], "{shape}");
        assert_eq!(row(&ended.output, "out of range"), [if out_of_range { "1" } else { "0" }; 4], "{shape}");
        assert_eq!(row(&ended.output, "its place"), [if out_of_range { "1" } else { "0" }; 4], "{shape}");
        assert_eq!(row(&ended.output, "its line"), ["3"; 4], "{shape}");
    }
}

#[test]
fn an_s_with_too_many_tiles_is_told() {
    for (screen, tiles) in [
        ("512 512", ["4096", "1024", "256", "64"]),
        ("513 512", ["4160", "1056", "272", "72"]),
        ("1024 1025", ["16512", "4160", "1056", "272"]),
        ("4096 2049", ["131584", "33024", "8320", "2112"]),
        ("4096 4096", ["262144", "65536", "16384", "4096"]),
    ] {
        let ended = plan(format!("open {screen} 4 2\npoint 1 1 1\n"));
        assert_eq!((ended.status, row(&ended.output, "tiles of the screen")), (Some(0), tiles.to_vec()), "{screen}");
        let too_many = tiles.map(|tiles| tiles.parse::<u32>().unwrap() > 4096);
        for name in ["shapes", "tiles by box", "tiles by touching", "largest of one shape"] {
            assert_eq!(row(&ended.output, name), too_many.map(|many| if many { "-" } else { "1" }), "{screen}: {name}");
        }
        for ((s, tiles), many) in (3..=6).zip(tiles).zip(too_many) {
            let told = format!("\ns = {s} is refused: {tiles} tiles are more than the 4096 that a screen may have.\n");
            assert_eq!(ended.output.contains(&told), many, "{screen}: {}", ended.output);
        }
    }
}

#[test]
fn what_cannot_be_counted_is_told() {
    let screen = "refused with 1: the screen or s is outside the rules";
    for (list, why) in [
        ("# no call\n", "the list is empty; it begins with open or open_two".into()),
        ("point 1 0 0\n", "line 1: a list begins with open or open_two".into()),
        ("open 64 32 4 2\n\npont 1 0 0\n", "line 3: \"pont\" is not a call".into()),
        ("open 64 32 4 2\npoint 0 0\n", "line 2: point takes an id and 2 coordinates".into()),
        ("open 64 32\npoint 1 0 0\n", "line 1: open takes width, height, s and blocks".into()),
        ("\nopen 0 32 4 2\npoint 1 0 0\n", format!("line 2: {screen}")),
        ("open 64 4097 4 2\n", format!("line 1: {screen}")),
        ("open_two 4294967295 4294967295 6 2 64\n", format!("line 1: {screen}")),
    ] {
        assert_eq!(plan(list), not_run(&why), "{list}");
    }
    let words = ["overlaps", "800"].map(OsStr::new);
    let why = "what is \"800\"? planner --help tells what it takes";
    assert_eq!(end(start(&words, Stdio::piped()), b"open 64 32 4 2\n"), not_run(why));
}

#[test]
fn a_list_of_1048576_shapes_is_counted_and_one_more_is_not() {
    let most = format!("open 64 32 4 2\n{}", "point 1 0 0\n".repeat(1_048_576));
    let ended = plan(&most);
    assert_eq!((ended.status, row(&ended.output, "shapes")), (Some(0), vec!["1048576"; 4]));
    assert_eq!(plan(most + "pixels point 1 0 0\n"), not_run("the list has more than 1048576 shapes"));
}
