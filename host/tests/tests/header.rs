//! The C header says what the wrapper and the model say: numbers, texts, limits, version, declarations and examples.

use flourscoop::{Refusal, Shape, Vertex};
use model::cover::Cover;
use model::frame::Frame;
use model::inside::inside;
use model::layout::{Layout, LAYOUTS};
use model::marked::SCREEN;
use model::overlaps::{overlaps, Totals};
use model::pool::{State, MOST_BLOCKS, MOST_ENTRY, MOST_ID, POISON, WHOLE};
use model::quarters::map;
use model::shapes::{vertices, MOST_SHAPES, WORDS_OF_BIN, WORDS_OF_SHAPE};
use model::stepping::{walk, Walk};
use model::touch::touched;

const HEADER: &str = include_str!("../../include/flourscoop.h");
const WRAPPER: &str = include_str!("../../flourscoop/src/raw.rs");

/// What follows `#define NAME ` in the header.
fn defined(name: &str) -> &'static str {
    let start = format!("#define {name} ");
    HEADER.lines().find_map(|line| line.strip_prefix(&start)).unwrap_or_else(|| panic!("{name} is not defined"))
}

/// The names and the texts of `flourscoop_number_text`, in its order.
fn texts() -> Vec<(&'static str, &'static str)> {
    let case = |line: &'static str| {
        let (name, rest) = line.trim().strip_prefix("case ")?.split_once(": return \"")?;
        Some((name, rest.strip_suffix("\";")?))
    };
    HEADER.lines().filter_map(case).collect()
}

#[test]
fn numbers_and_texts_are_the_wrapper_s() {
    let texts = texts();
    assert_eq!(texts.len(), 13);
    for (number, (name, text)) in (0..=11).chain([15]).zip(texts) {
        assert_eq!(defined(name), format!("{number}u"), "{name}");
        match number {
            0 => assert_eq!((name, text), ("FLOURSCOOP_DONE", "done")),
            _ => {
                let refusal = Refusal::of(number).unwrap();
                assert_eq!((refusal.number(), refusal.text()), (number, text), "{name}");
                assert_eq!(refusal.to_string(), format!("refused with {number}: {text}"));
            }
        }
    }
    assert_eq!([0, 12, 14, 16, u32::MAX].map(Refusal::of), [None; 5]);
    assert_eq!(defined("FLOURSCOOP_BYTES"), "FLOURSCOOP_BUFFER");
}

#[test]
fn the_limits_of_a_list_are_the_wrapper_s_and_the_model_s() {
    assert_eq!((flourscoop::SHAPE_WORDS, flourscoop::MOST_SHAPES), (WORDS_OF_SHAPE, MOST_SHAPES));
    assert_eq!(flourscoop::BIN_WORDS, WORDS_OF_BIN);
    assert_eq!(defined("FLOURSCOOP_SHAPE_WORDS"), format!("{WORDS_OF_SHAPE}u"));
    assert_eq!(defined("FLOURSCOOP_BIN_WORDS"), format!("{WORDS_OF_BIN}u"));
    assert_eq!(defined("FLOURSCOOP_MOST_SHAPES"), format!("{MOST_SHAPES}u"));
    let origin = Vertex { x: 0, y: 0 };
    for (name, shape) in [
        ("POINT", Shape::Point(origin)),
        ("LINE", Shape::Line(origin, origin)),
        ("TRIANGLE", Shape::Triangle(origin, origin, origin)),
    ] {
        assert_eq!(defined(&format!("FLOURSCOOP_{name}")), shape.words()[0].to_string());
    }
}

#[test]
fn the_flag_is_the_wrapper_s_and_the_model_s() {
    assert_eq!((flourscoop::WHOLE, MOST_ID + 1, MOST_ENTRY), (WHOLE, WHOLE, WHOLE + MOST_ID));
    assert_eq!(defined("FLOURSCOOP_WHOLE"), format!("{WHOLE}u"));
    for said in [" 0 to\n *   16,777,215, plus a flag, FLOURSCOOP_WHOLE, 16,777,216,", " at most\n *   33,554,431."] {
        assert!(HEADER.contains(said), "{said}");
    }
    assert!(HEADER.contains(&format!("the entry of id 7 is {}.", 7 + WHOLE)));
}

#[test]
fn the_covers_are_the_wrapper_s_and_the_model_s() {
    for (name, wrapper, model) in [
        ("APART", flourscoop::Cover::Apart, Cover::Apart),
        ("PARTLY", flourscoop::Cover::Partly, Cover::Partly),
        ("WHOLLY", flourscoop::Cover::Wholly, Cover::Wholly),
    ] {
        assert_eq!(defined(&format!("FLOURSCOOP_{name}")), format!("{}u", model as u32));
        assert_eq!(wrapper as u32, model as u32);
    }
}

#[test]
fn the_version_is_the_crates() {
    assert_eq!(defined("FLOURSCOOP_VERSION"), format!("{:?}", env!("CARGO_PKG_VERSION")));
    let parts = ["MAJOR", "MINOR", "PATCH"].map(|part| defined(&format!("FLOURSCOOP_VERSION_{part}")));
    assert_eq!(parts.join("."), env!("CARGO_PKG_VERSION"));
}

/// The declarations of a text, in its order: all that stands from one of these starts up to its first semicolon.
fn declarations(text: &'static str, start: &str) -> Vec<&'static str> {
    let from = |(at, _)| text[at + start.len()..].split_once(';').unwrap().0;
    text.match_indices(start).map(from).collect()
}

/// The types of the header, and of the wrapper.
const TYPES: [(&str, &str); 6] = [
    ("uint32_t", "u32"),
    ("int32_t", "i32"),
    ("uint64_t", "u64"),
    ("uint8_t", "u8"),
    ("size_t", "usize"),
    ("float", "f32"),
];

/// A parameter of the header as the wrapper has it.
fn in_rust(parameter: &str) -> String {
    let (c_type, name) = parameter.trim().rsplit_once([' ', '*']).unwrap();
    let (c_type, pointer) = match (c_type.trim().strip_prefix("const "), parameter.contains('*')) {
        (Some(c_type), _) => (c_type, "*const "),
        (None, true) => (c_type.trim(), "*mut "),
        (None, false) => (c_type, ""),
    };
    let (_, rust_type) = TYPES.into_iter().find(|(known, _)| *known == c_type).unwrap();
    format!("{name}: {pointer}{rust_type}")
}

/// A declaration of the header as the wrapper has it.
fn declared_in_rust(declaration: &str) -> String {
    let (name, rest) = declaration.split_once('(').unwrap();
    let parameters: Vec<String> = rest.trim_end_matches(')').split(',').map(in_rust).collect();
    format!("{name}({}) -> u32", parameters.join(", "))
}

#[test]
fn the_declarations_are_the_wrapper_s() {
    let one_line = |declaration: &str| declaration.split_whitespace().collect::<Vec<_>>().join(" ");
    let mut header: Vec<String> = declarations(HEADER, "\nuint32_t ").into_iter().map(declared_in_rust).collect();
    let mut wrapper: Vec<String> = declarations(WRAPPER, "    fn ").into_iter().map(one_line).collect();
    header.sort();
    wrapper.sort();
    assert_eq!(header.len(), 28);
    assert_eq!(header, wrapper);
}

/// The words of the header's examples: each line has its first and last word, and what they are.
fn examples() -> Vec<Vec<u32>> {
    let number = |text: &str| text.parse::<usize>().unwrap();
    let mut examples = Vec::new();
    for line in HEADER.lines().filter_map(|line| line.strip_prefix(" *     word ")) {
        let Some((Ok(first), rest)) = line.split_once(" to ").map(|(first, rest)| (first.trim().parse(), rest)) else {
            continue;
        };
        let (last, rest) = rest.trim_start().split_once("   ").unwrap();
        let (said, _) = rest.split_once("  ").unwrap_or((rest, ""));
        if first == 0 {
            examples.push(Vec::new());
        }
        let words: &mut Vec<u32> = examples.last_mut().unwrap();
        assert_eq!(words.len(), first, "{line}");
        for part in said.split(", ") {
            match (part.strip_suffix(" times poison"), part) {
                (Some(times), _) => words.extend(vec![POISON; number(times)]),
                (_, "each") => words.resize(number(last) + 1, *words.last().unwrap()),
                _ => words.extend(part.split(' ').map(|word| number(word) as u32)),
            }
        }
        assert_eq!(words.len(), number(last) + 1, "{line}");
    }
    examples
}

#[test]
fn the_examples_are_the_model_s() {
    let binned = |layout| {
        let mut pool = State::opened(layout, SCREEN, 2);
        pool.bin(7, &[[0, 0]]).unwrap();
        pool.words()
    };
    assert_eq!(examples(), [Layout::One, Layout::Two { block_words: 64 }].map(binned));
}

/// The lines of the header's examples of lists that begin with this word, without it.
fn list_example(word: &str) -> impl Iterator<Item = &'static str> {
    let start = format!(" *     {word} ");
    HEADER.lines().filter_map(move |line| line.strip_prefix(&start))
}

/// The list that these lines say, each a place and the words of the shape there; and what each says next.
fn listed_in_lines(word: &str) -> (Vec<i32>, Vec<&'static str>) {
    let (mut list, mut next) = (Vec::new(), Vec::new());
    for (place, line) in list_example(word).enumerate() {
        let (said, rest) = line.split_once("    ").unwrap();
        assert_eq!(said.parse(), Ok(place), "{line}");
        let (words, rest) = rest.split_once("  ").unwrap();
        list.extend(words.split(", ").map(|word| word.parse::<i32>().unwrap()));
        next.push(rest.trim());
    }
    (list, next)
}

#[test]
fn the_totals_of_the_example_are_the_model_s() {
    let (list, _) = listed_in_lines("place");
    let Totals { shapes, out_of_range, box_tiles, touched_tiles, difference, largest, place } =
        overlaps(SCREEN, &list).unwrap();
    let totals = format!(
        "shapes {shapes}, out of range {out_of_range}, tiles by box {box_tiles}, by touching {touched_tiles}, \
         difference {difference}, largest {largest}, its place {place}"
    );
    assert_eq!(list_example("totals").map(str::trim).collect::<Vec<_>>(), [totals]);
    assert_eq!((shapes, out_of_range), (4, 1));
}

#[test]
fn the_answers_of_the_example_are_the_model_s() {
    let (list, said) = listed_in_lines("shape");
    let answers: Vec<u8> = said.iter().map(|said| said.split_once("  ").unwrap().0.parse().unwrap()).collect();
    for layout in LAYOUTS {
        let mut pool = State::opened(layout, SCREEN, 4);
        assert_eq!(pool.bin_list(&list, answers.len()), Ok(answers.clone()), "{layout:?}");
        let lists: Vec<&[u32]> = pool.tiles.iter().map(|tile| &tile.entries[..]).collect();
        let [tile_0, tile_1, others] = [&[7, 9, 12, WHOLE + 13][..], &[9, 12, 13], &[9, 13]];
        assert_eq!(lists, [tile_0, tile_1, &[], &[], others, others, &[], &[]], "{layout:?}");
    }
    assert_eq!(answers, [0, 8, 0, 8, 5, 7, 0, 0]);
    let said = "tile 0 has the list 7, 9, 12, 13*,\n *   tile 1 has 9, 12, 13, and tiles 4 and 5 have 9, 13.\n";
    assert!(HEADER.contains(said));
}

/// The pool of the example after its draw call.
fn drawn() -> State {
    let (list, said) = listed_in_lines("shape");
    let mut pool = State::opened(Layout::One, SCREEN, 4);
    pool.bin_list(&list, said.len()).unwrap();
    pool
}

/// Words as the header writes them.
fn in_words(words: &[u32]) -> String {
    words.iter().map(u32::to_string).collect::<Vec<_>>().join(" ")
}

#[test]
fn the_frame_of_the_example_is_the_model_s() {
    let pool = drawn();
    let [tiles, blocks, free, entries] = pool.counts();
    let Frame { starts, entries: listed } = pool.frame();
    let frame = [
        ("counts", format!("tiles {tiles}, blocks {blocks}, free {free}, entries {entries}")),
        ("starts", in_words(&starts)),
        ("entries", in_words(&listed)),
    ];
    let said = list_example("frame").filter_map(|line| line.split_once(' '));
    assert_eq!(said.map(|(name, words)| (name, words.trim().to_string())).collect::<Vec<_>>(), frame);
    assert_eq!(entries, 11);
}

#[test]
fn the_lists_of_the_example_are_the_model_s() {
    let pool = drawn();
    let of_tile = |line: &str| {
        let tile: u32 = line.split_once(' ').unwrap().0.parse().unwrap();
        let (number, list) = pool.read_list(tile, 4).map_or_else(|number| (number, Vec::new()), |list| (0, list));
        let words = if list.is_empty() { "none".into() } else { in_words(&list) };
        format!("{tile}    {number}   {words}, count {}", list.len())
    };
    let said: Vec<&str> = list_example("list").collect();
    assert_eq!(said.iter().map(|line| of_tile(line)).collect::<Vec<_>>(), said);
    assert_eq!(said.len(), 5);
}

#[test]
fn the_most_words_of_a_frame_are_the_model_s() {
    let entries = LAYOUTS.map(|layout| layout.ids_of_block() as u32 * MOST_BLOCKS);
    assert_eq!((entries, 4096 + 1), ([63_488, 63_488, 129_024], 4097));
    assert!(HEADER.contains("4,097 and 129,024 do\n *   for every pool"));
}

/// What the header says of a walk.
fn said_of_walk(shape: &[[i32; 2]]) -> String {
    let tiles = touched(SCREEN, shape);
    let Some(Walk { start, tested, rows, .. }) = walk(SCREEN, shape) else {
        return format!("off the screen: tests 0, tiles {}", tiles.len());
    };
    let step = |tile: &u32| format!("{tile}{}", if tiles.contains(tile) { "" } else { "-" });
    let steps: Vec<String> = tested.iter().map(step).collect();
    format!("from {start}: {}; tests {}, tiles {}, rows {rows}", steps.join(" "), tested.len(), tiles.len())
}

#[test]
fn the_walks_of_the_examples_are_the_model_s() {
    let (list, said) = listed_in_lines("walk");
    let walks: Vec<String> = list.chunks(WORDS_OF_SHAPE).map(|words| said_of_walk(&vertices(words))).collect();
    assert_eq!((said.len(), said), (5, walks.iter().map(String::as_str).collect()));
}

#[test]
fn the_maps_of_the_examples_are_the_model_s() {
    let (list, said) = listed_in_lines("map");
    let bytes = |words: &[i32]| map(SCREEN, &vertices(words), 8).unwrap().iter().map(u8::to_string).collect::<Vec<_>>();
    let maps: Vec<String> = list.chunks(WORDS_OF_SHAPE).map(|words| bytes(words).join(" ")).collect();
    assert_eq!((said.len(), said), (6, maps.iter().map(String::as_str).collect()));
}

#[test]
fn the_pairs_of_the_examples_are_the_model_s() {
    let words = |text: &str| text.split(", ").map(|word| word.parse().unwrap()).collect::<Vec<i32>>();
    let mut said = [0; 2];
    for (place, line) in (0..).zip(list_example("inside")) {
        let parts: Vec<&str> = line.split("  ").map(str::trim).filter(|part| !part.is_empty()).collect();
        let [number, first, second, written, _] = parts[..] else { panic!("{line}") };
        assert_eq!(number.parse(), Ok(place), "{line}");
        let model = inside(&words(first), &words(second)).map(|inside| u32::from(inside).to_string());
        assert_eq!(model.as_deref(), Ok(written), "{line}");
        said[usize::from(written == "1")] += 1;
    }
    assert_eq!(said, [3, 6]);
}
