//! What users touch: the samples, the script over the programs, the header and the C example.

mod common;

use common::commands::*;
use common::*;
use compare::gen::cases;
use compare::model::limits::{BLOCK_BYTES, INPUT_BYTES};
use compare::model::printout::flip_printout;
use compare::model::{answer, open, printout, remove, shown, Call, PageRow, Patch, Row, Summary};
use std::collections::BTreeSet;
use std::ffi::OsStr;
use std::fs;
use std::path::PathBuf;
use std::sync::Once;

/// The marks that the words at the end of a row's line give it.
fn marks_of(words: &[&str]) -> [bool; 4] {
    let faces = ["qrs", "psr", "pqs", "prq"];
    assert!(words.iter().all(|word| faces.contains(word)), "{words:?}");
    faces.map(|face| words.contains(&face))
}

/// The patch of a readable text, by a second reading of it.
fn patch_of(text: &str) -> Patch {
    let mut patch = patch(&[], &[], 0);
    for line in text.lines() {
        let line = line.split('#').next().expect("a part before any comment");
        let mut words = line.split_whitespace();
        let word = words.next();
        let words: Vec<&str> = words.collect();
        let is_number = |word: &&&str| word.parse::<u8>().is_ok();
        let (numbers, marks) = words.split_at(words.iter().take_while(is_number).count());
        let numbers: Vec<u8> = numbers.iter().filter_map(|n| n.parse().ok()).collect();
        match (word, numbers.as_slice()) {
            (None, _) => {}
            (Some("version"), [version]) => patch.version = *version,
            (Some("point"), [x, y, z]) => patch.points.push([*x, *y, *z]),
            (Some("row"), [p, q, r, s, region]) => patch.rows.push(Row {
                marks: marks_of(marks),
                ..Row::plain([*p, *q, *r, *s], *region)
            }),
            _ => panic!("{line}"),
        }
    }
    patch
}

/// The samples with the edge that their texts speak of, and the answer there.
const SAMPLES: [(&str, u8, u8, u32); 9] = [
    ("blade", 0, 1, answer::DONE),
    ("block_a", 0, 1, answer::DONE),
    ("blocked", 0, 1, answer::NOT_ADMISSIBLE),
    ("glued", 0, 1, answer::DONE),
    ("joint", 0, 1, answer::TWO_REGIONS),
    ("load", 0, 1, answer::MARK_GOES),
    ("low_apex", 0, 1, answer::NONE_BETTER),
    ("plate", 0, 1, answer::DONE),
    ("sliver", 9, 27, answer::DONE),
];

fn sample_block(name: &str) -> Vec<u8> {
    let path = house().join("samples").join(name).with_extension("patch");
    fs::read(path).expect("a sample")
}

/// The program's input for a sample.
fn sample_input((name, a, b, _): (&str, u8, u8, u32)) -> Vec<u8> {
    [&sample_block(name)[..], &[a, b]].concat()
}

fn samples() -> Vec<PathBuf> {
    let files = fs::read_dir(house().join("samples")).expect("samples/");
    let paths = files.map(|file| file.expect("an entry").path());
    let texts: Vec<PathBuf> = paths
        .filter(|path| path.extension() == Some(OsStr::new("txt")))
        .collect();
    assert_eq!(texts.len(), SAMPLES.len());
    texts
}

#[test]
fn a_sample_is_its_text() {
    for text in samples() {
        let patch = patch_of(&fs::read_to_string(&text).expect("text"));
        let block = fs::read(text.with_extension("patch")).expect("its block");
        assert_eq!(block, patch.to_bytes(), "{}", text.display());
        let copy = scratch(text.file_name().and_then(OsStr::to_str).expect("a name"));
        fs::copy(&text, &copy).expect("a copy");
        printed("samples/make", &[copy.as_os_str()]);
        assert_eq!(fs::read(copy.with_extension("patch")).expect("made"), block);
    }
}

#[test]
fn a_sample_has_the_answer_that_its_text_says() {
    for sample in SAMPLES {
        let (name, _, _, number) = sample;
        let text = printout(&sample_input(sample));
        assert!(
            text.starts_with(&format!("answer {number}\n")),
            "{name}: {text}"
        );
    }
    assert_eq!(sample_block("plate"), plate().to_bytes());
}

/// The blade has coordinates that 128 steps cannot hold, and its worst gets better as its text says.
#[test]
fn the_blade_has_coordinates_up_to_255_and_gets_better() {
    let blade = open(&sample_block("blade")).expect("it opens");
    assert_eq!(blade.points.iter().flatten().max(), Some(&255));
    let removal = remove(&blade.to_bytes(), 0, 1, &mut UNTOUCHED.clone()).expect("done");
    let [before, after] = [&removal.before, &removal.after].map(Summary::of);
    assert_eq!((before.upright, after.upright), (9, 11));
    assert_eq!((before.worst, after.worst), (Some(320), Some(622)));
}

/// The joint is upright, and its removal is refused for its regions only; a flip of a face between copper and epoxy is, too.
#[test]
fn the_joint_is_refused_for_its_two_materials_alone() {
    let joint = open(&sample_block("joint")).expect("it opens");
    assert_eq!(Summary::of(&joint).upright, joint.rows.len());
    assert_eq!(remove_answer(&joint, 0, 1), answer::TWO_REGIONS);
    assert_eq!(flip_answer(&joint, &[0, 1, 2]), answer::TWO_REGIONS);
    assert_eq!(flip_answer(&joint, &[0, 1, 3]), answer::DONE);
    let mut one_material = joint;
    for row in &mut one_material.rows {
        row.region = 1;
    }
    assert_eq!(remove_answer(&one_material, 0, 1), answer::DONE);
    assert_eq!(flip_answer(&one_material, &[0, 1, 2]), answer::DONE);
}

/// The upper faces are marked before and after, in four new rows and in the one above, and the worst gets better.
#[test]
fn the_glued_load_surface_stays_where_it_is() {
    let glued = open(&sample_block("glued")).expect("it opens");
    let surface = BTreeSet::from([[0, 2, 3], [0, 3, 4], [0, 4, 5], [0, 2, 5]]);
    assert_eq!((glued.version, marked_set(&glued)), (2, surface.clone()));
    let removal = remove(&glued.to_bytes(), 0, 1, &mut UNTOUCHED.clone()).expect("done");
    assert_eq!(
        (removal.after.version, marked_set(&removal.after)),
        (2, surface)
    );
    let marks = |row: &Row| row.marks.iter().filter(|mark| **mark).count();
    let of_new: Vec<usize> = removal.new_rows.iter().map(marks).collect();
    assert_eq!(of_new, [2, 0, 2, 0]);
    let [before, after] = [&removal.before, &removal.after].map(Summary::of);
    assert_eq!((before.upright, after.upright), (5, 5));
}

/// The load surface is in the way of the removal, and of nothing else there.
#[test]
fn the_load_surface_is_refused_for_its_marks_alone() {
    let load = open(&sample_block("load")).expect("it opens");
    assert_eq!(marked_set(&load), BTreeSet::from([[0, 1, 2], [0, 1, 4]]));
    assert_eq!(remove_answer(&load, 0, 1), answer::MARK_GOES);
    assert_eq!(flip_answer(&load, &[0, 1, 2]), answer::MARK_GOES);
    assert_eq!(flip_answer(&load, &[0, 1, 3]), answer::DONE);
    assert_eq!(remove_answer(&with_marked(&load, &[]), 0, 1), answer::DONE);
}

#[test]
fn a_text_that_is_wrong_is_told_in_one_line() {
    for wrong in [
        "point 1 2",
        "row 1 2 3 4",
        "edge 1 2",
        "point 1 2 256",
        "version 3",
        "version",
        "row 0 1 2 3 7\nversion 2",
        "row 0 1 2 3 7 qrs",
        "version 1\nrow 0 1 2 3 7 qrs",
        "version 2\nrow 0 1 2 3 16",
        "version 2\nrow 0 1 2 3 qrs",
        "version 2\nrow 0 1 2 3 7 qrs rqs",
        "version 2\nrow 0 1 2 3 7 qrs psr qrs",
    ] {
        let text = scratch("wrong.txt");
        fs::write(&text, wrong).expect("written");
        let output = run("samples/make", &[text.as_os_str()]);
        assert!(!output.status.success());
        assert_eq!(String::from_utf8_lossy(&output.stderr).lines().count(), 1);
    }
}

/// Has the script build both programs, one after the other: two builds at once disturb each other.
fn build_programs() {
    static BUILT: Once = Once::new();
    BUILT.call_once(|| {
        let removal = ["samples/block_a.patch", "0", "1"].map(OsStr::new);
        let flip = ["flip", "samples/block_a.patch", "0", "1"].map(OsStr::new);
        for words in [&removal[..], &flip[..]] {
            assert!(run("./sumpnewt", words).status.success(), "it is built");
        }
    });
}

/// What the script prints of an input whose last two bytes are the ends.
#[track_caller]
fn printed_of(input: &[u8]) -> String {
    let (file, [a, b]) = input.split_last_chunk::<2>().expect("two ends");
    let path = scratch("block.patch");
    fs::write(&path, file).expect("written");
    let ends = [a.to_string(), b.to_string()];
    printed(
        "./sumpnewt",
        &[path.as_os_str(), OsStr::new(&ends[0]), OsStr::new(&ends[1])],
    )
}

#[test]
fn the_script_prints_the_models_printout() {
    build_programs();
    let generated = cases(5, 600).filter_map(|case| match case.call {
        Call::Printout { input } => Some(input),
        _ => None,
    });
    let generated = generated.filter(|input| input.len() >= 2).take(60);
    for input in generated.chain(SAMPLES.map(sample_input)) {
        assert_eq!(printed_of(&input), printout(&input));
    }
    // Block A with its ends, cut short or with bytes behind it: no contract can say how much a program reads.
    let whole = [&block_a().to_bytes()[..], &[0, 1]].concat();
    assert_eq!(whole.len(), INPUT_BYTES);
    assert!(printed_of(&whole).starts_with("answer 0\n"));
    for length in [2, 511, 512, 513, 515, 516, 600, 5_000] {
        let mut input = whole.clone();
        input.resize(length, 0);
        assert_eq!(printed_of(&input), "answer 1\n", "{length} bytes");
    }
}

/// What the script prints of a flip.
#[track_caller]
fn flip_printed(file: &[u8], numbers: &[u8]) -> String {
    let path = scratch("flip.patch");
    fs::write(&path, file).expect("written");
    let numbers: Vec<String> = numbers.iter().map(u8::to_string).collect();
    let mut words = vec![OsStr::new("flip"), path.as_os_str()];
    words.extend(numbers.iter().map(OsStr::new));
    printed("./sumpnewt", &words)
}

/// The same, held to the model.
#[track_caller]
fn flip_held(block: &[u8], numbers: &[u8]) -> String {
    let text = flip_printed(block, numbers);
    let expected = flip_printout(&[block, numbers].concat());
    assert_eq!(text, expected, "{numbers:?}");
    text
}

#[test]
fn the_script_prints_the_models_printout_of_a_flip() {
    build_programs();
    let [before, after] = [block_a(), block_a_after()].map(|patch| patch.to_bytes());
    assert!(flip_held(&before, &[0, 1]).starts_with("answer 0\n"));
    assert!(flip_held(&after, &[2, 3, 4]).starts_with("answer 0\n"));
    flip_held(&before, &[0, 255]);
    flip_held(&after, &[2, 3, 255]);
    let joint = sample_block("joint");
    assert_eq!(flip_held(&joint, &[0, 1, 2]), "answer 20\n");
    assert!(flip_held(&joint, &[0, 1, 3]).starts_with("answer 0\n"));
    let load = sample_block("load");
    assert_eq!(flip_held(&load, &[0, 1, 2]), "answer 23\n");
    assert!(flip_held(&load, &[0, 1, 3]).starts_with("answer 0\n"));
    for input in SAMPLES.map(sample_input) {
        let (block, ends) = input.split_at(BLOCK_BYTES);
        flip_held(block, ends);
    }
    for (patch, [a, b]) in edges(5, 200).take(20) {
        let block = patch.to_bytes();
        flip_held(&block, &[a as u8, b as u8]);
        for row in patch.rows.iter().take(2) {
            flip_held(&block, &row.numbers[..3]);
        }
    }
    let mut wrong_sum = before;
    wrong_sum[BLOCK_BYTES - 1] ^= 1;
    for count in [0, 1, 4, 5, 300] {
        let numbers = vec![1; count];
        assert_eq!(flip_held(&before, &numbers), "answer 21\n");
        assert_eq!(flip_held(&wrong_sum, &numbers), "answer 2\n");
    }
    // Block A and its edge, with bytes of the file given as numbers, or numbers as bytes of the file.
    let whole = [&before[..], &[0, 1]].concat();
    for length in [0, 1, 510, 511, 513, 514] {
        let (file, numbers) = whole.split_at(length);
        assert_eq!(flip_printed(file, numbers), "answer 1\n", "{length} bytes");
    }
}

#[test]
fn the_script_tells_what_is_wrong_in_one_line() {
    let sample = "samples/block_a.patch";
    let wrong: [&[&str]; 12] = [
        &[],
        &["flip"],
        &["flip", "samples/no_such.patch", "0", "1"],
        &["flip", sample, "0", "256"],
        &["flip", sample, "0", "1", "x"],
        &["flip", sample, ""],
        &[sample, "0", "1", "2"],
        &[sample, "0"],
        &["samples/no_such.patch", "0", "1"],
        &[sample, "0", "256"],
        &[sample, "-1", "1"],
        &[sample, "", "1"],
    ];
    for words in wrong {
        let words: Vec<&OsStr> = words.iter().map(OsStr::new).collect();
        let output = run("./sumpnewt", &words);
        assert!(!output.status.success() && output.stdout.is_empty());
        assert_eq!(String::from_utf8_lossy(&output.stderr).lines().count(), 1);
    }
}

/// What the C example prints of block A.
fn expected_of_the_example() -> String {
    let line = |name: &str, patch: &Patch| {
        let summary = Summary::of(patch);
        let (upright, flat, inverted) = (summary.upright, summary.flat, summary.inverted);
        let (worst, octave) = (summary.worst.unwrap(), summary.octave.unwrap());
        format!("{name}: {upright} upright, {flat} flat, {inverted} inverted, worst score {worst}, octave {octave}\n")
    };
    let mut out = UNTOUCHED;
    let removal = remove(&block_a().to_bytes(), 0, 1, &mut out).expect("done");
    let PageRow { before, after } = removal.page;
    let page = format!("page row: worst quality {before:.6} before, {after:.6} after\n");
    let rows = |name: &str, patch: &Patch| {
        let shown = shown(&patch.to_bytes()).expect("it opens");
        let shown: String = shown.iter().map(|size| format!(" {size:.6}")).collect();
        format!("rows {name}:{shown}\n")
    };
    let summaries = line("before", &block_a()) + &line("after", &block_a_after());
    summaries + &page + &rows("before", &block_a()) + &rows("after", &block_a_after())
}

#[cfg(kernel)]
#[test]
fn the_c_example_builds_without_a_warning_and_prints_what_the_model_says() {
    let parts = ["examples/c/remove_edge.c", ARCHIVE].map(OsStr::new);
    let program = built("remove_edge_c", "-std=c99", &parts);
    assert_eq!(printed(&program, &[]), expected_of_the_example());
}

#[test]
fn the_header_is_c_and_c_plus_plus() {
    let strict = ["-Wall", "-Wextra", "-Werror", "-pedantic", "-fsyntax-only"].map(OsStr::new);
    for language in ["c", "c++"] {
        let rest = ["-x", language, "include/sumpnewt.h"].map(OsStr::new);
        printed("cc", &[&strict[..], &rest[..]].concat());
    }
}
