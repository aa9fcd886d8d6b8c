//! The cases of the folder cases/: their outputs and pages, the numbers they
//! print and the wrong rules they tell.

use plain::mistakes::Mistake;
use plain::session::{Session, run};
use std::io::sink;
use std::panic::catch_unwind;
use std::path::{Path, PathBuf};

/// What a session prints.
fn printed(input: &[u8], mistake: Mistake) -> Vec<u8> {
    let mut output = Vec::new();
    run(&mut Session::new(mistake), input, &mut output).unwrap();
    output
}

struct Case {
    name: String,
    input: Vec<u8>,
    output: Vec<u8>,
    /// The page at the end of the session, where one was worked out.
    page: Option<String>,
}

fn files() -> impl Iterator<Item = PathBuf> {
    let folder = Path::new(env!("CARGO_MANIFEST_DIR")).join("../cases");
    let files = std::fs::read_dir(folder).unwrap();
    files.map(|entry| entry.unwrap().path())
}

fn cases() -> Vec<Case> {
    let inputs = files().filter(|path| path.extension().is_some_and(|end| end == "in"));
    inputs
        .map(|path| Case {
            name: path.file_stem().unwrap().to_string_lossy().to_string(),
            input: std::fs::read(&path).unwrap(),
            output: std::fs::read(path.with_extension("out")).unwrap(),
            page: std::fs::read_to_string(path.with_extension("page")).ok(),
        })
        .collect()
}

#[test]
fn every_file_belongs_to_a_case() {
    for path in files() {
        let end = path.extension().unwrap().to_string_lossy();
        assert!(["in", "out", "page"].contains(&&*end), "{path:?}");
        assert!(path.with_extension("in").exists(), "{path:?}");
    }
}

#[test]
fn cases_are_answered() {
    let cases = cases();
    assert!(cases.len() > 80);
    for case in cases {
        let printed = printed(&case.input, Mistake::None);
        assert_eq!(printed, case.output, "{}", case.name);
    }
}

#[test]
fn cases_have_their_pages() {
    let mut pages = 0;
    for case in cases() {
        let Some(wanted) = case.page else {
            continue;
        };
        let mut session = Session::new(Mistake::None);
        run(&mut session, case.input.as_slice(), sink()).unwrap();
        assert_eq!(session.page(), wanted, "{}", case.name);
        pages += 1;
    }
    assert!(pages > 30);
}

/// The numbers that a session can print: nothing stays outstanding, each
/// completion fits its command and each buffer has B bytes, so 9, 11, 12 and
/// 15 can't come.
#[test]
fn cases_print_every_number() {
    let mut numbers: Vec<u8> = cases()
        .iter()
        .flat_map(|case| case.output.split(|byte| *byte == b'\n'))
        .filter_map(|line| line.split(|byte| *byte == b' ').next())
        .filter_map(|field| std::str::from_utf8(field).ok()?.parse().ok())
        .collect();
    numbers.sort();
    numbers.dedup();
    assert_eq!(numbers, [0, 1, 2, 3, 4, 5, 6, 7, 8, 10, 13, 14]);
}

/// What a collect tells beside the contents is not printed, and no command
/// stays outstanding.
#[test]
fn cases_tell_every_mistake() {
    let cases = cases();
    let hidden = [
        &Mistake::UNPRINTED[..],
        &Mistake::OUTSTANDING,
        &Mistake::SAVED,
    ]
    .concat();
    let shown = |mistake: &Mistake| !hidden.contains(mistake);
    for mistake in Mistake::ALL.into_iter().filter(shown) {
        let tells = |case: &Case| {
            let input = case.input.clone();
            let output = catch_unwind(move || printed(&input, mistake));
            output.ok().as_ref() != Some(&case.output)
        };
        let told = cases.iter().any(tells);
        assert!(told, "{mistake:?}");
    }
}
