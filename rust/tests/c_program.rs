//! The library links from C and C++ by the prototypes in c/rinwolfedd.h:
//! document 01's worked session prints what the document says, after each
//! collect where the block was found, and the page of the store after it; its
//! client is saved and loaded; the header has a name for each number, and the
//! lengths that shapes have.

use rinwolfedd::{Found, Refusal, Shape, calls};
use std::io::ErrorKind;
use std::path::Path;
use std::process::Command;

const WORKED: &str = "0
0
0 00
found nowhere
0 w 0 0 0
0 w 0 0 1
0 r 0 0 0
0 r 0 0 1
0 w 0 0 0
0 w 0 0 1
0
0 r 0 0 1
0 07
found in level 0
";

/// The last collect left the block waiting and two jobs queued.
const PAGE: &str = concat!(
    "   0     1     0     1     2\n",
    "all      0     0     1      \n",
);

/// A save, the load of a damaged form, which leaves no page to show, and the load
/// of the right one.
const SAVED: &str = "0 512
17
2
0
";

fn printed() -> String {
    [WORKED, PAGE, SAVED, PAGE].concat()
}

const HERE: &str = env!("CARGO_MANIFEST_DIR");

/// Builds the session's program by a compiler, if it is there, and runs it.
fn worked(compiler: &str, language: &[&str], name: &str) -> Option<String> {
    run(
        compiler,
        language,
        name,
        &Path::new(HERE).join("c/worked.c"),
    )
}

/// The same for the program in any file.
fn run(compiler: &str, language: &[&str], name: &str, source: &Path) -> Option<String> {
    let program = Path::new(env!("CARGO_TARGET_TMPDIR")).join(name);
    let built = Command::new(compiler)
        .args(["-Wall", "-Wextra", "-Werror", "-I"])
        .arg(Path::new(HERE).join("c"))
        .arg("-o")
        .arg(&program)
        .args(language)
        .arg(source)
        .args(["-x", "none", env!("RINWOLFEDD_LIBRARY")])
        .output();
    let built = match built {
        Err(error) if error.kind() == ErrorKind::NotFound => return None,
        built => built.unwrap(),
    };
    let told = String::from_utf8_lossy(&built.stderr);
    assert!(built.status.success(), "{told}");
    let ran = Command::new(&program).output().expect("the program runs");
    assert!(ran.status.success());
    Some(String::from_utf8(ran.stdout).unwrap())
}

#[test]
fn the_worked_session_from_c() {
    // the compiler by which Rust links, too
    let worked = worked("cc", &["-std=c99"], "worked");
    assert_eq!(worked.expect("cc runs"), printed());
}

#[test]
fn the_worked_session_from_cpp() {
    match worked("c++", &["-std=c++11", "-x", "c++"], "worked_cpp") {
        Some(worked) => assert_eq!(worked, printed()),
        None => println!("NOT TRIED: there is no c++ on this machine"),
    }
}

/// Some shapes, small and large.
const SHAPES: [Shape; 4] = [
    Shape::new(1, 1, 1, 1),
    Shape::new(64, 4, 5, 64),
    Shape::new(1023, 16, 7, 255),
    Shape::new(4096, 64, 8, 512),
];

/// The lengths of a shape by the header are those of the crate.
#[test]
fn the_header_has_the_lengths_of_shapes() {
    let mut source = String::from("#include \"rinwolfedd.h\"\n#include <stdio.h>\n");
    source += "int main(void)\n{\n";
    let mut wanted = String::new();
    for shape in SHAPES {
        let [n, p, l, b, _, _] = shape.numbers();
        let needed = format!("(unsigned long)rinwolfedd_needed({n}, {p}, {l}, {b})");
        let longest = format!("(unsigned long)rinwolfedd_longest_form({n}, {p}, {l}, {b})");
        let page = format!("(unsigned long)rinwolfedd_page_bytes({p})");
        source += &format!("printf(\"%lu %lu %lu\\n\", {needed}, {longest}, {page});\n");
        let lengths = [shape.needed(), shape.longest_form(), shape.page_bytes()];
        let [needed, longest, page] = lengths.map(Option::unwrap);
        wanted += &format!("{needed} {longest} {page}\n");
    }
    source += "return 0;\n}\n";
    let path = Path::new(env!("CARGO_TARGET_TMPDIR")).join("lengths.c");
    std::fs::write(&path, source).unwrap();
    let printed = run("cc", &["-std=c99"], "lengths", &path);
    assert_eq!(printed.expect("cc runs"), wanted);
}

/// A refusal's name in C: NoSuchBlock is NO_SUCH_BLOCK.
fn in_c(refusal: Refusal) -> String {
    let mut name = String::new();
    for letter in format!("{refusal:?}").chars() {
        if letter.is_uppercase() {
            name.push('_');
        }
        name.push(letter.to_ascii_uppercase());
    }
    name
}

#[test]
fn the_header_has_a_name_for_each_number() {
    let header = std::fs::read_to_string(Path::new(HERE).join("c/rinwolfedd.h")).unwrap();
    let words: Vec<&str> = header.split_whitespace().collect();
    let has = |name: &str, number: usize| {
        let number = number.to_string();
        let wanted = [name, "=", &number];
        let is = |word: &str, wanted: &str| word.trim_end_matches(',') == wanted;
        let mut all = words.windows(3);
        all.any(|three| three.iter().zip(wanted).all(|(word, w)| is(word, w)))
    };
    for refusal in Refusal::ALL {
        let name = format!("RINWOLFEDD{}", in_c(*refusal));
        assert!(has(&name, refusal.number().into()), "{name}");
    }
    assert!(has("RINWOLFEDD_ACCEPTED", 0) && !has("RINWOLFEDD_ACCEPTED", 1));
    let places = [Found::Nowhere, Found::Cache, Found::Level(0)];
    for (name, found) in ["NOWHERE", "CACHE", "LEVEL"].into_iter().zip(places) {
        let name = format!("RINWOLFEDD_{name}");
        assert!(has(&name, found.number().into()), "{name}");
    }
    assert!(has("RINWOLFEDD_STATE", calls::STATE));
    assert!(has("RINWOLFEDD_READ", calls::READ) && has("RINWOLFEDD_WRITE", calls::WRITE));
    assert!(has("RINWOLFEDD_LINE", calls::LINE) && has("RINWOLFEDD_PAGE", calls::PAGE));
    assert!(has("RINWOLFEDD_BLOCK", calls::BLOCK));
    let longest = Shape::new(1, 64, 1, 1).page_bytes();
    assert_eq!(longest, Some(calls::PAGE));
}
