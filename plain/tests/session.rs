//! The session program: document 01's worked session, and which lines are
//! well-formed.

use plain::mistakes::Mistake;
use plain::session::{Line, Session, parse, run};
use plain::shape::Shape;

/// What a session prints.
fn answers(input: &[u8]) -> String {
    let mut output = Vec::new();
    run(&mut Session::new(Mistake::None), input, &mut output).unwrap();
    String::from_utf8(output).unwrap()
}

#[test]
fn worked_session() {
    let input = "T 0 0 0 1 0 0 0\nO 1 1 1 1 1 1\nW 0 07\nC\nt\nt\nt\nt\nt\nt\nR 0\nt\nC\n";
    let wanted = "0\n0\n0 00\n0 w 0 0 0\n0 w 0 0 1\n0 r 0 0 0\n0 r 0 0 1\n\
                  0 w 0 0 0\n0 w 0 0 1\n0\n0 r 0 0 1\n0 07\n";
    assert_eq!(answers(input.as_bytes()), wanted);
}

#[test]
fn well_formed_lines() {
    let most = vec!["65535"; 8192].join(" ");
    let longest = format!("T {most}");
    assert_eq!(
        parse(longest.as_bytes()),
        Some(Line::Tape(vec![65535; 8192]))
    );
    assert_eq!(parse(b"T"), Some(Line::Tape(Vec::new())));
    let shape = Shape::new(0, 10, 65535, 9, 100, 1);
    assert_eq!(parse(b"O 0 10 65535 9 100 1"), Some(Line::Open(shape)));
    assert_eq!(parse(b"R 65535"), Some(Line::Read(65535)));
    assert_eq!(parse(b"W 0 09af"), Some(Line::Write(0, vec![0x09, 0xaf])));
    let contents = format!("W 3 {}", "ff".repeat(1024));
    assert_eq!(
        parse(contents.as_bytes()),
        Some(Line::Write(3, vec![255; 1024]))
    );
    assert_eq!(parse(b"t"), Some(Line::Turn));
    assert_eq!(parse(b"C"), Some(Line::Collect));
}

#[test]
fn malformed_lines() {
    let many = format!("T{}", " 0".repeat(8193));
    let long = format!("W 0 {}", "00".repeat(1025));
    let lines: [&[u8]; 24] = [
        b"",
        b" ",
        b"C ",
        b" C",
        b"C\r",
        b"C\0",
        b"\0",
        b"X",
        b"c",
        b"t 0",
        b"R",
        b"R  0",
        b"R 00",
        b"R 65536",
        b"R 4294967296",
        b"R +1",
        b"W 0",
        b"W 0 ",
        b"W 0 0",
        b"W 0 0A",
        b"W 0 0\xe9",
        b"O 1 1 1 1 1",
        many.as_bytes(),
        long.as_bytes(),
    ];
    for line in lines {
        assert_eq!(parse(line), None, "{:?}", String::from_utf8_lossy(line));
        let input = [b"C\n", line, b"\nC\n"].concat();
        assert_eq!(answers(&input), "2\n");
    }
    assert_eq!(answers(b"C\nT 0\nC\n"), "2\n");
    assert_eq!(answers(b"T 0\nT 0\nC\n"), "");
    assert_eq!(answers(b"C\nC"), "2\n");
    assert_eq!(answers(&vec![b'T'; 1_000_000]), "");
    assert_eq!(answers(&vec![b'\n'; 1_000_000]), "");
}
