//! The example does what it says.

#[path = "../examples/genotypes.rs"]
#[allow(dead_code)] // its main
mod genotypes;

#[test]
fn the_example_stores_fish_and_shows_two_look_ups() {
    let name = format!("rinwolfedd-example-{}", std::process::id());
    let path = std::env::temp_dir().join(name);
    let mut out = Vec::new();
    let result = genotypes::run(&path, &mut out);
    let length = std::fs::metadata(&path).map(|file| file.len());
    std::fs::remove_file(&path).unwrap();
    result.unwrap();
    assert_eq!(length.unwrap(), 64 * 510 * 512);
    let text = String::from_utf8(out).unwrap();
    assert!(text.starts_with("4096 fish stored with "));
    assert!(text.contains("\nfish 1234: SSA-2023-01234, female, family 77, call rate 98.8 %"));
    assert!(text.contains("\nfish 17: SSA-2022-00017, male, family 1, "));
    let seen = text
        .split("The commands that the host saw:")
        .nth(1)
        .unwrap();
    // each look-up begins with reads, one to each filled level
    let first = seen
        .lines()
        .find(|line| line.contains("partition"))
        .unwrap();
    assert_eq!(first.matches("read  partition").count(), 2, "{first}");
    check_waits(seen);
    let (page, tally) = text
        .split("The page of the store")
        .nth(1)
        .and_then(|rest| rest.split_once("Where the look-ups found their fish"))
        .unwrap();
    check_page(page);
    check_tally(tally);
}

/// Where jobs run meanwhile, a look-up waits for a read to each filled level and
/// for nothing else.
fn check_waits(told: &str) {
    let [whole, left] = ["at once: ", "looked at: "].map(|name| {
        let line = told.split(name).nth(1).unwrap().trim_start();
        let (mean, rest) = line.split_once(" commands on average, ").unwrap();
        let (most, _) = rest.split_once(" at most").unwrap();
        [mean, most].map(|number| number.parse::<f64>().unwrap())
    });
    assert!(left[0] <= left[1] && left[1] <= 8.0, "{told}");
    assert!(whole[0] <= whole[1] && whole[0] > 4.0, "{told}");
}

/// The page is cut after four partitions. By its last line no fish is nowhere,
/// and where they are is said again.
fn check_page(page: &str) {
    assert!(page.contains("\n     3 ") && !page.contains("\n     4 "));
    assert!(page.contains("\n  .. and 60 partitions more\n  all      0"));
    let last = page.split("\n  all ").nth(1).unwrap();
    let last = last.lines().next().unwrap().split_whitespace();
    let figures: Vec<usize> = last.map(|figure| figure.parse().unwrap()).collect();
    let [0, stored, waiting] = figures[..] else {
        panic!("{figures:?}");
    };
    assert_eq!(stored + waiting, 4096);
    let said = format!("\n{stored} fish are in the file, and {waiting} wait ");
    assert!(page.contains(&said), "{page}");
}

/// The look-ups are those that stored each fish, which was nowhere then, and 18
/// more; where these found theirs adds up.
fn check_tally(told: &str) {
    let tally = told.lines().last().unwrap();
    let places = tally
        .strip_prefix("  4114 look-ups: 4096 found nowhere, ")
        .unwrap();
    let found = places.split(", ").map(|place| {
        let (count, place) = place.split_once(" in ").unwrap();
        assert!(place == "the cache" || place.starts_with("level "));
        count.parse::<usize>().unwrap()
    });
    assert_eq!(found.sum::<usize>(), 18, "{told}");
}

#[test]
fn an_error_is_told_with_its_causes() {
    let error = rinwolfedd::Error::from(rinwolfedd::Refusal::NoSuchBlock);
    let text = "the store refused: refusal 5: there is no such block";
    assert_eq!(genotypes::told(&error), text);
}
