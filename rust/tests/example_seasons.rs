//! The example of seasons does what it says.

#[path = "common/folder.rs"]
mod folder;
#[path = "../examples/seasons.rs"]
#[allow(dead_code)] // its main
mod seasons;

use folder::Folder;
use seasons::{End, season, three};

#[test]
fn a_season_that_is_lost_is_told_and_made_again() {
    let folder = Folder::new("three-seasons");
    let mut out = Vec::new();
    three(&folder.0, &mut out).unwrap();
    let text = String::from_utf8(out).unwrap();
    let seasons: Vec<&str> = text.split("\n\n").collect();
    assert!(seasons[0].starts_with("a new store: 501 blocks of 16 bytes in 32 partitions"));
    assert!(seasons[0].contains("\nseason 1: 500 fish weighed\nsaved as "));
    assert!(seasons[1].starts_with("the store goes on as it was saved\n"));
    assert!(
        seasons[1].contains("\n  fish 256 had 73 g in season 1\n"),
        "{text}"
    );
    assert!(seasons[1].ends_with("season 2: 500 fish weighed\nand then the power fails"));
    assert!(seasons[2].starts_with("the last season was not saved: "));
    assert!(seasons[2].contains(" slots were written since the save"));
    assert!(
        seasons[2].contains("\n  fish 256 had 73 g in season 1\n"),
        "not of season 2"
    );
    assert!(seasons[2].contains("\nseason 2: 500 fish weighed\nsaved as "));

    let mut out = Vec::new();
    season(&folder.0, End::Saved, &mut out).unwrap();
    let text = String::from_utf8(out).unwrap();
    assert!(text.starts_with("the store goes on as it was saved\n"));
    assert!(
        text.contains(" in season 2\n") && text.contains("\nseason 3: "),
        "{text}"
    );
    assert!(folder.path("client").exists() && folder.path("slots.journal").exists());
}
