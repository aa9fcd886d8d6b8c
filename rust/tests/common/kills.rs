//! A test that is run once more as a program of its own, and killed.

use crate::folder::Folder;
use std::ffi::OsString;
use std::io::{BufRead, BufReader};
use std::os::unix::process::ExitStatusExt;
use std::process::{Child, Command, Stdio};
use std::time::Duration;

/// What tells the program that is killed from the one that kills it: the folder
/// of its files, and the seed of what it does.
const FOLDER: &str = "RINWOLFEDD_KILLED_FOLDER";
const SEED: &str = "RINWOLFEDD_KILLED_SEED";

/// What the program says once it has come back.
pub const WORKS: &str = "it works";

/// How often to kill: RINWOLFEDD_KILLS, or seldom enough for every day.
pub fn kills() -> u64 {
    let asked = std::env::var("RINWOLFEDD_KILLS");
    asked.map_or(200, |text| {
        text.parse().expect("RINWOLFEDD_KILLS is a number")
    })
}

/// The folder and the seed of the program that is to be killed, if this is it.
pub fn is_killed() -> Option<(OsString, u64)> {
    let folder = std::env::var_os(FOLDER)?;
    let seed = std::env::var(SEED).expect("the program has a seed");
    Some((folder, seed.parse().expect("it is a number")))
}

/// Runs this test once more, as the program that is killed.
pub fn start(test: &str, folder: &Folder, seed: u64) -> Child {
    Command::new(std::env::current_exe().unwrap())
        .args(["--exact", test, "--nocapture"])
        .env(FOLDER, &folder.0)
        .env(SEED, seed.to_string())
        .stdout(Stdio::piped())
        .stderr(Stdio::piped())
        .spawn()
        .unwrap()
}

/// Lets a program run for so long, or work for so long, and kills it. It ended by
/// that, and not because something was wrong. Hands out what it said.
pub fn kill(mut child: Child, works: bool, after: Duration) -> Vec<String> {
    let mut lines = BufReader::new(child.stdout.take().unwrap()).lines();
    let mut said = Vec::new();
    while works
        && said
            .last()
            .is_none_or(|line: &String| !line.ends_with(WORKS))
    {
        match lines.next() {
            Some(line) => said.push(line.unwrap()),
            None => break, // it ended, which is told below
        }
    }
    std::thread::sleep(after);
    child.kill().unwrap();
    // what it was about to say may be cut
    said.extend(lines.map_while(Result::ok));
    let ended = child.wait_with_output().unwrap();
    let told = String::from_utf8_lossy(&ended.stderr);
    assert_eq!(ended.status.signal(), Some(9), "{:?}: {told}", ended.status);
    said
}
