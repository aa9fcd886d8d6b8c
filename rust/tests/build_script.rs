//! Where the build script looks for the library, and what it says if it is not
//! there.

#[path = "../build.rs"]
#[allow(dead_code)] // its main
mod build;

use build::folder;
use std::path::Path;

const PACKAGE: &str = "/package";
const FOLDER: &str = "/package/../target/staticlib";
const TARGET: [&str; 2] = ["x86_64", "linux"];

/// What is told where the library is, or is not, for a target.
fn told(there: bool, target: [&str; 2], unlinked: bool) -> Vec<String> {
    let library = Path::new(FOLDER).join("librinwolfedd.a");
    let exists = |path: &Path| there && path == library;
    build::told(PACKAGE.as_ref(), FOLDER.as_ref(), exists, target, unlinked)
}

#[test]
fn the_folder_is_the_one_asked_for_or_the_repositorys() {
    let package = Path::new(PACKAGE);
    for (asked, wanted) in [
        (None, FOLDER),
        (Some(""), FOLDER),
        (Some("/usr/lib"), "/usr/lib"),
        (Some("lib"), "/package/lib"),
    ] {
        assert_eq!(folder(package, asked.map(Into::into)), Path::new(wanted));
    }
}

/// Cargo runs the script again when the library or where to look has changed.
fn runs_again(lines: &[String]) -> bool {
    let wanted = [
        "rerun-if-changed=build.rs",
        "rerun-if-changed=/package/../target/staticlib/librinwolfedd.a",
        "rerun-if-env-changed=RINWOLFEDD_LIB_DIR",
        "rerun-if-env-changed=RINWOLFEDD_UNLINKED",
    ];
    wanted.iter().all(|line| lines.iter().any(|l| l == line))
}

fn any(lines: &[String], start: &str) -> bool {
    lines.iter().any(|line| line.starts_with(start))
}

#[test]
fn a_library_is_linked_by_its_name() {
    for unlinked in [false, true] {
        let lines = told(true, TARGET, unlinked);
        assert!(any(&lines, "metadata=include=/package/c"));
        assert!(runs_again(&lines) && !any(&lines, "error="));
        assert!(any(&lines, "rustc-link-lib=static=rinwolfedd"));
        assert!(any(&lines, &format!("rustc-link-search=native={FOLDER}")));
    }
}

#[test]
fn a_missing_library_is_an_error_that_says_what_to_run() {
    let lines = told(false, TARGET, false);
    assert!(runs_again(&lines) && !any(&lines, "rustc-link"));
    let error = lines.last().unwrap();
    for part in [
        "error=/package/../target/staticlib/librinwolfedd.a is missing",
        "scripts/library",
        "RINWOLFEDD_LIB_DIR",
        "RINWOLFEDD_UNLINKED=1",
    ] {
        assert!(error.contains(part), "{error}");
    }
    let unlinked = told(false, TARGET, true);
    assert!(runs_again(&unlinked) && !any(&unlinked, "error="));
    assert!(!any(&unlinked, "rustc-link"));
}

#[test]
fn a_target_that_the_library_is_not_for_is_an_error() {
    for target in [["aarch64", "linux"], ["x86_64", "macos"], ["", ""]] {
        let lines = told(true, target, false);
        assert!(runs_again(&lines) && !any(&lines, "rustc-link"));
        assert!(any(&lines, "error=the library is for x86_64 linux, and "));
        let unlinked = told(true, target, true);
        assert!(!any(&unlinked, "rustc-link") && !any(&unlinked, "error="));
    }
}
