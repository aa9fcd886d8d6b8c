//! Links the library of the proved calls, which `scripts/library` writes, from
//! the folder named in `RINWOLFEDD_LIB_DIR` or, without it, from the
//! repository's. Where nothing is linked, as under clippy and rustdoc,
//! `RINWOLFEDD_UNLINKED` says that the library may be missing.

use std::env;
use std::ffi::OsString;
use std::path::{Path, PathBuf};

const FOLDER: &str = "RINWOLFEDD_LIB_DIR";
const UNLINKED: &str = "RINWOLFEDD_UNLINKED";

/// What the library is for.
const TARGET: [&str; 2] = ["x86_64", "linux"];

/// The folder that is asked for, from the package's if it is relative, or the
/// repository's.
pub(crate) fn folder(package: &Path, asked: Option<OsString>) -> PathBuf {
    let asked = asked.filter(|folder| !folder.is_empty());
    package.join(asked.unwrap_or_else(|| "../target/staticlib".into()))
}

/// What cargo is told of the package and a library in this folder, for this
/// architecture and system.
pub(crate) fn told(
    package: &Path,
    folder: &Path,
    exists: impl Fn(&Path) -> bool,
    target: [&str; 2],
    unlinked: bool,
) -> Vec<String> {
    let library = folder.join("librinwolfedd.a");
    let (header, folder) = (package.join("c"), folder.display());
    let path = library.display();
    let mut lines = vec![
        "rerun-if-changed=build.rs".into(),
        format!("rerun-if-changed={path}"),
        format!("rerun-if-env-changed={FOLDER}"),
        format!("rerun-if-env-changed={UNLINKED}"),
        // for the test that links it from C
        format!("rustc-env=RINWOLFEDD_LIBRARY={path}"),
        // the C header, for the build scripts of packages that depend on this one
        format!("metadata=include={}", header.display()),
    ];
    if target != TARGET {
        let ([wants, wants_os], [is, is_os]) = (TARGET, target);
        lines.push(format!(
            "error=the library is for {wants} {wants_os}, and the target is {is} {is_os}"
        ));
    } else if exists(&library) {
        lines.push(format!("rustc-link-search=native={folder}"));
        lines.push("rustc-link-lib=static=rinwolfedd".into());
    } else {
        lines.push(format!(
            "error={path} is missing: run `scripts/library` in the repository, \
             or set {FOLDER} to the folder that has it (an absolute path), \
             or {UNLINKED}=1 where nothing is linked"
        ));
    }
    lines.retain(|line| !(unlinked && line.starts_with("error=")));
    lines
}

fn main() {
    let variable = |name| env::var(name).unwrap_or_default();
    let package = PathBuf::from(env::var_os("CARGO_MANIFEST_DIR").unwrap_or_default());
    let folder = folder(&package, env::var_os(FOLDER));
    let target = ["CARGO_CFG_TARGET_ARCH", "CARGO_CFG_TARGET_OS"].map(variable);
    let target = [&target[0][..], &target[1][..]];
    let unlinked = env::var_os(UNLINKED).is_some();
    for line in told(&package, &folder, Path::exists, target, unlinked) {
        println!("cargo::{line}");
    }
}
