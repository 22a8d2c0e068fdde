//! Links the command core's static library. A library that is missing, or older than what it is built from, ends the build with what to do.

use std::collections::BTreeSet;
use std::env;
use std::fs;
use std::path::{Path, PathBuf};
use std::process::Command;
use std::time::SystemTime;

/// Another library than the usual one.
const ELSEWHERE: &str = "CHANGER_STATICLIB";
const USUAL: &str = "target/staticlib/libchanger.a";
/// The crate whose exports it holds.
const EXPORTS: &str = "changer";
const BUILD_IT: &str = "run `bin/library` in the repository";

const ENTRIES: [&str; 16] = [
    "smc_command",
    "smc_test_unit_ready",
    "smc_request_sense",
    "smc_reserve",
    "smc_release",
    "smc_prevent_allow",
    "smc_move_medium",
    "smc_exchange_medium",
    "smc_read_element_status",
    "smc_mode_sense",
    "smc_send_volume_tag",
    "smc_request_volume_element_address",
    "smc_import",
    "smc_export",
    "smc_reset",
    "smc_replay",
];

fn main() {
    println!("cargo:rerun-if-env-changed={ELSEWHERE}");
    let here = env::var_os("CARGO_MANIFEST_DIR").map_or_else(PathBuf::new, PathBuf::from);
    let repository = here.join("../..").canonicalize().unwrap_or(here);
    let library = match env::var_os(ELSEWHERE) {
        Some(path) => PathBuf::from(path),
        None => repository.join(USUAL),
    };
    println!("cargo:rerun-if-changed={}", library.display());
    match judge(&library, &repository) {
        Ok(()) => {
            let out = env::var_os("OUT_DIR").map_or_else(PathBuf::new, PathBuf::from);
            link(&isolated(&library, &out).unwrap_or(library));
        }
        Err(why) => println!("cargo::error={why}"),
    }
}

/// What is wrong with the library, and what to do.
fn judge(library: &Path, repository: &Path) -> Result<(), String> {
    if library.is_relative() || !library.is_file() {
        return Err(missing(library));
    }
    let Some(newer) = source_newer_than(library, repository) else {
        return Ok(());
    };
    let age = format!("{} is older than {}", library.display(), newer.display());
    if is_chosen() {
        // It may be an older one on purpose; that is told and not refused.
        println!("cargo::warning={ELSEWHERE}: {age}");
        return Ok(());
    }
    Err(format!("{age}: {BUILD_IT}"))
}

fn is_chosen() -> bool {
    env::var_os(ELSEWHERE).is_some()
}

fn missing(library: &Path) -> String {
    let path = library.display();
    match is_chosen() {
        true if library.is_relative() => {
            format!("{ELSEWHERE} names {path}: the path must be given whole, from / on")
        }
        true => format!("{ELSEWHERE} names {path}, and there is no such file: correct the path, or unset it and {BUILD_IT}"),
        false => format!("the command core is not built, there is no {path}: {BUILD_IT}"),
    }
}

/// A file of the crates behind the library that was changed after the library was written, the newest of them.
fn source_newer_than(library: &Path, repository: &Path) -> Option<PathBuf> {
    let mut newest = (changed(library)?, None);
    for name in crates_behind(&repository.join("crates.txt")) {
        for part in ["src", "specs", "proofs"] {
            let folder = repository.join("crates").join(&name).join(part);
            if folder.is_dir() {
                println!("cargo:rerun-if-changed={}", folder.display());
                find_newer(&folder, &mut newest);
            }
        }
    }
    newest.1
}

fn find_newer(folder: &Path, newest: &mut (SystemTime, Option<PathBuf>)) {
    let entries = fs::read_dir(folder).into_iter().flatten().flatten();
    for path in entries.map(|entry| entry.path()) {
        if path.is_dir() {
            find_newer(&path, newest);
        } else if let Some(time) = changed(&path).filter(|time| *time > newest.0) {
            *newest = (time, Some(path));
        }
    }
}

fn changed(file: &Path) -> Option<SystemTime> {
    fs::metadata(file).and_then(|about| about.modified()).ok()
}

/// The crate of the exports and all that it stands on. A line of the listing is "NAME: what it stands on", or "NAME staticlib: ..".
fn crates_behind(listing: &Path) -> BTreeSet<String> {
    println!("cargo:rerun-if-changed={}", listing.display());
    let text = fs::read_to_string(listing).unwrap_or_default();
    let mut found = BTreeSet::new();
    let mut open = vec![String::from(EXPORTS)];
    while let Some(name) = open.pop() {
        if found.insert(name.clone()) {
            let mut lines = text.lines().filter_map(|line| line.split_once(':'));
            let named = |of: &str| of.split_whitespace().next() == Some(name.as_str());
            let below = lines.find(|(of, _)| named(of)).map_or("", |line| line.1);
            open.extend(below.split_whitespace().map(String::from));
        }
    }
    found
}

fn link(library: &Path) {
    let directory = library.parent().unwrap_or(Path::new("."));
    println!("cargo:rustc-link-search=native={}", directory.display());
    println!("cargo:rustc-link-lib=static:-bundle=changer");
}

/// A copy of the library in which nothing but the entries can be seen from outside. A library that brings
/// its own panic handler or run-time support would clash with the one of the test programs otherwise.
/// None where the tools for it are missing; the library is then linked as it is.
fn isolated(library: &Path, out: &Path) -> Option<PathBuf> {
    let object = out.join("changer.o");
    let archive = out.join("libchanger.a");
    let _ = fs::remove_file(&archive);
    let needed = ENTRIES.iter().flat_map(|entry| ["-u", entry]);
    let mut join = Command::new("ld");
    join.args(["-r", "--force-group-allocation"]).args(needed);
    join.arg("-o").arg(&object).arg(library);
    let mut hide = Command::new("objcopy");
    let kept = ENTRIES.map(|entry| format!("--keep-global-symbol={entry}"));
    // Compiler notes that `ar` may stumble over; they are no part of the program.
    hide.args(["--remove-section=.llvmbc", "--remove-section=.llvmcmd"]);
    hide.args(kept).arg(&object);
    let mut pack = Command::new("ar");
    pack.arg("crs").arg(&archive).arg(&object);
    let done = [join, hide, pack].iter_mut().all(succeeds);
    done.then_some(archive)
}

fn succeeds(command: &mut Command) -> bool {
    command.status().is_ok_and(|status| status.success())
}
