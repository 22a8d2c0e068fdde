//! The tool, run on files of a directory of its own.

use std::env;
use std::fs;
use std::path::{Path, PathBuf};
use std::process::{Command, Output};

/// A directory that goes away with it.
pub struct Room(pub PathBuf);

impl Room {
    pub fn new(name: &str) -> Room {
        let path = env::temp_dir().join(format!("loft-{}-{name}", std::process::id()));
        fs::create_dir_all(&path).expect("a directory for the files");
        Room(path)
    }

    pub fn path(&self, name: &str) -> PathBuf {
        self.0.join(name)
    }
}

impl Drop for Room {
    fn drop(&mut self) {
        let _ = fs::remove_dir_all(&self.0);
    }
}

/// `target/c/loft` of the repository, or what the environment variable LOFT names.
pub fn program() -> PathBuf {
    let usual = Path::new(env!("CARGO_MANIFEST_DIR")).join("../../target/c/loft");
    let path = env::var_os("LOFT").map_or(usual, PathBuf::from);
    assert!(
        path.is_file(),
        "there is no {}: run front/build in the repository",
        path.display()
    );
    path
}

pub fn run(words: &[&str]) -> Output {
    Command::new(program())
        .args(words)
        .output()
        .expect("the tool runs")
}

/// What it answers; it must end with one of these exit codes.
pub fn answer(words: &[&str], codes: &[i32]) -> String {
    let output = run(words);
    let said = String::from_utf8_lossy(&output.stderr).into_owned();
    assert!(
        codes.contains(&output.status.code().unwrap_or(-1)),
        "{words:?}: {:?}: {said}",
        output.status
    );
    String::from_utf8(output.stdout).expect("text")
}
