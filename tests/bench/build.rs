//! Compiles the plain implementation, `c/plain.c`, as a C engineer would who wants speed.

use std::env;
use std::path::PathBuf;
use std::process::Command;

const FLAGS: [&str; 6] = ["-std=c11", "-O3", "-Wall", "-Wextra", "-Werror", "-c"];

fn main() {
    for part in ["c/plain.c", "c/plain.h", "../../include/smc.h"] {
        println!("cargo:rerun-if-changed={part}");
    }
    let out = env::var_os("OUT_DIR").map_or_else(PathBuf::new, PathBuf::from);
    let object = out.join("plain.o");
    let archive = out.join("libplain.a");
    let _ = std::fs::remove_file(&archive);
    let mut compile = Command::new("gcc");
    compile.args(FLAGS).arg("-I../../include");
    compile.arg("c/plain.c").arg("-o").arg(&object);
    let mut pack = Command::new("ar");
    pack.arg("crs").arg(&archive).arg(&object);
    for mut step in [compile, pack] {
        if !step.status().is_ok_and(|status| status.success()) {
            println!("cargo::error=bench/c/plain.c could not be compiled; gcc and ar are needed");
        }
    }
    println!("cargo:rustc-link-search=native={}", out.display());
    println!("cargo:rustc-link-lib=static=plain");
}
