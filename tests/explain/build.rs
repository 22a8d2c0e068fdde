//! Compiles `explain/smc_explain.c` of the repository.

use std::env;
use std::path::PathBuf;
use std::process::Command;

const SOURCE: &str = "../../explain/smc_explain.c";
const FLAGS: [&str; 6] = ["-std=c11", "-O2", "-Wall", "-Wextra", "-Werror", "-c"];

fn main() {
    for part in [SOURCE, "../../include/smc_explain.h", "../../include/smc.h"] {
        println!("cargo:rerun-if-changed={part}");
    }
    let out = env::var_os("OUT_DIR").map_or_else(PathBuf::new, PathBuf::from);
    let object = out.join("explain.o");
    let archive = out.join("libexplain_c.a");
    let _ = std::fs::remove_file(&archive);
    let mut compile = Command::new("gcc");
    compile.args(FLAGS).arg("-I../../include");
    compile.arg(SOURCE).arg("-o").arg(&object);
    let mut pack = Command::new("ar");
    pack.arg("crs").arg(&archive).arg(&object);
    for mut step in [compile, pack] {
        if !step.status().is_ok_and(|status| status.success()) {
            println!("cargo::error={SOURCE} could not be compiled; gcc and ar are needed");
        }
    }
    println!("cargo:rustc-link-search=native={}", out.display());
    println!("cargo:rustc-link-lib=static=explain_c");
}
