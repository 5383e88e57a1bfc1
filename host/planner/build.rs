//! Tells the linker where the library's archive is: in the folder that the environment variable DATES_LIB names by its full path, as `libexports.a` or as an
//! installed `libdates.a`; else in the repository's `target/staticlib`. Tells the crate its version, which stands in `include/dates.h` alone.

use std::path::{Path, PathBuf};
use std::{env, fs};

fn main() {
    let top = PathBuf::from(env::var_os("CARGO_MANIFEST_DIR").expect("cargo says where the crate is")).join("../..");
    let folder = env::var_os("DATES_LIB").map_or_else(|| top.join("target/staticlib"), PathBuf::from);
    println!("cargo:rerun-if-env-changed=DATES_LIB");
    println!("cargo:rerun-if-changed={}", folder.display());
    match ["exports", "dates"].iter().find(|name| folder.join(format!("lib{}.a", name)).is_file()) {
        Some(name) => {
            println!("cargo:rerun-if-changed={}", folder.join(format!("lib{}.a", name)).display());
            println!("cargo:rustc-link-search=native={}", folder.display());
            println!("cargo:rustc-link-lib=static={}", name);
        }
        None => panic!("{} has no archive: `tools/build library` makes it at the top of the repository, or DATES_LIB names the folder that has it", folder.display()),
    }
    println!("cargo:rustc-env=DATES_VERSION={}", version(&top.join("include/dates.h")));
}

/// The version that the header has.
fn version(header: &Path) -> String {
    println!("cargo:rerun-if-changed={}", header.display());
    let text = fs::read_to_string(header).expect("the header can be read");
    let line = text.lines().find_map(|line| line.strip_prefix("#define DATES_VERSION "));
    line.expect("the header has a version").trim_matches('"').to_string()
}
