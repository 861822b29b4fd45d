//! Links the proved planner's archive where it can be, or says that it is
//! missing.

use std::path::Path;

const FOLDER: &str = "../target/staticlib";

fn main() {
    println!("cargo::rustc-check-cfg=cfg(no_archive)");
    println!("cargo::rerun-if-changed=build.rs");
    // A changed archive must be linked anew; a missing one is looked for again
    // at each build.
    println!("cargo::rerun-if-changed={FOLDER}/libilhuepatl.a");

    // The machine that is built for, not the one that builds.
    let for_x86_64 = std::env::var("CARGO_CFG_TARGET_ARCH").is_ok_and(|arch| arch == "x86_64");
    if !for_x86_64 {
        // The archive is for x86-64 alone, whether it is there or not.
        println!("cargo::rustc-cfg=no_archive");
    } else if Path::new(FOLDER).join("libilhuepatl.a").exists() {
        let folder = Path::new(FOLDER)
            .canonicalize()
            .expect("a folder with a file in it has a full path");
        println!("cargo::rustc-link-search=native={}", folder.display());
        // Not bundled into our library, so that each program links the archive
        // that stands there now.
        println!("cargo::rustc-link-lib=static:-bundle=ilhuepatl");
    } else {
        // The corpus needs the second planner alone, so this is no error yet:
        // a program that asks the proved planner stops with the same words.
        println!("cargo::rustc-cfg=no_archive");
        println!(
            "cargo::warning=target/staticlib/libilhuepatl.a is missing: run \
             `tools/archive` at the repository root and build again"
        );
    }
}
