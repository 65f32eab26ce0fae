//! Links the archive `libregress_front.a` in the directory that REGRESS_FRONT_LIB names.

use std::path::Path;
use std::{env, process};

fn main() {
    println!("cargo:rerun-if-env-changed=REGRESS_FRONT_LIB");
    // Documentation is made without the library.
    if env::var_os("DOCS_RS").is_some() {
        return;
    }
    let Some(folder) = env::var_os("REGRESS_FRONT_LIB") else {
        fail("REGRESS_FRONT_LIB is not set");
    };
    let Some(folder) = folder.to_str() else {
        fail("REGRESS_FRONT_LIB is not UTF-8");
    };
    let archive = Path::new(folder).join("libregress_front.a");
    if !archive.is_file() {
        fail(&format!("there is no {}", archive.display()));
    }
    println!("cargo:rustc-link-search=native={folder}");
    println!("cargo:rustc-link-lib=static=regress_front");
    println!("cargo:rerun-if-changed={}", archive.display());
}

/// Ends the build with a message.
fn fail(cause: &str) -> ! {
    eprintln!("error: {cause}");
    eprintln!("Set REGRESS_FRONT_LIB to the directory of libregress_front.a: PREFIX/lib after `tools/install PREFIX`.");
    process::exit(1)
}
