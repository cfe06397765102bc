// SPDX-License-Identifier: Apache-2.0
//! Says where the texts are: in the package as it is published, or in the repository around it.
//!
//! Cargo asks for this file too where a package says `links`, which has it refuse two versions of this
//! crate in one program: their functions have the same names, and the linker would take one.

use std::path::Path;

fn main() {
    println!("cargo::rerun-if-changed=build.rs");
    let folder = std::env::var("CARGO_MANIFEST_DIR").unwrap_or_default();
    let places = ["dist", "../../dist"].map(|it| Path::new(&folder).join(it));
    match places.iter().find(|it| it.join("dcsctp-x86_64-elf.s").exists()) {
        Some(found) => println!("cargo::rustc-env=DCSCTP_TEXTS={}", found.display()),
        None => println!("cargo::error=no texts: dist/crate.sh of the repository adds them"),
    }
}
