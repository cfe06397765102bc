// SPDX-License-Identifier: Apache-2.0
//! That each public type and function is in an example, which `cargo test` runs; that each source begins
//! with its licence; and that the version is the library's.

use std::collections::HashSet;
use std::path::PathBuf;

/// The sources of a folder of this package, each as its path and its text.
fn sources(folder: &str) -> Vec<(PathBuf, String)> {
    let folder = PathBuf::from(env!("CARGO_MANIFEST_DIR")).join(folder);
    let paths = std::fs::read_dir(folder).unwrap().map(|it| it.unwrap().path());
    let sources = paths.filter(|it| it.extension().is_some_and(|it| it == "rs"));
    sources.map(|it| (it.clone(), std::fs::read_to_string(&it).unwrap())).collect()
}

/// The public types and functions of a source whose names are in no example.
fn without_example<'a>(source: &'a str, examples: &str) -> Vec<&'a str> {
    let lines = source.lines().map(str::trim_start);
    let items = lines.filter_map(|line| {
        let rest = line.strip_prefix("pub ")?;
        let rest = rest.strip_prefix("const ").unwrap_or(rest);
        let starts = ["fn ", "struct ", "enum "];
        starts.iter().find_map(|it| rest.strip_prefix(it))?.split(['(', '<', ' ', '{', ';']).next()
    });
    let is_word = |it: char| it.is_alphanumeric() || it == '_';
    let words: HashSet<&str> = examples.split(|it| !is_word(it)).collect();
    items.filter(|it| !it.starts_with('$') && !words.contains(it)).collect()
}

/// The lines of the examples in the docs of a source, also in the README.
fn examples(source: &str) -> String {
    let lines = source.lines().map(|it| it.trim_start().trim_start_matches('/').trim_start());
    lines.collect::<Vec<_>>().join("\n").split("```").skip(1).step_by(2).collect()
}

#[test]
fn each_item_is_in_an_example() {
    // (ffi.rs is private: its `pub` is for this crate)
    let sources: Vec<_> =
        sources("src").into_iter().filter(|it| !it.0.ends_with("ffi.rs")).collect();
    let all: String = sources.iter().map(|it| examples(&it.1)).collect();
    let all = all + &examples(include_str!("../README.md"));
    for (path, source) in &sources {
        assert_eq!(without_example(source, &all), [""; 0], "{}", path.display());
    }
    assert_eq!(without_example("pub fn g() {}", &examples("```\nf()\n```")), ["g"]);
}

#[test]
fn the_version_is_that_of_the_library() {
    let numbers = davgyuti::VERSION.split('.').map(|it| it.parse::<u32>().unwrap());
    assert_eq!(davgyuti::version_number(), numbers.fold(0, |sum, it| sum * 256 + it));
}

#[test]
fn each_source_begins_with_its_licence() {
    let folders = ["", "src", "tests", "tests/common", "tests/vectors", "examples"].map(sources);
    assert!(folders.iter().all(|it| !it.is_empty()));
    for (path, source) in folders.concat() {
        let first = "// SPDX-License-Identifier: Apache-2.0\n";
        assert!(source.starts_with(first), "{}", path.display());
    }
}
