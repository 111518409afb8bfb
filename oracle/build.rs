//! Takes the published files, applies the patches and writes the module tree around them.

use std::path::{Path, PathBuf};
use std::{env, fs};

/// The files that are compiled, below the `src` of the published folder.
const FILES: &[&str] = &[
    "docset.rs",
    "fieldnorm/code.rs",
    "fieldnorm/reader.rs",
    "postings/block_search.rs",
    "postings/block_segment_postings.rs",
    "postings/compression/mod.rs",
    "postings/compression/vint.rs",
    "postings/segment_postings.rs",
    "postings/skip.rs",
    "query/bm25.rs",
    "query/boolean_query/block_wand_intersection.rs",
    "query/boolean_query/block_wand_union.rs",
    "query/term_query/term_scorer.rs",
];

/// One edit of a published file. `old` must stand there exactly once.
struct Patch {
    name: &'static str,
    file: &'static str,
    old: &'static str,
    new: &'static str,
}

const PATCHES: &[Patch] = &[
    Patch {
        name: "stepped-cut",
        file: "query/bm25.rs",
        old: "self.weight * self.tf_factor(fieldnorm_id, term_freq)",
        new: "crate::standins::step::cut(self.weight * self.tf_factor(fieldnorm_id, term_freq))",
    },
    Patch {
        name: "block-loads",
        file: "postings/block_segment_postings.rs",
        old: "        let offset = self.skip_reader.byte_offset();\n",
        new: "        let offset = self.skip_reader.byte_offset();\n        \
              crate::standins::loads::record(\n            \
              &self.data,\n            \
              self.doc_freq - self.skip_reader.remaining_docs(),\n        \
              );\n",
    },
];

fn published_folder() -> PathBuf {
    println!("cargo:rerun-if-env-changed=NOTERANK_RUST_SRC");
    match env::var_os("NOTERANK_RUST_SRC") {
        Some(folder) => PathBuf::from(folder),
        None => PathBuf::from("../../shared/docs/src"),
    }
}

/// The recording of loads is left out where runs are timed.
fn wanted(patch: &Patch) -> bool {
    patch.name != "block-loads" || env::var_os("CARGO_FEATURE_UNRECORDED").is_none()
}

fn patched(file: &str, mut text: String) -> String {
    for patch in PATCHES.iter().filter(|patch| patch.file == file && wanted(patch)) {
        let found = text.matches(patch.old).count();
        if found != 1 {
            panic!("patch {}: its text stands {found} times in {file}, not once", patch.name);
        }
        text = text.replace(patch.old, patch.new);
    }
    text
}

fn take(folder: &Path, out: &Path, file: &str) {
    let from = folder.join("src").join(file);
    println!("cargo:rerun-if-changed={}", from.display());
    let text = fs::read_to_string(&from).unwrap_or_else(|error| {
        panic!("{}: {error}; NOTERANK_RUST_SRC names the folder", from.display())
    });
    let to = out.join(file);
    fs::create_dir_all(to.parent().expect("every file has a folder")).expect("folder made");
    fs::write(to, patched(file, text)).expect("file written");
}

/// Module paths must be written out, so the tree is a template with one blank.
fn write_tree(out: &Path) {
    println!("cargo:rerun-if-changed=src/published.in");
    let template = fs::read_to_string("src/published.in").expect("the module tree is there");
    let folder = out.display().to_string().replace('\\', "/");
    fs::write(out.join("published.rs"), template.replace("@", &folder)).expect("tree written");
}

fn link_archive() {
    println!("cargo:rerun-if-env-changed=NOTERANK_ARCHIVE");
    if env::var_os("CARGO_FEATURE_ARCHIVE").is_none() {
        return;
    }
    match env::var("NOTERANK_ARCHIVE") {
        Ok(folder) => {
            println!("cargo:rerun-if-changed={folder}/libnoterank.a");
            println!("cargo:rustc-link-search=native={folder}");
        }
        // Enough for `cargo check`.
        Err(_) => println!("cargo:warning=NOTERANK_ARCHIVE names no folder: nothing can be linked"),
    }
    println!("cargo:rustc-link-lib=static=noterank");
}

fn main() {
    println!("cargo:rerun-if-changed=build.rs");
    for patch in PATCHES {
        assert!(FILES.contains(&patch.file), "patch {}: its file is not taken", patch.name);
    }
    let out = PathBuf::from(env::var_os("OUT_DIR").expect("cargo names the folder"));
    let folder = published_folder();
    for file in FILES {
        take(&folder, &out, file);
    }
    write_tree(&out);
    link_archive();
}
