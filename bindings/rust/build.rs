//! Finds `libedgebpf.a` and its companion: in the folder that `EDGEBPF_LIBRARY_DIR` names, or else it has `dist/link` build them with
//! the C compiler, which takes a second or two.
use std::fs::create_dir_all;
use std::path::{Path, PathBuf};
use std::process::{exit, Command};

const LIBRARIES: [&str; 2] = ["edgebpf", "edgebpf_algorithms"];
const DIST: [&str; 7] = [
    "libedgebpf.s",
    "libedgebpf-v3.s",
    "libedgebpf-aarch64.s",
    "processor.h",
    "choose_library.c",
    "PROVED",
    "link",
];

fn built(out: &Path) -> PathBuf {
    let dist = Path::new(env!("CARGO_MANIFEST_DIR")).join("../../dist");
    let sources = ["heap.c", "edgebpf.h", "edgebpf_algorithms.c", "edgebpf_algorithms.h"]
        .map(|name| format!("../bindings/c/{name}"));
    for file in DIST.into_iter().chain(sources.iter().map(String::as_str)) {
        println!("cargo:rerun-if-changed={}", dist.join(file).display());
    }
    let folder = out.join("edgebpf");
    // Not by make: the Makefile refuses paths with blanks.
    for name in LIBRARIES.map(|name| format!("lib{name}")) {
        let file = folder.join(format!("{name}.a"));
        let status =
            create_dir_all(&folder).and_then(|()| Command::new(dist.join("link")).arg(&name).arg(file).status());
        if !status.is_ok_and(|status| status.success()) {
            eprintln!("edgebpf: {name}.a could not be built from {}", dist.display());
            eprintln!("edgebpf: it needs a C compiler; or name a folder that has {name}.a by EDGEBPF_LIBRARY_DIR");
            exit(1);
        }
    }
    folder
}

fn main() {
    for name in ["EDGEBPF_LIBRARY_DIR", "CC", "AR", "MACHINE"] {
        println!("cargo:rerun-if-env-changed={name}");
    }
    let out = PathBuf::from(std::env::var_os("OUT_DIR").expect("cargo sets OUT_DIR"));
    let folder = std::env::var_os("EDGEBPF_LIBRARY_DIR").map_or_else(|| built(&out), PathBuf::from);
    println!("cargo:rustc-link-search=native={}", folder.display());
    for name in LIBRARIES.into_iter().rev() {
        if !folder.join(format!("lib{name}.a")).exists() {
            eprintln!("edgebpf: there is no lib{name}.a in {}, which EDGEBPF_LIBRARY_DIR names", folder.display());
            exit(1);
        }
        println!("cargo:rustc-link-lib=static={name}");
    }
    // Its logarithm.
    println!("cargo:rustc-link-lib=m");
}
